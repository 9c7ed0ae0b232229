#!/usr/bin/python3
"""An engine that fails once. DIE is `FORM LINE WHEN FOLDER`: at that line of that form it ends `before` the engine gets the
line, `after` the engine answered (nothing of the block is written) or when `half` of the block is written; or it says
that it has no `memory`, and goes on. With `host-before` and `host-after` it first kills the host. It does so once a file `armed` is in the folder, and then writes a file `failed`
there. A line `[]` counts as none."""

import os
import signal
import subprocess
import sys
import time

REAL = os.environ["LD_REAL"]
FORM, LINE, WHEN, FOLDER = os.environ["DIE"].split(" ")
ARMED, FAILED = f"{FOLDER}/armed", f"{FOLDER}/failed"
if sys.argv[1] != FORM or os.path.exists(FAILED) or not os.path.exists(ARMED):
    os.execv(REAL, [REAL, *sys.argv[1:]])


def block(engine):
    head = engine.stdout.readline()
    more = int(head.rsplit(b"lines=", 1)[1]) if b" lines=" in head else 0
    return head + b"".join(engine.stdout.readline() for _ in range(more))


def say(reply):
    sys.stdout.buffer.write(reply)
    sys.stdout.buffer.flush()


def ask(engine, line):
    engine.stdin.write(line)
    engine.stdin.flush()
    return block(engine)


def main():
    engine = subprocess.Popen([REAL, *sys.argv[1:]], stdin=subprocess.PIPE, stdout=subprocess.PIPE)
    number = 0
    for line in iter(sys.stdin.buffer.readline, b""):
        number += line != b"[]\n"
        if number != int(LINE) or line == b"[]\n" or os.path.exists(FAILED):
            say(ask(engine, line))
            continue
        open(FAILED, "w").close()
        if WHEN == "memory":
            say(b"no 99 no-memory\n")
            continue
        if not WHEN.endswith("before"):
            reply = ask(engine, line)
            say(reply[: len(reply) // 2] if WHEN == "half" else b"")
        if WHEN.startswith("host"):
            os.kill(os.getppid(), signal.SIGKILL)
        end(engine)
    engine.stdin.close()
    sys.exit(engine.wait())


def end(engine):
    engine.stdin.close()
    engine.wait()
    if FORM == "replay":
        time.sleep(0.3)  # by now the keeper has the line
    os._exit(77)


main()
