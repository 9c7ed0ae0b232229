#!/usr/bin/python3
"""An engine whose form `replay` answers the line that holds LIE in another way than the engine LD_REAL would."""

import os
import subprocess
import sys

REAL, LIE = os.environ["LD_REAL"], os.environ["LIE"].encode()
if sys.argv[1] != "replay":
    os.execv(REAL, [REAL, *sys.argv[1:]])


def main():
    engine = subprocess.Popen([REAL, *sys.argv[1:]], stdin=subprocess.PIPE, stdout=subprocess.PIPE)
    for line in iter(sys.stdin.buffer.readline, b""):
        engine.stdin.write(line)
        engine.stdin.flush()
        head = engine.stdout.readline()
        more = int(head.rsplit(b"lines=", 1)[1]) if b" lines=" in head else 0
        block = head + b"".join(engine.stdout.readline() for _ in range(more))
        sys.stdout.buffer.write(block.replace(b"fired=", b"fired=9") if LIE in line else block)
        sys.stdout.buffer.flush()
    engine.stdin.close()
    sys.exit(engine.wait())


main()
