#!/usr/bin/python3
"""The engine LD_REAL with the verb `next`, as far as the course `limit` needs it: the alarm is two seconds after the
first `open` of a run, until a line of the run at that moment or later."""

import json
import os
import subprocess
import sys
from datetime import datetime, timedelta

REAL, FORM = os.environ["LD_REAL"], "%Y-%m-%dT%H:%M:%SZ"
if sys.argv[1] != "replay":
    os.execv(REAL, [REAL, *sys.argv[1:]])


class Runs:
    def __init__(self):
        self.alarms = {}

    def answer(self, line):
        """The reply to `next`; None to another line, which is taken notice of."""
        moment, verb, run, *_ = [*json.loads(line), "", "", ""]
        if verb == "next":
            return f"ok next turns=0 fired=0 rejected=0 sent=0 at={self.alarms.get(run) or 'none'}\n".encode()
        if verb == "open" and run not in self.alarms:
            self.alarms[run] = (datetime.strptime(moment, FORM) + timedelta(seconds=2)).strftime(FORM)
        elif run in self.alarms and self.alarms[run] and moment >= self.alarms[run]:
            self.alarms[run] = None
        return None


def main():
    engine = subprocess.Popen([REAL, *sys.argv[1:]], stdin=subprocess.PIPE, stdout=subprocess.PIPE)
    runs = Runs()
    for line in iter(sys.stdin.buffer.readline, b""):
        block = runs.answer(line)
        if block is None:
            engine.stdin.write(line)
            engine.stdin.flush()
            block = engine.stdout.readline()
            more = int(block.rsplit(b"lines=", 1)[1]) if b" lines=" in block else 0
            block += b"".join(engine.stdout.readline() for _ in range(more))
        sys.stdout.buffer.write(block)
        sys.stdout.buffer.flush()
    engine.stdin.close()
    sys.exit(engine.wait())


main()
