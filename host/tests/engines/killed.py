#!/usr/bin/python3
"""The engine LD_REAL, which is killed while it starts: a process of the form KILLED, once for each file that it finds in the folder
ROOM."""

import os
import signal
import sys
from pathlib import Path

REAL, KILLED, ROOM = os.environ["LD_REAL"], os.environ["KILLED"], Path(os.environ["ROOM"])
if sys.argv[1] == KILLED:
    for mark in ROOM.iterdir():
        mark.unlink()
        os.kill(os.getpid(), signal.SIGKILL)
os.execv(REAL, [REAL, *sys.argv[1:]])
