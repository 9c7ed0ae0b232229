#!/usr/bin/env python3
"""Measures how long `ld replay FOLDER` takes with no input, from its start to its end.

    tests/measure.py [RUNS]

It makes folders in a temporary place, calls the built program on each RUNS times (11 where no number is
given), and prints the size of the folder, the status, and the median and the least of the times. The
figures of docs/PERFORMANCE.md were taken so.
"""
import json
import os
import statistics
import subprocess
import sys
import tempfile
import time

ROOT = os.path.dirname(os.path.dirname(os.path.abspath(__file__)))
PROGRAM = os.path.join(ROOT, "crates", "ld_program", "out", "ld_program")
FILE_LIMIT = 4_194_304


def unit(target):
    part = {"identifier": "rp", "role": "r0", "ref": target}
    act = {"identifier": "act", "role-parts": [part]}
    play = {"identifier": "play", "acts": [act]}
    return {"format": 1, "identifier": "u", "level": "A", "method": {"plays": [play]}}


def roles(count):
    return {"roles": [{"identifier": f"r{i}", "kind": "learner"} for i in range(count)]}


def activity(number, items, address):
    shown = [
        {"identifier": f"i{number}.{i}", "href": "h" * address, "title": "Text"}
        for i in range(items)
    ]
    return {
        "identifier": f"a{number}",
        "title": "Activity",
        "complete": {"user-choice": True},
        "items": shown,
    }


def course(count, items, address):
    """A unit without a fault: 60 roles, and so many activities with so many items each."""
    activities = [activity(i, items, address) for i in range(count)]
    return {"roles.json": roles(60), "activities.json": {"activities": activities}, "unit.json": unit("a0")}


def cycle(count):
    """So many structures, each the child of the one before it, the first that of the last."""
    structures = [
        {"identifier": f"s{i}", "kind": "sequence", "children": [f"s{(i + 1) % count}"]}
        for i in range(count)
    ]
    return {"roles.json": roles(1), "activities.json": {"structures": structures}, "unit.json": unit("s0")}


CASES = [
    ("one activity", course(1, 0, 1)),
    ("400 activities, 4,000 items, 0.9 MB", course(400, 10, 150)),
    ("400 activities, 4,000 items, 4 MB", course(400, 10, 960)),
    ("45,000 structures in one cycle", cycle(45_000)),
]


def write(folder, documents):
    """Writes the documents of a folder; the bytes of all."""
    size = 0
    for name, document in documents.items():
        text = json.dumps(document, separators=(",", ":")).encode()
        if len(text) > FILE_LIMIT:
            sys.exit(f"{name} has {len(text)} bytes, more than a file may have")
        with open(os.path.join(folder, name), "wb") as file:
            file.write(text)
        size += len(text)
    return size


def timed(folder):
    before = time.perf_counter()
    done = subprocess.run([PROGRAM, "replay", folder], stdin=subprocess.DEVNULL, capture_output=True)
    return time.perf_counter() - before, done.returncode, done.stdout.decode().strip()


def main():
    runs = int(sys.argv[1]) if len(sys.argv) > 1 else 11
    print(f"{'folder':38} {'bytes':>10} {'status':>6} {'median ms':>10} {'least ms':>9}")
    for name, documents in CASES:
        with tempfile.TemporaryDirectory() as folder:
            size = write(folder, documents)
            taken = [timed(folder) for _ in range(runs)]
        times = [1000 * took for took, _, _ in taken]
        status, said = taken[0][1], taken[0][2]
        print(f"{name:38} {size:10} {status:6} {statistics.median(times):10.1f} {min(times):9.1f}  {said}")


main()
