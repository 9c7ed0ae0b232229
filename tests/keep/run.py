#!/usr/bin/env python3
"""Calls `keep` on real files: worked cases, journals that are cut or changed, full disks, and kills at any moment.

    run.py PROGRAM [--kills KILLS] [--seed SEED] [--every-byte] [--only WORD] [--jobs JOBS]

With --every-byte each byte of a journal becomes each other byte, and a disk is full at each size; else some of them.
With a WORD only the tables whose names have it are run: worked, changed, full, disk calls or kills. All files are below the
folder for temporary files (TMPDIR), which should be on a disk. tests/keep/measure.py has what is measured.
"""
import argparse
import os
import sys
import time

import changed
import disk_calls
import full
import kills
import worked


def main() -> int:
    parser = argparse.ArgumentParser(description="Calls `keep` on real files.")
    parser.add_argument("program")
    parser.add_argument("--kills", type=int, default=200)
    parser.add_argument("--seed", type=int, default=1)
    parser.add_argument("--every-byte", action="store_true")
    parser.add_argument("--only", default="", metavar="WORD")
    parser.add_argument("--jobs", type=int, default=len(os.sched_getaffinity(0)))
    words = parser.parse_args()
    program = os.path.abspath(words.program)
    tables = {
        "worked": worked.cases(program),
        "changed": changed.cases(program, words.every_byte, words.jobs),
        "full": full.cases(program, 1 if words.every_byte else 7),
        "disk calls": disk_calls.cases(program),
        "kills": kills.cases(program, words.kills, words.seed),
    }
    passed = failed = 0
    for table, cases in tables.items():
        if words.only not in table:
            continue
        begun, before = time.monotonic(), passed + failed
        for name, wrong in cases:
            if wrong is None:
                passed += 1
            else:
                failed += 1
                print(f"failed: {name}: {wrong}", flush=True)
        count = passed + failed - before
        seconds = time.monotonic() - begun
        print(f"{table}: {count} cases in {seconds:.0f} seconds", flush=True)
        if count == 0:
            failed += 1
            print(f"failed: {table} has no case")
    print(f"{passed} passed, {failed} failed")
    return 1 if failed or not passed else 0


if __name__ == "__main__":
    sys.exit(main())
