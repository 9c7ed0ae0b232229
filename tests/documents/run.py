#!/usr/bin/env python3
"""Checks that the documents say what the program does: words, paths and names, examples of
faults, files, commands and programs.

    run.py PROGRAM
"""
import pathlib
import sys

import cited
import faults
import shown
import words


def main():
    program = str(pathlib.Path(sys.argv[1]).resolve())
    passed = failed = 0
    for table in (words.cases(), cited.cases(), faults.cases(program), shown.cases(program)):
        for name, wrong in table:
            if wrong is None:
                passed += 1
            else:
                failed += 1
                print(f"failed: {name}: {wrong}", flush=True)
    print(f"{passed} passed, {failed} failed")
    return 1 if failed or not passed else 0


if __name__ == "__main__":
    sys.exit(main())
