#!/usr/bin/env python3
"""Runs the program on folders with one fault after another and compares the line that it writes.

    run.py PROGRAM [WORD]

A case is a name, the fault that is told (`FILE PLACE CODE`, or None where the unit is good) and the
documents of a folder. The faults in the tables are taken from docs/FORMATS.md, not from the program. Each
case is also compared with the second reading (reference.py). Of several folders (beside.py) the last alone has a fault. With
a WORD, only the cases whose names have it are run; without one, random folders are run, too (random_folders.py).
"""
import collections
import pathlib
import re
import sys

import beside
import random_folders
from judging import judge
from reference import bytes_of, first_beside
from tables import all_cases

# Folders of more bytes are left out of the comparison with the second reading, which takes seconds for them.
LARGE = 500_000


def second(before, documents, files, fault):
    """What the second reading has in place of the fault, or None."""
    if sum(map(len, files.values())) > LARGE:
        return None
    found = first_beside(before, documents)
    return None if found == fault else f"the second reading has {found} in place of {fault}"


def bytes_in(documents):
    return {file: bytes_of(document) for file, document in documents.items()}


def codes():
    """The fault codes of docs/FORMATS.md."""
    text = (pathlib.Path(__file__).resolve().parents[2] / "docs/FORMATS.md").read_text()
    return re.findall(r"^### `([a-z-]+)`$", text, re.MULTILINE)


def not_covered(told):
    """The codes that no case has, and what is missing where no code is found at all."""
    return [code for code in codes() if not told[code]] if codes() else ["the codes of docs/FORMATS.md"]


def every_case(word):
    """The name, the fault of the last folder, and the folders of each case."""
    for name, fault, documents in all_cases(word):
        yield name, fault, [documents]
    yield from beside.cases(word)


def main():
    program = sys.argv[1]
    word = sys.argv[2] if len(sys.argv) > 2 else ""
    passed = failed = 0
    told = collections.Counter()
    for name, fault, folders in every_case(word):
        told[fault and fault.split(" ")[-1]] += 1
        files = [bytes_in(documents) for documents in folders]
        wrong = judge(program, fault, *files) or second(folders[:-1], folders[-1], files[-1], fault)
        if wrong is None:
            passed += 1
        else:
            failed += 1
            print(f"failed: {name}: {wrong}", flush=True)
    if not word:
        same, others = random_folders.compare(program)
        for each in others:
            print(f"failed: {each}", flush=True)
        passed, failed = passed + same, failed + len(others)
        for each in not_covered(told):
            print(f"failed: no case of {each}")
            failed += 1
    print(f"{passed} passed, {failed} failed")
    return 1 if failed or not passed else 0


if __name__ == "__main__":
    sys.exit(main())
