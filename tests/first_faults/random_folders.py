#!/usr/bin/env python3
"""Random folders of all levels, without a fault or with up to three changes, and the first fault of each by the reference.

    random_folders.py PROGRAM [COUNT [FIRST]]    compares the program with the reference, from folder FIRST on
    random_folders.py --write NUMBER FOLDER      writes the folder of this number, to look at it
    random_folders.py --count COUNT              how often each step or check finds the first fault

A folder is made from its number alone, so that one that fails can be made again.
"""
import collections
import pathlib
import random
import sys

from courses import Course, plain
from judging import judge
from mutations import cut, mutate
from reference import steps

COUNT = 3_000
# What finds the first fault of at least so many of these folders; limits and sizes have tables of their own.
LEAST = {"none": 500, "files": 30, "shapes": 200, "identifiers": 90, "uris": 5, "references": 25, "cycles": 10,
         "levels": 20, "profile": 15, "types": 50}


def folder_of(number):
    dice = random.Random(number)
    documents = plain(dice) if dice.random() < 0.15 else Course(dice).documents()
    for _ in range(dice.choice([0, 1, 1, 1, 2, 3])):
        if documents:
            documents = mutate(dice, documents)
    return cut(dice, documents)


def compare(program, count=COUNT, first=0):
    """How many folders the program and the reference agree on, and what is wrong with the others or not covered."""
    wrong, told = [], collections.Counter()
    for number in range(first, first + count):
        files = folder_of(number)
        found = steps(files)
        fault = " ".join(found[0][1]) if found else None
        told[found[0][0] if found else "none"] += 1
        said = judge(program, fault, files)
        if said is not None:
            wrong.append(f"random folder {number}: {said}")
    agreed = count - len(wrong)
    if (count, first) == (COUNT, 0):
        wrong += [f"random folders: {step} {told[step]} times" for step, least in LEAST.items() if told[step] < least]
    return agreed, wrong


def count_steps(count):
    found = collections.Counter()
    for number in range(count):
        faults = steps(folder_of(number))
        found[faults[0][0] if faults else "none"] += 1
    return found


def main():
    words = sys.argv[1:]
    if words[0] == "--count":
        for step, number in count_steps(int(words[1])).most_common():
            print(f"{number:6} {step}")
        return 0
    if words[0] == "--write":
        path = pathlib.Path(words[2])
        path.mkdir(parents=True, exist_ok=True)
        for name, data in folder_of(int(words[1])).items():
            (path / name).write_bytes(data)
        return 0
    passed, wrong = compare(words[0], *map(int, words[1:]))
    for each in wrong:
        print(f"failed: {each}")
    print(f"{passed} passed, {len(wrong)} failed")
    return 1 if wrong or not passed else 0


if __name__ == "__main__":
    sys.exit(main())
