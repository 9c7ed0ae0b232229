#!/usr/bin/env python3
"""A second reading of docs/FORMATS.md: all faults of a folder, without the program.

    reference.py           compares each case of the tables with it
    reference.py WORD      only the cases whose names have the word
    reference.py FOLDER    prints the faults of a folder, the first one first

It is plain, and made from docs/FORMATS.md alone: not from the program, and not from the tables.
"""
import json
import pathlib
import sys

from reference_beside import faults_beside
from reference_checks import check_faults
from reference_json import read_json
from reference_parts import FILES, parts_of
from reference_shapes import DOCUMENTS

REQUIRED = ["roles.json", "activities.json", "unit.json"]
LARGEST = 4_194_304


def bytes_of(document):
    return document if isinstance(document, bytes) else json.dumps(document).encode()


def absent_or_big(files):
    """The first file that ends the asking, or None."""
    for name in FILES:
        if name not in files:
            if name in REQUIRED:
                return name, ".", "absent"
        elif len(files[name]) > LARGEST:
            return name, ".", "too-big"
    return None


def read_all(files):
    """The documents of the files, and the faults of those that are no JSON."""
    documents, faults = {}, []
    for name in FILES:
        if name in files:
            try:
                documents[name] = read_json(files[name])
            except ValueError:
                faults.append((name, ".", "not-json"))
    return documents, faults


def steps(folder):
    """The faults of a folder with the step or the check that finds them; a step with faults is the last one."""
    files = {name: bytes_of(document) for name, document in folder.items()}
    stop = absent_or_big(files)
    if stop is not None:
        return [("files", stop)]
    documents, faults = read_all(files)
    if faults:
        return [("files", fault) for fault in faults]
    shapes = [(name, at or ".", code) for name, document in documents.items()
              for at, code in DOCUMENTS[name](document, "")]
    if shapes:
        return [("shapes", fault) for fault in shapes]
    return check_faults(parts_of(documents))


def first_fault(folder):
    """`FILE PLACE CODE` of the first fault, or None."""
    found = steps(folder)
    return " ".join(found[0][1]) if found else None


def first_beside(before, folder):
    """The same of a folder that is read behind others, none of which has a fault."""
    assert all(first_fault(each) is None for each in before)
    return first_fault(folder) or next(faults_beside(before, folder), None)


def of_folder(path):
    return {name: (path / name).read_bytes() for name in FILES if (path / name).is_file()}


def compare(word):
    import beside
    from tables import all_cases
    passed = failed = 0
    told_of = [(name, fault, first_fault(folder)) for name, fault, folder in all_cases(word)]
    told_of += [(name, fault, first_beside(before, folder)) for name, fault, [*before, folder] in beside.cases(word)]
    for name, fault, told in told_of:
        if told == fault:
            passed += 1
        else:
            failed += 1
            print(f"failed: {name}: the reference has {told} in place of {fault}", flush=True)
    print(f"{passed} passed, {failed} failed")
    return 1 if failed else 0


def main():
    word = sys.argv[1] if len(sys.argv) > 1 else ""
    if not pathlib.Path(word, "unit.json").is_file():
        return compare(word)
    for step, fault in steps(of_folder(pathlib.Path(word))):
        print(*fault, f"({step})")
    return 0


if __name__ == "__main__":
    sys.exit(main())
