#!/usr/bin/env python3
"""Runs the program on the lines of each transcript and compares what it writes with the replies beside them.

    run.py PROGRAM [WORD]

A transcript is a folder with two files, `lines` and `replies`, taken byte for byte. Its units are the folders whose
names a third file, `folders`, has line by line; where there is none, the folder `unit`. The replies were written by
hand, from docs/COMMANDS.md and docs/MEANING.md. With a WORD, only the transcripts whose names have it are run.
"""
import pathlib
import subprocess
import sys

LONGEST = 60
HERE = pathlib.Path(__file__).parent


def units_of(folder):
    """The folders of the units of a transcript, in order."""
    names = folder / "folders"
    return [str(HERE / name) for name in (names.read_text().split("\n")[:-1] if names.exists() else ["unit"])]


def judge(program, folder):
    """What is wrong with the program's answer, or None."""
    done = subprocess.run([program, "replay", *units_of(folder)], input=(folder / "lines").read_bytes(),
                          capture_output=True, timeout=LONGEST, check=False)
    promised = 0, (folder / "replies").read_bytes(), b""
    answer = done.returncode, done.stdout, done.stderr
    return None if answer == promised else f"{answer} in place of {promised}"


def main():
    program = sys.argv[1]
    word = sys.argv[2] if len(sys.argv) > 2 else ""
    passed = failed = 0
    for folder in sorted(path.parent for path in HERE.glob("*/lines")):
        if word not in folder.name:
            continue
        wrong = judge(program, folder)
        if wrong is None:
            passed += 1
        else:
            failed += 1
            print(f"failed: {folder.name}: {wrong}", flush=True)
    print(f"{passed} passed, {failed} failed")
    return 1 if failed or not passed else 0


if __name__ == "__main__":
    sys.exit(main())
