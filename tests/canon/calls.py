"""Calls of the program, and what is wrong with its answers to one folder."""

import os
import pathlib
import subprocess
from dataclasses import dataclass

from canonical import Files, written_back
from folders import write_folder

LONGEST = 60
# So much of a long output is told.
TOLD = 2_000


@dataclass(frozen=True)
class Answer:
    """How a call ended, what it wrote and what it said."""

    status: int
    output: bytes
    said: bytes

    def __str__(self) -> str:
        return f"status {self.status}, {self.output[:TOLD]!r}, {self.said!r}"


def call(program: str, *words: str | pathlib.Path, given: int = subprocess.DEVNULL) -> Answer:
    """The answer of the program to these words, with an open file as its input."""
    done = subprocess.run([program, *map(str, words)], stdin=given, capture_output=True, timeout=LONGEST, check=False)
    return Answer(done.returncode, done.stdout, done.stderr)


def printed_wrong(program: str, folder: pathlib.Path, wanted: bytes) -> str | None:
    """What is wrong where the program prints something else of a folder, or None."""
    got, right = call(program, "canon", folder), Answer(0, wanted, b"")
    return None if got == right else f"{got}\nin place of {right}"


def wrong(program: str, place: pathlib.Path, files: Files, wanted: bytes) -> str | None:
    """What is wrong with what is printed of a folder, or of what is printed, or with what is checked of both."""
    given = write_folder(place / "given", files)
    fault = printed_wrong(program, given, wanted)
    if fault is not None:
        return fault
    back = write_folder(place / "back", written_back(wanted))
    fault = printed_wrong(program, back, wanted)
    if fault is not None:
        return f"of what was printed: {fault}"
    one, other = call(program, "check", given), call(program, "check", back)
    if one.status != 0 or one.said or not one.output.startswith(b"ok ") or other != one:
        return f"`check` says {one} of the folder, and {other} of what was printed"
    return None


def wrong_refusal(program: str, place: pathlib.Path, fault: str, files: Files) -> str | None:
    """What is wrong with the answer to a folder that has this first fault, or None."""
    refused = Answer(4, f"refused 1 {fault}\n".encode(), b"ld: unit-refused\n")
    got = call(program, "canon", write_folder(place, files))
    return None if got == refused else f"{got}\nin place of {refused}"


def input_left(program: str, lines: pathlib.Path, *words: str | pathlib.Path) -> bool:
    """Whether a call leaves its whole input to whoever reads on."""
    given = os.open(lines, os.O_RDONLY)
    try:
        call(program, *words, given=given)
        return os.lseek(given, 0, os.SEEK_CUR) == 0
    finally:
        os.close(given)
