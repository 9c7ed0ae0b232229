#!/usr/bin/env python3
"""Refuses each allocation of two histories once, one at a time, and looks at all that the program writes.

    run.py PROGRAM [--every STEP] [--only WORD] [--jobs JOBS]

Each call ends with status 7 and no output, or with status 0 and a text that answers the lines: one that is
answered `no 99 no-memory` counts as not given, and each other one gets the reply of the plain evaluation of
tests/histories. With a STEP only one allocation in so many is refused, and with a WORD only the histories
whose names have it are run.

refuse.c refuses the allocations. It stands between the built program and the C library, from which the program
has all its memory, so none is left out. (`rt try --fail-alloc` refuses one, too, but builds the program anew each time.)
"""
import argparse
import collections
import concurrent.futures
import dataclasses
import json
import os
import pathlib
import shutil
import subprocess
import sys
import tempfile
import time
from collections.abc import Iterator

TESTS = pathlib.Path(__file__).resolve().parent.parent
sys.path.insert(0, str(TESTS / "histories"))

from commands import is_passed_over, lines_of  # noqa: E402
from model import World  # noqa: E402
from unit import Unit  # noqa: E402

SECONDS = 60
SOURCE = TESTS / "refused_memory" / "refuse.c"
NOT_GIVEN = b"no 99 no-memory\n"
NO_OUTPUT = "status 7 and no output"
ALL_ANSWERED = "each line answered"
# How many wrong calls are shown.
SHOWN = 10


@dataclasses.dataclass(frozen=True)
class History:
    """The folder of a unit and the bytes of its lines."""

    name: str
    folder: pathlib.Path
    data: bytes

    def documents(self) -> dict[str, dict]:
        """The documents by the names of their files."""
        files = sorted(self.folder.glob("*.json"))
        return {file.name: json.loads(file.read_text()) for file in files}


@dataclasses.dataclass(frozen=True)
class Ending:
    """How a call ended, and how many allocations were counted: all of them, or the refused one."""

    status: int
    written: bytes
    said: bytes
    counted: int


def histories() -> Iterator[History]:
    """The jigsaw course with its 60 lines, and two runs of a course that share a value and its notices."""
    jigsaw = TESTS.parent / "examples" / "jigsaw"
    lines = jigsaw.with_suffix(".lines")
    yield History("jigsaw", jigsaw, lines.read_bytes())
    shared = TESTS / "transcripts" / "a_value_of_all_runs"
    lines = shared / "lines"
    yield History("global values", shared / "unit", lines.read_bytes())


def compiler() -> str:
    """A C compiler: the machine's, or the one of the Rattle toolchain."""
    found = shutil.which(os.environ.get("CC", "cc"))
    if found is not None:
        return found
    page = subprocess.run(["rt", "doc"], capture_output=True, text=True, check=True)
    return str(pathlib.Path(page.stdout.strip()).parent / "toolchain/bin/clang")


def compiled(folder: str) -> str:
    """The library that refuses allocations."""
    library = os.path.join(folder, "refuse.so")
    flags = ["-O2", "-shared", "-fPIC", "-nostdlib", "-fno-builtin"]
    subprocess.run([compiler(), *flags, "-o", library, SOURCE], check=True)
    return library


def ending(program: str, library: str, history: History, refused: int) -> Ending:
    """Runs the program with the allocation of this number refused; with 0 none is."""
    with tempfile.TemporaryFile() as report:
        done = subprocess.run(
            [program, "replay", history.folder],
            input=history.data,
            capture_output=True,
            timeout=SECONDS,
            check=False,
            pass_fds=[report.fileno()],
            env={
                "LD_PRELOAD": library,
                "REFUSED_ALLOCATION": str(refused),
                "REFUSED_REPORT": str(report.fileno()),
            },
        )
        counted = os.fstat(report.fileno()).st_size
    return Ending(done.returncode, done.stdout, done.stderr, counted)


class Judge:
    """Says of each ending of a history what it is. What was said of a text is kept, since many endings are alike."""

    def __init__(self, history: History) -> None:
        self.documents = history.documents()
        self.lines = lines_of(history.data)
        self.known: dict[bytes, tuple[bool, str]] = {}

    def judge(self, end: Ending) -> tuple[bool, str]:
        """Whether the ending is right, and what it is in words."""
        if end.status == 7 and not end.written and end.said == b"ld: no-memory\n":
            return True, NO_OUTPUT
        if end.status != 0 or end.said:
            return (
                False,
                f"status {end.status}, {end.said!r} is said, {len(end.written)} bytes are written",
            )
        if end.written not in self.known:
            self.known[end.written] = self.judge_text(end.written)
        return self.known[end.written]

    def judge_text(self, written: bytes) -> tuple[bool, str]:
        """The same of what is written with status 0."""
        unit = Unit(self.documents)
        world = World({self.documents["unit.json"]["identifier"]: unit})
        not_given = 0
        for number, line in enumerate(self.lines, 1):
            if not is_passed_over(line) and written.startswith(NOT_GIVEN):
                not_given += 1
                reply = NOT_GIVEN
            else:
                reply = world.block(line).encode()
            if not written.startswith(reply):
                return (
                    False,
                    f"line {number} is not answered by {reply[:200]!r} but by {written[:200]!r}",
                )
            written = written[len(reply) :]
        if written:
            return False, f"behind the last reply stands {written[:200]!r}"
        return True, f"{not_given} not given" if not_given else ALL_ANSWERED


def refuse_each(
    program: str, library: str, history: History, step: int, jobs: int
) -> bool:
    """Refuses one allocation in STEP of a history each, and prints what became of it: whether all was right."""
    begun = time.monotonic()
    judge = Judge(history)
    whole = ending(program, library, history, 0)
    right, told = judge.judge(whole)
    if not right or told != ALL_ANSWERED or whole.counted == 0:
        print(
            f"failed: {history.name}: with no allocation refused: {told}, {whole.counted} allocations"
        )
        return False
    numbers = range(1, whole.counted + 1, step)
    kinds: collections.Counter[str] = collections.Counter()
    wrong = 0
    with concurrent.futures.ThreadPoolExecutor(jobs) as pool:
        ends = pool.map(
            lambda number: ending(program, library, history, number), numbers
        )
        for number, end in zip(numbers, ends):
            right, told = judge.judge(end)
            if right and end.counted != 1:
                right, told = False, "it was not refused"
            if right:
                kinds[told] += 1
                continue
            wrong += 1
            if wrong <= SHOWN:
                print(f"failed: {history.name}: allocation {number}: {told}")
    print(
        f"{history.name}: {len(numbers)} of {whole.counted} allocations refused, {wrong} wrong"
    )
    for told, count in sorted(kinds.items()):
        print(f"    {told}: {count}")
    print(
        f"    {len(judge.known)} texts, {time.monotonic() - begun:.0f} seconds",
        flush=True,
    )
    return wrong == 0


def main() -> int:
    parser = argparse.ArgumentParser(
        description="Refuses each allocation of two histories once."
    )
    parser.add_argument("program")
    parser.add_argument("--every", type=int, default=1, metavar="STEP")
    parser.add_argument("--only", default="", metavar="WORD")
    parser.add_argument("--jobs", type=int, default=len(os.sched_getaffinity(0)))
    words = parser.parse_args()
    chosen = [each for each in histories() if words.only in each.name]
    with tempfile.TemporaryDirectory() as folder:
        library = compiled(folder)
        right = [
            refuse_each(words.program, library, each, words.every, words.jobs)
            for each in chosen
        ]
    return 0 if right and all(right) else 1


if __name__ == "__main__":
    sys.exit(main())
