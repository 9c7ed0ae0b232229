#!/usr/bin/env python3
"""Measures `keep`: how long a long journal takes to be opened, and how many lines a second are kept.

    measure.py PROGRAM [--lines LINES] [--kept KEPT] [--times TIMES] [--folder FOLDER]

A journal of LINES lines (200,000) is opened, in turn with `replay` of the same lines: once all are `tick` of one run,
which are the cheapest ones, and once they make many runs. In the median each has to take less than 1.5 times as long,
else this ends with status 1. Then KEPT lines (2,000) are answered by `keep` and by `replay`, in turn with what they
cost without a program: the same two writes and two syncs a line, made here. Each is done TIMES times (7), in a folder
below FOLDER, which decides about the disk (else the folder for temporary files). Printed are the rows of the tables
of docs/PERFORMANCE.md: seconds from start to end, in the median and in round brackets the least, and lines a second.
"""
import argparse
import os
import pathlib
import statistics
import sys
import tempfile
import time
from collections.abc import Callable

from calls import JOURNAL, call, keep, text_of, COURSE
from journal import entry, journal_of, kept

MOST = 1.5
SETUP = [
    b'["2024-01-01T08:00:00Z","create","r","u1"]',
    b'["2024-01-01T08:00:00Z","enrol","r","ann"]',
    b'["2024-01-01T08:00:00Z","assign","r","ann","learner"]',
    b'["2024-01-01T08:00:00Z","start","r"]',
]
COMPLETE = b'["2024-01-01T08:00:00Z","complete","r","ann","read"]'
TREE = b'["2024-01-01T08:00:00Z","tree","r","ann"]'
TICK = b'["2024-01-01T09:00:00Z","tick","r"]'


def seconds_of(work: Callable[[], None]) -> float:
    begun = time.monotonic()
    work()
    return time.monotonic() - begun


def in_turn(works: list[Callable[[], None]], times: int) -> list[list[float]]:
    """The seconds of each, which are done one after the other, so many times."""
    rounds = [[seconds_of(work) for work in works] for _ in range(times)]
    return [list(each) for each in zip(*rounds)]


def told(seconds: list[float]) -> str:
    return f"{statistics.median(seconds):.3f} ({min(seconds):.3f})"


def ratio(some: list[float], others: list[float]) -> float:
    """How many times as long the one takes: the median over the rounds."""
    return statistics.median(one / other for one, other in zip(some, others))


def ends_well(program: str, word: str, room: pathlib.Path, given: bytes) -> None:
    """One call, with its replies into nothing."""
    end = call(program, [word, COURSE], room, given, output=os.devnull)
    if end.status != 0:
        raise SystemExit(f"{word} ends with status {end.status}")


def ticks(count: int) -> list[bytes]:
    """Lines that only let time pass, in one run."""
    return SETUP + [TICK] * (count - len(SETUP))


def runs(count: int) -> list[bytes]:
    """Lines of many runs, which have six each."""
    rows = [*SETUP, COMPLETE, TREE]
    return [
        row.replace(b'"r"', b'"r%d"' % number)
        for number in range(count // len(rows))
        for row in rows
    ]


def opening(
    program: str, room: pathlib.Path, name: str, rows: list[bytes], times: int
) -> float:
    """How many times as long as a replay the opening of a journal takes."""
    (room / JOURNAL).write_bytes(journal_of(rows))
    given = text_of(rows)
    opened, replayed = in_turn(
        [
            lambda: ends_well(program, "keep", room, b""),
            lambda: ends_well(program, "replay", room, given),
        ],
        times,
    )
    again = keep(program, room, rows[0] + b"\n").written
    if again != b"no 3 run-exists\n":
        raise SystemExit(f"the journal is not opened: {again!r}")
    times_as_long = ratio(opened, replayed)
    least = min(opened) / min(replayed)
    print(
        f"| {len(rows):,} lines, {name} | {told(opened)} | {told(replayed)} | {times_as_long:.2f} ({least:.2f}) |",
        flush=True,
    )
    return times_as_long


def written_bare(path: pathlib.Path, rows: list[bytes]) -> None:
    """The writes and syncs of a journal that keeps these lines."""
    file = os.open(path, os.O_RDWR | os.O_CREAT | os.O_TRUNC)
    gate = 0
    os.pwrite(file, b"\0", 0)
    os.fsync(file)
    for row in rows:
        os.pwrite(file, entry(row), gate + 1)
        os.fsync(file)
        os.pwrite(file, b"\1", gate)
        os.fsync(file)
        gate += 5 + len(row)
    os.close(file)


def keeping(program: str, room: pathlib.Path, lines: int, times: int) -> None:
    """Lines a second."""
    rows = ticks(lines)
    given, journal, bare = text_of(rows), room / JOURNAL, room / "bare"

    def kept_anew() -> None:
        journal.unlink(missing_ok=True)
        ends_well(program, "keep", room, given)

    journal.unlink(missing_ok=True)
    works = [
        kept_anew,
        lambda: written_bare(bare, rows),
        lambda: ends_well(program, "replay", room, given),
    ]
    by_keep, by_hand, by_replay = in_turn(works, times)
    if kept(journal.read_bytes()) != rows or bare.read_bytes() != journal.read_bytes():
        raise SystemExit("the journal has other lines")
    for name, seconds in [
        ("`keep`", by_keep),
        ("two writes and two syncs a line", by_hand),
        ("`replay`", by_replay),
    ]:
        rate = lines / statistics.median(seconds)
        print(f"| {name} | {told(seconds)} | {rate:,.0f} |")
    least = min(by_keep) / min(by_hand)
    print(
        f"`keep` takes {ratio(by_keep, by_hand):.2f} ({least:.2f}) times the bare cost"
    )


def main() -> int:
    parser = argparse.ArgumentParser(description="Measures `keep`.")
    parser.add_argument("program")
    parser.add_argument("--lines", type=int, default=200_000)
    parser.add_argument("--kept", type=int, default=2_000)
    parser.add_argument("--times", type=int, default=7)
    parser.add_argument("--folder")
    words = parser.parse_args()
    program = os.path.abspath(words.program)
    with tempfile.TemporaryDirectory(prefix="ld-keep-", dir=words.folder) as name:
        room = pathlib.Path(name)
        print("| journal | opened | `replay` | times |\n|---|---|---|---|")
        loads = {"`tick` of one run": ticks, "of many runs": runs}
        most = max(
            opening(program, room, name, load(words.lines), words.times)
            for name, load in loads.items()
        )
        print(f"\n| {words.kept:,} lines | seconds | lines a second |\n|---|---|---|")
        keeping(program, room, words.kept, words.times)
    if most >= MOST:
        print(f"failed: to open a journal takes {most:.2f} times as long as `replay`")
        return 1
    return 0


if __name__ == "__main__":
    sys.exit(main())
