#!/usr/bin/env python3
"""Measures how long the form `gen` takes, beside `replay` of the same unit and lines.

    measure.py PROGRAM [PROGRAM ..] [--number NUMBER] [--times TIMES]

For each number of persons each program is called TIMES times in turn (11 where no number is given): `gen`, and `replay`
with the output into nothing. Printed are the line of `gen`, which has to be the same of all programs, and of each
program the seconds from start to end, in the median and in round brackets the least, how many lines a second that
makes, and how many times as long `gen` takes, in the median of the rounds. `gen` reads no folder and parses no input;
so the ratio says what reading costs.
"""
import argparse
import json
import pathlib
import statistics
import subprocess
import sys
import tempfile
import time

from run import commands, documents, line

PERSONS = [1, 10, 50, 200]
NUMBER, TIMES = 7, 11


def spent(words: list[str], given: pathlib.Path | None) -> tuple[float, bytes]:
    """The seconds of a call from start to end, and what `gen` printed."""
    with open(given or "/dev/null", "rb") as source:
        before = time.perf_counter()
        done = subprocess.run(words, stdin=source, stdout=subprocess.DEVNULL if given else subprocess.PIPE, check=False)
        taken = time.perf_counter() - before
    if done.returncode != 0:
        sys.exit(f"{' '.join(words)} ended with {done.returncode}")
    return taken, done.stdout or b""


def told(seconds: list[float]) -> str:
    return f"{statistics.median(seconds):8.4f} s ({min(seconds):.4f})"


def measure(programs: list[str], number: int, persons: int, times: int, room: pathlib.Path) -> None:
    """Calls the programs in turn, and prints what they took."""
    lines = [line(count, words) for count, words in enumerate(commands(number, persons))]
    given = room / "lines"
    given.write_text("".join(f"{each}\n" for each in lines))
    taken: list[list[tuple[float, float]]] = [[] for _ in programs]
    printed = set()
    for _ in range(times):
        for program, row in zip(programs, taken):
            made, text = spent([program, "gen", str(number), str(persons)], None)
            read, _ = spent([program, "replay", str(room / "unit")], given)
            row.append((made, read))
            printed.add(text)
    if len(printed) != 1:
        sys.exit(f"the programs print other lines of {persons} persons: {printed}")
    print(printed.pop().decode(), end="")
    for program, row in zip(programs, taken):
        made, read = ([seconds for seconds in each] for each in zip(*row))
        ratio = statistics.median(one / other for one, other in row)
        rate = len(lines) / statistics.median(made)
        print(
            f"    gen {told(made)} {rate:12,.0f} lines/s    replay {told(read)}    times {ratio:5.2f}  {program}",
            flush=True,
        )


def main() -> None:
    """Measures each number of persons."""
    parser = argparse.ArgumentParser(description=__doc__, formatter_class=argparse.RawDescriptionHelpFormatter)
    parser.add_argument("program", nargs="+")
    parser.add_argument("--number", type=int, default=NUMBER)
    parser.add_argument("--times", type=int, default=TIMES)
    asked = parser.parse_args()
    with tempfile.TemporaryDirectory() as name:
        room = pathlib.Path(name)
        (room / "unit").mkdir()
        for file, document in documents().items():
            (room / "unit" / file).write_text(json.dumps(document))
        for persons in PERSONS:
            measure(asked.program, asked.number, persons, asked.times, room)


if __name__ == "__main__":
    main()
