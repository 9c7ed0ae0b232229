#!/usr/bin/env python3
"""Measures how long the form `rank` takes on the largest units.

    measure.py PROGRAM [PROGRAM ..] [--times TIMES] [--keep FOLDER]

Each unit has 600 rules, and near to 4,000 leaves, of which 100 are quantified where it has conditions that ask for the
members of a role. Each program, as one built before a change and one after it, is called TIMES times in turn (11 where no
number is given). Printed are the first line of its output, the median and the least of the milliseconds from start to end,
and the most memory that a call had. All programs have to print the same. With --keep the folders are left in FOLDER.
"""
import argparse
import json
import os
import pathlib
import statistics
import subprocess
import sys
import tempfile
import time
from typing import Any

Document = dict[str, Any]

TIMES = 11
RULES = 600
QUANTIFIED = 100


def looks(tests: list[Document]) -> Document:
    """A test that looks at all at which these look."""
    return {"or": tests} if len(tests) > 1 else tests[0]


def of_learners(test: Document) -> Document:
    """The test, asked of the members of the role."""
    return {"users-in-role": {"role": "learner", "expression": test}}


def change(name: str) -> Document:
    """An action that changes the property."""
    return {"change": {"property": name, "value": {"integer": "1"}}}


def condition(tests: list[Document], names: list[str]) -> Document:
    """A condition that looks at all at which the tests look, and changes the properties."""
    return {"if": looks(tests), "then": [change(name) for name in names]}


def structure(name: str, children: list[str]) -> Document:
    """A structure of these children."""
    return {"identifier": name, "kind": "sequence", "children": children}


def documents(
    structures: list[Document], conditions: list[Document], complete: Document | None = None, more: tuple[str, ...] = ()
) -> Document:
    """The documents of a unit of an activity, an act with a role-part, and these; with the properties that they name."""
    text = json.dumps([conditions, complete])
    count = max((int(piece.split('"')[0]) + 1 for piece in text.split('"p-')[1:]), default=0)
    part = {"identifier": "part", "role": "learner", "ref": "read"}
    play = {"identifier": "play", "acts": [{"identifier": "act", "role-parts": [part]}]}
    activity = {"identifier": "read", "complete": complete or {"user-choice": True}}
    others = [{"identifier": name, "complete": {"user-choice": True}} for name in more]
    return {
        "roles.json": {"roles": [{"identifier": "learner", "kind": "learner"}]},
        "properties.json": {
            "properties": [{"identifier": f"p-{i}", "kind": "loc", "datatype": "integer"} for i in range(count)]
        },
        "activities.json": {"activities": [activity, *others], "structures": structures},
        "conditions.json": {"conditions": conditions},
        "unit.json": {"format": 1, "identifier": "u", "level": "B", "turns": 256, "method": {"plays": [play]}},
    }


def quantified(conditions: list[Document], leaves: int) -> None:
    """Asks of the members of the role what the last conditions ask, up to so many leaves."""
    for each in reversed(conditions):
        count = len(each["if"]["or"]) if "or" in each["if"] else 1
        if count <= leaves:
            each["if"] = of_learners(each["if"])
            leaves -= count


def groups() -> Document:
    """Conditions in twelve groups, each of which looks at what all groups before it change: the most feeds."""
    count, many = RULES - 3, 12
    conditions = []
    for number in range(count):
        group = number * many // count
        tests = [{"no-value": f"p-{other}"} for other in range(group)] or [{"is-member-of-role": "learner"}]
        conditions.append(condition(tests, [f"p-{group}"]))
    quantified(conditions, QUANTIFIED)
    return documents([], conditions)


def one_property() -> Document:
    """Half of the conditions change one property, many times each, and the others look at it, many times each."""
    count = RULES - 3
    half = count // 2
    conditions = [condition([{"is-member-of-role": "learner"}], ["p-0"] * 6) for _ in range(half)]
    conditions += [condition([{"no-value": "p-0"}] * 5, ["p-1"]) for _ in range(count - half)]
    quantified(conditions, QUANTIFIED)
    return documents([], conditions)


def structures_of_all() -> Document:
    """Structures of all structures before them, and conditions in a chain behind them: dense and deep."""
    structures = [structure(f"s{i}", ["read"] + [f"s{j}" for j in range(i)]) for i in range(399)]
    conditions = []
    for number in range(RULES - 3 - len(structures)):
        tests = [{"complete": f"s{398 - i}"} for i in range(18)]
        tests.append({"no-value": f"p-{number}"})
        conditions.append(condition(tests, [f"p-{number + 1}"]))
    quantified(conditions, QUANTIFIED)
    return documents(structures, conditions)


def long_loop() -> Document:
    """A loop through 199 structures and as many conditions, beside structures of all structures before them."""
    chain = [structure(f"c{i}", [f"c{i - 1}" if i else "read"]) for i in range(199)]
    aside = [structure(f"s{i}", ["other"] + [f"s{j}" for j in range(i)]) for i in range(199)]
    conditions = []
    for number in range(RULES - 4 - len(chain) - len(aside)):
        tests = [{"complete": f"s{198 - i}"} for i in range(18)]
        tests.append({"no-value": f"p-{number}"} if number else {"complete": "c198"})
        conditions.append(condition(tests, [f"p-{number + 1}"]))
    last = len(conditions)
    ends = {"when-property-value-is-set": {"property": f"p-{last}"}}
    return documents(chain + aside, conditions, ends, ("other",))


def sparse() -> Document:
    """Each condition looks at six properties that no rule changes: few feeds."""
    conditions = [
        condition([{"no-value": f"p-{(number * 7 + i) % 150}"} for i in range(5)], [f"p-{150 + number % 150}"])
        for number in range(RULES - 3)
    ]
    quantified(conditions, QUANTIFIED)
    return documents([], conditions)


UNITS = [
    ("few feeds", sparse),
    ("twelve groups of conditions, each fed by all before it", groups),
    ("one property, changed and looked at by 300 conditions each", one_property),
    ("399 structures of all before them, 198 conditions in a chain", structures_of_all),
    ("a loop of 398 rules beside 199 such structures", long_loop),
]


def write(folder: pathlib.Path, files: Document) -> None:
    """Writes the documents of a folder."""
    folder.mkdir(parents=True, exist_ok=True)
    for name, document in files.items():
        (folder / name).write_text(json.dumps(document, separators=(",", ":")), encoding="utf-8")


def called(program: str, folder: pathlib.Path) -> tuple[float, int, str]:
    """The milliseconds of a call, the most kilobytes that it had, and what it printed."""
    before = time.perf_counter()
    with subprocess.Popen([program, "rank", str(folder)], stdin=subprocess.DEVNULL, stdout=subprocess.PIPE) as process:
        assert process.stdout is not None
        printed = process.stdout.read().decode()
        _, status, used = os.wait4(process.pid, 0)
        process.returncode = os.waitstatus_to_exitcode(status)
    taken = 1000 * (time.perf_counter() - before)
    if process.returncode != 0:
        sys.exit(f"{program} ended with {process.returncode} on {folder}: {printed}")
    return taken, used.ru_maxrss, printed


def measure(programs: list[str], times: int, folder: pathlib.Path) -> None:
    """Calls the programs in turn, and prints what they took."""
    rounds = [[called(program, folder) for program in programs] for _ in range(times)]
    if len({printed for each in rounds for _, _, printed in each}) != 1:
        sys.exit(f"the programs print other things of {folder}")
    print(f"    {rounds[0][0][2].splitlines()[0]}")
    for place, program in enumerate(programs):
        taken = [each[place][0] for each in rounds]
        most = max(each[place][1] for each in rounds)
        print(f"    {statistics.median(taken):8.1f} ms ({min(taken):.1f}) {most / 1024:7.1f} MB  {program}")


def main() -> None:
    """Measures each unit."""
    parser = argparse.ArgumentParser(description=__doc__, formatter_class=argparse.RawDescriptionHelpFormatter)
    parser.add_argument("program", nargs="+")
    parser.add_argument("--times", type=int, default=TIMES)
    parser.add_argument("--keep", type=pathlib.Path)
    asked = parser.parse_args()
    with tempfile.TemporaryDirectory() as room:
        for number, (name, made) in enumerate(UNITS):
            folder = (asked.keep or pathlib.Path(room)) / str(number)
            write(folder, made())
            print(name)
            measure(asked.program, asked.times, folder)


if __name__ == "__main__":
    main()
