#!/usr/bin/env python3
"""Compares what the program's form `gen` prints with what its form `replay` answers to the same lines.

    run.py PROGRAM

The unit and the lines are made here from docs/GENERATOR.md, and the unit's documents are written into a folder that `replay`
reads. At the first difference it ends.
"""
import json
import pathlib
import re
import subprocess
import sys
import tempfile
from datetime import datetime, timedelta, timezone

TOP = pathlib.Path(__file__).resolve().parent.parent.parent
FIRST = datetime(2024, 1, 1, tzinfo=timezone.utc)
ACTIVITIES, SCORED, ROUNDS = 40, 30, 50
# The numbers and persons that are tried.
TRIED = [(0, 1), (7, 1), (7, 3), (0, 2), (39, 4), (40, 4), (4294967295, 5), (12345, 17), (7, 200)]
# Words that have not the form.
OTHER_WORDS = ["gen", "gen 7", "gen 7 0", "gen 7 201", "gen 4294967296 1", "gen 00000000000 1", "gen 7 0001", "gen 7 3 1",
               "gen +7 3", "gen 7 3.0", "gen seven 3", "gen 7 -3"]
WORK = re.compile(rb"turns=(\d+) fired=(\d+) rejected=(\d+) sent=(\d+)")


def documents():
    """The documents of the unit, by the names of their files."""
    ids = [f"a{k}" for k in range(ACTIVITIES)]
    score = {"property": "score"}
    conditions = [{"if": {"complete": ids[k]},
                   "then": [{"change": {"property": "score", "value": {"sum": [score, {"integer": "1"}]}}}]}
                  for k in range(SCORED)]
    conditions.append({"if": {"users-in-role": {"role": "learner", "expression": {"greater-than": [score, {"integer": "29"}]}}},
                       "then": [{"notify": {"roles": ["learner"], "subject": "all"}}]})
    part = {"identifier": "rp", "role": "learner", "ref": "all"}
    act = {"identifier": "t", "role-parts": [part], "complete": {"when-role-part-completed": ["rp"]}}
    play = {"identifier": "p", "acts": [act], "complete": {"when-last-act-completed": True}}
    return {
        "roles.json": {"roles": [{"identifier": "learner", "kind": "learner"}]},
        "properties.json": {"properties": [{"identifier": "score", "kind": "locpers", "datatype": "integer", "initial": "0"}]},
        "activities.json": {
            "activities": [{"identifier": name, "complete": {"user-choice": True}} for name in ids],
            "structures": [{"identifier": "all", "kind": "selection", "children": ids}],
        },
        "unit.json": {"format": 1, "identifier": "gen", "level": "C",
                      "method": {"plays": [play], "complete": {"when-play-completed": ["p"]}}},
        "conditions.json": {"conditions": conditions},
    }


def commands(number, persons):
    """The words of each line, behind its moment."""
    yield ["create", "g", "gen"]
    yield from (["enrol", "g", f"p{i}"] for i in range(persons))
    yield from (["assign", "g", f"p{i}", "learner"] for i in range(persons))
    yield ["start", "g"]
    for q in range(ROUNDS):
        yield from (["complete", "g", f"p{i}", f"a{(number + 7 * i + 11 * q) % ACTIVITIES}"] for i in range(persons))


def line(count, words):
    """The line of this number."""
    moment = (FIRST + timedelta(seconds=count)).strftime("%Y-%m-%dT%H:%M:%SZ")
    return json.dumps([moment, *words], separators=(",", ":"))


def called(program, words, given=b""):
    """The status, what is written, and what is said."""
    done = subprocess.run([program, *map(str, words)], input=given, capture_output=True, timeout=120, check=False)
    return done.returncode, done.stdout, done.stderr


def wanted(program, folder, number, persons):
    """The line that is to be printed, from the replies that `replay` gives to the lines."""
    asked = list(commands(number, persons))
    given = "".join(line(count, words) + "\n" for count, words in enumerate(asked))
    status, text, said = called(program, ["replay", folder], given.encode())
    replies = text.splitlines()
    if (status, said) != (0, b"") or len(replies) != len(asked):
        return f"`replay` ends with {status} {said} and {len(replies)} lines in place of {len(asked)}"
    done = [reply.startswith(b"ok ") for reply in replies]
    sums = [sum(map(int, numbers)) for numbers in zip(*(found.groups() for found in map(WORK.search, replies) if found))]
    last = [words[3] for words, well in zip(asked, done) if well and words[0] == "complete"]
    return (f"gen number={number} persons={persons} lines={len(asked)} ok={sum(done)} no={len(asked) - sum(done)} "
            f"turns={sums[0]} fired={sums[1]} rejected={sums[2]} sent={sums[3]} last={last[-1] if last else '-'}\n")


def shown():
    """The call that docs/GENERATOR.md shows, and the line that it prints."""
    text = (TOP / "docs" / "GENERATOR.md").read_text()
    words = re.search(r"^    \./ld (gen .*)$", text, re.MULTILINE)[1]
    return words, re.search(r"^```text .*\n(gen .*\n)```$", text, re.MULTILINE)[1]


def counts_are_right(program, folder):
    """Whether the unit counts as docs/GENERATOR.md says."""
    return called(program, ["check", folder]) == (0, b"ok gen rules=77 leaves=92\n", b"")


def fault_of(program, folder):
    """The first difference, or None."""
    for name, document in documents().items():
        (folder / name).write_text(json.dumps(document))
    if not counts_are_right(program, folder):
        return f"`check` says {called(program, ['check', folder])}"
    words, text = shown()
    if called(program, words.split()) != (0, text.encode(), b""):
        return f"`{words}`, which is shown: {called(program, words.split())}"
    for number, persons in TRIED:
        got, right = called(program, ["gen", number, persons], b"not read"), wanted(program, folder, number, persons)
        if got != (0, right.encode(), b""):
            return f"gen {number} {persons}\nwanted {right}\ngot    {got}"
    if called(program, ["gen", "0000000007", "003"]) != called(program, ["gen", "7", "3"]):
        return "leading zeros change what is printed"
    for words in OTHER_WORDS:
        if called(program, words.split()) != (2, b"", b"ld: bad-words\n"):
            return f"`{words}`: {called(program, words.split())}"
    return None


def main():
    with tempfile.TemporaryDirectory() as place:
        fault = fault_of(sys.argv[1], pathlib.Path(place))
    if fault is not None:
        print(f"a difference: {fault}")
        return 1
    print(f"{len(TRIED)} calls agreed")
    return 0


if __name__ == "__main__":
    sys.exit(main())
