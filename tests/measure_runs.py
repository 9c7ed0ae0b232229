#!/usr/bin/env python3
"""Measures how long `ld replay` takes for whole histories, against a plain evaluation in Rust.

    tests/measure_runs.py [--program PROGRAM] [--times TIMES] [--only LETTERS] [--keep FOLDER]

The plain program, tests/plain, is compiled by `rustc -O`; it was written from the documents, reads the same folders and
lines, and has to write the same replies. Both are called TIMES times in turn (7 where no number is given) on each
load, with their output into a file. Printed are the least seconds from start to end and the least seconds of a
processor of each, and how many times as long `ld` takes. The loads, of which LETTERS may pick some:

    a  600 rules and 200 persons: a start and 200 commands
    b  a tree of 4,000 lines, asked for 300 times
    c  40 activities, 31 conditions of which one looks at all members, 200 persons, 500 completions
    d  2,000 runs of a unit with two global properties, which are set and read in turn
    e  240 conditions in a chain against the order of a sweep, so that each set takes 240 turns
    f  200,000 lines that only read, in a run of a small unit: `get` and `tick` in turn
    g  200,000 lines of which one in three asks for a small tree, one names nobody, and one is no command
    h  the unit of a: 99 persons join a started run, and are given the role
    i  the like with 50 persons, and 100 completions that are refused, since the activity is not open
    j  300 properties of which all runs share each person's value, 200 persons, and 1,000 lines that only read
    k  100 activities with a time limit, 60 conditions on the moment, 200 persons: 200 openings, and `next` after each

With --keep, the folders and the inputs are left in FOLDER, each below its letter.
"""
import argparse
import json
import os
import pathlib
import subprocess
import sys
import tempfile
import time

ROOT = pathlib.Path(__file__).resolve().parent.parent
PROGRAM = ROOT / "crates" / "ld_program" / "out" / "ld_program"
PLAIN = ROOT / "tests" / "plain" / "main.rs"
TIMES = 7


# Documents and lines.

def learner_unit(level, refers_to, act_ends=None, play_ends=None, unit_ends=None, **more):
    """A unit of one play, act and role-part of the role learner."""
    act = {"identifier": "act", "role-parts": [{"identifier": "part", "role": "learner", "ref": refers_to}]}
    play = {"identifier": "play", "acts": [act]}
    method = {"plays": [play]}
    for thing, ending in ((act, act_ends), (play, play_ends), (method, unit_ends)):
        if ending is not None:
            thing["complete"] = ending
    return {"format": 1, "identifier": "u", "level": level, **more, "method": method}


def documents(unit, activities, structures=(), properties=(), conditions=()):
    """The documents of a folder with the one role learner."""
    return {
        "roles.json": {"roles": [{"identifier": "learner", "kind": "learner"}]},
        "activities.json": {"activities": list(activities), "structures": list(structures)},
        "properties.json": {"properties": list(properties)},
        "conditions.json": {"conditions": list(conditions)},
        "unit.json": unit,
    }


def by_choice(count, **more):
    """Activities that their persons complete, a0 and so on."""
    return [{"identifier": f"a{number}", "complete": {"user-choice": True}, **more} for number in range(count)]


def all_of(count):
    """The structure `all`, a selection of the activities of by_choice."""
    return {"identifier": "all", "kind": "selection", "children": [f"a{number}" for number in range(count)]}


def integer(identifier, kind="locpers", **more):
    """A property that begins as 0."""
    return {"identifier": identifier, "kind": kind, "datatype": "integer", "initial": "0", **more}


def change(identifier, term):
    """The action that gives a property the value of a term."""
    return {"change": {"property": identifier, "value": term}}


def one_more(identifier):
    """The term that is a property and 1."""
    return {"sum": [{"property": identifier}, {"integer": "1"}]}


def moment(seconds):
    """The text of a moment, by the seconds since a morning."""
    day, second = 1 + seconds // 86_400, seconds % 86_400
    return f"2024-01-{day:02}T{second // 3_600:02}:{second // 60 % 60:02}:{second % 60:02}Z"


def persons_of(count):
    """The names of persons."""
    return [f"p{number}" for number in range(count)]


def started_run(persons):
    """The words of the lines that make a run with these learners and start it."""
    yield ["create", "r", "u"]
    for person in persons:
        yield ["enrol", "r", person]
        yield ["assign", "r", person, "learner"]
    yield ["start", "r"]


# The loads: each the documents of a folder, and the words of its lines.

def scoring(count):
    """Conditions that count the first so many activities of by_choice that a person has completed."""
    return [{"if": {"complete": f"a{number}"}, "then": [change("score", one_more("score"))]} for number in range(count)]


def many_rules():
    """300 activities in a structure, and a condition for each of the first 297: 600 rules with the act's two."""
    return documents(learner_unit("B", "all"), by_choice(300), [all_of(300)], [integer("score")], scoring(297))


def load_a():
    """The 600 rules, and commands of all sorts."""
    persons = persons_of(200)

    def words():
        yield from started_run(persons)
        for number, person in enumerate(persons):
            if number % 4 == 0:
                yield ["complete", "r", person, f"a{7 * number % 300}"]
            elif number % 4 == 1:
                yield ["set", "r", person, "score", str(number)]
            elif number % 4 == 2:
                yield ["get", "r", person, "score"]
            else:
                yield ["tick", "r"]

    return many_rules(), words()


def load_b():
    """100 activities whose items make a tree of just 4,000 lines with the five above them."""
    activities = by_choice(100, title="An activity")
    for number, activity in enumerate(activities):
        count = 34 if number == 0 else 39
        activity["items"] = [{"identifier": f"i{number}_{item}", "title": f"Chapter {item}",
                              "href": f"text/{number}/{item}.html"} for item in range(count)]
    words = [*started_run(["ann"]), *[["tree", "r", "ann"]] * 300]
    return documents(learner_unit("A", "all"), activities, [all_of(100)]), words


def load_c():
    """Scores that count what is completed, and a condition on the scores of all members."""
    conditions = scoring(30)
    is_high = {"greater-than": [{"property": "score"}, {"integer": "29"}]}
    conditions.append({"if": {"users-in-role": {"role": "learner", "expression": is_high}},
                       "then": [{"notify": {"roles": ["learner"]}}]})
    unit = learner_unit("C", "all", {"when-role-part-completed": ["part"]}, {"when-last-act-completed": True},
                        {"when-play-completed": ["play"]})
    persons = persons_of(200)
    completed = [(persons[number % 200], f"a{number // 200 * 11 + number % 7}") for number in range(500)]
    words = [*started_run(persons), *(["complete", "r", *each] for each in completed)]
    return documents(unit, by_choice(40), [all_of(40)], [integer("score")], conditions), words


def load_d():
    """A value of all runs and one of each person in all runs, the first of which a condition reads."""
    properties = [integer("count", "glob", uri="urn:count"), integer("own", "globpers", uri="urn:own")]
    is_more = {"greater-than": [{"property": "count"}, {"property": "own"}]}
    conditions = [{"if": is_more, "then": [change("own", one_more("own"))]}]
    runs = range(2_000)

    def words():
        for number in runs:
            run, person = f"r{number}", f"p{number}"
            yield ["create", run, "u"]
            yield ["enrol", run, person]
            yield ["assign", run, person, "learner"]
            yield ["start", run]
        for step in range(20):
            for number in runs:
                run, person, name = f"r{number}", f"p{number}", "count" if step % 4 < 2 else "own"
                yield ["get", run, person, name] if step % 2 else ["set", run, person, name, str(number + step)]

    unit = learner_unit("B", "a0")
    return documents(unit, by_choice(1), properties=properties, conditions=conditions), words()


def load_e():
    """Each condition sets what the one before it reads, so that a sweep takes a change one condition further."""
    conditions = []
    for number in range(240):
        before = f"v{number - 1}" if number else "last"
        conditions.append({"if": {"is": [{"property": f"v{number}"}, {"integer": "1"}]},
                           "then": [change(before, {"integer": "1"})], "else": [change(before, {"integer": "0"})]})
    properties = [integer("last"), *(integer(f"v{number}") for number in range(240))]
    persons = persons_of(10)
    words = [*started_run(persons),
             *(["set", "r", persons[number % 10], "v239", str((number // 10 + 1) % 2)] for number in range(100))]
    unit = learner_unit("B", "a0", turns=256)
    return documents(unit, by_choice(1), properties=properties, conditions=conditions), words


def load_f():
    """One activity, one property and three persons."""
    persons = persons_of(3)
    asked = [["get", "r", person, "score"] for person in persons]
    words = [*started_run(persons), *(["tick", "r"] if number % 2 else asked[number % 3] for number in range(200_000))]
    return documents(learner_unit("B", "a0"), by_choice(1), properties=[integer("score")]), words


def load_g():
    """One activity and one person."""
    asked = [["tree", "r", "ann"], ["tree", "r", "bob"], ["tree", "r", "ann", "bob"]]
    words = [*started_run(["ann"]), *(asked[number % 3] for number in range(200_000))]
    return documents(learner_unit("A", "a0"), by_choice(1)), words


def load_h():
    """One person starts the run, and the others join it."""
    first, *others = persons_of(100)
    words = [*started_run([first]),
             *(word for person in others for word in (["enrol", "r", person], ["assign", "r", person, "learner"]))]
    return many_rules(), words


def load_i():
    """An activity of a second act, which is not open while the first one is not done."""
    persons = persons_of(50)
    unit = learner_unit("B", "all")
    part = {"identifier": "later", "role": "learner", "ref": "last"}
    unit["method"]["plays"][0]["acts"].append({"identifier": "second", "role-parts": [part]})
    activities = [*by_choice(300), {"identifier": "last", "complete": {"user-choice": True}}]
    words = [*started_run(persons), *(["complete", "r", persons[number % 50], "last"] for number in range(100))]
    return documents(unit, activities, [all_of(300)], [integer("score")], scoring(290)), words


def load_j():
    """Values of 200 persons that all runs share, which nobody writes while they are read."""
    persons = persons_of(200)
    properties = [integer(f"v{number}", "globpers", uri=f"urn:v{number}") for number in range(300)]
    asked = [["get", "r", persons[number % 200], f"v{number % 300}"] for number in range(600)]
    words = [*started_run(persons), *(["tick", "r"] if number % 2 else asked[number % 600] for number in range(1_000))]
    return documents(learner_unit("B", "a0"), by_choice(1), properties=properties), words


def load_k():
    """What time alone brings about: limits that begin when a person opens an activity, and moments of the next day."""
    activities = [{"identifier": f"a{number}", "complete": {"time-limit": f"PT{number + 1}H"}} for number in range(100)]
    conditions = [{"if": {"greater-than": [{"current-datetime": True}, {"datetime": moment(90_000 + 60 * number)}]},
                   "then": [change("score", one_more("score"))]} for number in range(60)]
    persons = persons_of(200)

    def words():
        yield from started_run(persons)
        for number, person in enumerate(persons):
            yield ["open", "r", person, f"a{7 * number % 100}"]
            yield ["next", "r"]

    return documents(learner_unit("B", "all"), activities, [all_of(100)], [integer("score")], conditions), words()


LOADS = {"a": load_a, "b": load_b, "c": load_c, "d": load_d, "e": load_e, "f": load_f, "g": load_g, "h": load_h, "i": load_i,
         "j": load_j, "k": load_k}


def write_load(place, load):
    """Writes the folder and the input of a load, the moments of whose lines rise; gives their paths and a count."""
    folder, given = place / "unit", place / "lines"
    folder.mkdir(parents=True, exist_ok=True)
    texts, words = load()
    for name, document in texts.items():
        (folder / name).write_text(json.dumps(document, separators=(",", ":")))
    lines = [json.dumps([moment(28_800 + number), *each], separators=(",", ":")) for number, each in enumerate(words)]
    given.write_text("\n".join(lines) + "\n")
    return folder, given, len(lines)


# Calls.

def spent(command, given, output):
    """The seconds from start to end of one call, and those of a processor."""
    with open(given, "rb") as source, open(output, "wb") as sink:
        before = time.perf_counter()
        running = subprocess.Popen(command, stdin=source, stdout=sink)
        _, status, used = os.wait4(running.pid, 0)
        seconds = time.perf_counter() - before
        running.returncode = os.waitstatus_to_exitcode(status)
    if running.returncode != 0:
        sys.exit(f"{command[0]} ended with {running.returncode}")
    return seconds, used.ru_utime + used.ru_stime


def measured(programs, place, load, times):
    """The number of lines, whether all programs wrote the same, and the least times of each."""
    folder, given, count = write_load(place, load)
    taken = [[] for _ in programs]
    outputs = [place / f"out{number}" for number in range(len(programs))]
    for _ in range(times):
        for program, output, row in zip(programs, outputs, taken):
            row.append(spent([program, "replay", folder], given, output))
    texts = {output.read_bytes() for output in outputs}
    for output in outputs:
        output.unlink()
    return count, len(texts) == 1, [tuple(map(min, zip(*row))) for row in taken]


def main():
    parser = argparse.ArgumentParser()
    parser.add_argument("--program", default=PROGRAM)
    parser.add_argument("--times", type=int, default=TIMES)
    parser.add_argument("--only", default="".join(LOADS))
    parser.add_argument("--keep")
    options = parser.parse_args()
    is_same = True
    with tempfile.TemporaryDirectory() as place:
        plain = os.path.join(place, "plain")
        subprocess.run(["rustc", "-O", "--edition", "2024", "-o", plain, PLAIN], check=True)
        root = pathlib.Path(options.keep or place)
        print("load    lines        ld   plain   times    ld, processor   plain   times")
        for letter in options.only:
            programs = [options.program, plain]
            count, agree, (ours, theirs) = measured(programs, root / letter, LOADS[letter], options.times)
            print(f"{letter:4} {count:8} {ours[0]:7.3f} s {theirs[0]:5.3f} s {ours[0] / theirs[0]:7.2f}"
                  f" {ours[1]:14.3f} s {theirs[1]:5.3f} s {ours[1] / theirs[1]:7.2f}"
                  + ("" if agree else "  the replies differ"), flush=True)
            is_same = is_same and agree
    return 0 if is_same else 1


if __name__ == "__main__":
    sys.exit(main())
