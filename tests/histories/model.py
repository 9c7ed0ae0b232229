"""What `ld replay` writes for units and the lines of an input, by the documents and nothing of the program.

A plain and slow evaluation of all that docs/MEANING.md says. Its parts are values.py, unit.py, runs.py, store.py,
terms.py, holding.py, sites.py, firing.py, alarms.py, tree.py, report.py, causes.py and commands.py; all other modules
draw units and lines, or count. A unit is given as the dict of its documents by the names of their files. A world has the published
units by their identifiers, the runs by their names, and the store of global values; it takes one line after the other.
"""
import collections

from alarms import alarm_of, check
from causes import declaration_of, refusal, refusal_of_create, refusal_of_global, told
from commands import command_of, is_passed_over
from firing import Sums, settle
from report import outbox_of, report_of
from runs import Run, owner_of
from store import Store, give_back, take_in
from tree import json_text, open_activities, tree_of
from unit import Unit
from values import printed, text_of_moment, value_for

# The verbs that make no direct change.
READING = ["get", "tree", "outbox", "report", "tick", "next"]


# A command of a run.

def change_directly(run, store, command):
    """The direct change that each verb makes, if it makes one; what is opened already keeps its moment."""
    verb, person = command["verb"], command.get("person")
    if verb == "enrol":
        run.join(person, store)
    elif verb == "assign":
        run.held.add((person, command["role"]))
    elif verb == "drop":
        run.held.remove((person, command["role"]))
    elif verb == "start":
        run.cells["Started"] = command["moment"]
    elif verb == "open" and run.cells["Opened", command["activity"], person] is None:
        run.cells["Opened", command["activity"], person] = command["moment"]
    elif verb == "complete":
        run.cells["Chosen", command["activity"], person] = True
    elif verb in ("set", "clear"):
        declared = run.unit.property[command["property"]]
        value = value_for(declared, command["value"]) if verb == "set" else None
        run.cells["Prop", command["property"], owner_of(declared, person)] = value


def done(run, store, command, sums):
    """Does a command that no check refuses, stage by stage: what refuses it, or None."""
    run.now = command["moment"]
    take_in(run, store)
    if run.is_started() and not settle(run, sums):
        return told(30)
    if command["verb"] in ("open", "complete") and command["activity"] not in open_activities(run, command["person"]):
        return told(31)
    if command["verb"] not in READING:
        change_directly(run, store, command)
        if run.is_started() and not settle(run, sums):
            return told(30)
    return None


def lines_shown(run, command):
    """The lines that a verb shows, or None of a verb that shows none."""
    if command["verb"] == "tree":
        return tree_of(run, command["person"])
    if command["verb"] == "outbox":
        return outbox_of(run, command["person"])
    return report_of(run) if command["verb"] == "report" else None


def value_shown(declared, value):
    """A value as a JSON text, or that there is none."""
    return "none" if value is None else json_text(printed(declared["datatype"], value))


def alarm_shown(run):
    """The next alarm as a moment, or that there is none."""
    alarm = alarm_of(run)
    check(run, alarm)
    return "none" if alarm is None else text_of_moment(alarm)


def reply(run, command, sums):
    """The lines that tell of a command that is done."""
    text = (f"ok {command['verb']} turns={sums.turns} fired={sums.fired} rejected={sums.rejected} sent={sums.sent}")
    if command["verb"] == "get":
        declared = run.unit.property[command["property"]]
        return [f"{text} value={value_shown(declared, run.property(command['property'], command['person']))}"]
    if command["verb"] == "next":
        return [f"{text} at={alarm_shown(run)}"]
    lines = lines_shown(run, command)
    return [text] if lines is None else [f"{text} lines={len(lines)}", *lines]


# Histories.

class World:
    """The published units, the runs and the store."""

    def __init__(self, units):
        self.units = units
        self.runs = {}
        self.store = Store()
        # How many firings of each kind of rule the commands that were done had.
        self.firings = collections.Counter()

    def block(self, line):
        """What is written for a line, which the world takes: nothing for one that is passed over."""
        return "" if is_passed_over(line) else "".join(each + "\n" for each in self.lines_for(command_of(line)))

    def lines_for(self, command):
        """The lines of the reply to a command, or to a bad line (None)."""
        if command is None:
            return [told(1)]
        if command["verb"] == "create":
            return [self.create(command)]
        if command["verb"] in ("global-set", "global-get"):
            return [self.do_global(command)]
        if command["run"] not in self.runs:
            return [told(4)]
        return self.command(command)

    def create(self, command):
        """Makes a run, unless it is refused."""
        refused = refusal_of_create(self.units, self.runs, command)
        if refused is not None:
            return refused
        self.runs[command["run"]] = Run(self.units[command["unit"]], command["moment"], self.store)
        return "ok create"

    def do_global(self, command):
        """Writes or shows a global value, unless that is refused."""
        refused = refusal_of_global(self.units, command)
        if refused is not None:
            return refused
        declared = declaration_of(self.units, command["uri"])
        if command["verb"] == "global-get":
            return f"ok global-get {value_shown(declared, self.store.value(declared, command['owner']))}"
        self.store.write(declared, command["owner"], value_for(declared, command["value"]))
        return "ok global-set"

    def command(self, command):
        """Does a command of a run; a refused one leaves the run and the store as they were."""
        before = self.runs[command["run"]]
        refused = refusal(before, command)
        if refused is not None:
            return [refused]
        run, sums = before.copy(), Sums()
        refused = done(run, self.store, command, sums)
        if refused is not None:
            return [refused]
        self.runs[command["run"]] = run
        give_back(run, self.store)
        self.firings.update(sums.firings)
        return reply(run, command, sums)


def replies(folders, lines):
    """The reply block of each line, in order, to folders without a fault; that of a line passed over is empty."""
    world = World({documents["unit.json"]["identifier"]: Unit(documents) for documents in folders})
    return [world.block(line) for line in lines]


# Folders.

def fault_of(documents, before):
    """The fault of a folder, or None: it has no roles, or its unit has the identifier of one published before it.

    These are the only faults that random folders have.
    """
    if "roles.json" not in documents:
        return "roles.json . absent"
    return "unit.json /identifier repeated-unit" if documents["unit.json"]["identifier"] in before else None


def refused_of(folders):
    """The line that tells the first fault of the first folder that has one, or None."""
    units = []
    for number, documents in enumerate(folders, 1):
        fault = fault_of(documents, units)
        if fault is not None:
            return f"refused {number} {fault}\n"
        units.append(documents["unit.json"]["identifier"])
    return None


def answer(folders, lines):
    """The status, what is written block by block, and what is said, for folders and the lines of an input."""
    refused = refused_of(folders)
    if refused is not None:
        return 4, [refused], "ld: unit-refused\n"
    return 0, replies(folders, lines), ""
