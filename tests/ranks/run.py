#!/usr/bin/env python3
"""Runs the program's form `rank` on random units and compares what it prints with an evaluation made from docs/RANKS.md.

    run.py PROGRAM [SEED [COUNT]]

First come the folders of rows.py, then random units, which are those of tests/histories. In the history of each unit that
is ranked no settling of the model fires a rule in a later sweep than its rank, and none passes its budget where the depth is
at most the unit's turns. At the first difference it ends, and tells the seed.
"""
import pathlib
import subprocess
import sys
import tempfile

TOP = pathlib.Path(__file__).resolve().parent.parent.parent
sys.path.insert(0, str(TOP / "tests" / "histories"))

import firing
import model
import run as histories
from model import refused_of
from ranking import report_of
from rows import ROWS
from unit import Unit

SEED = 1
COUNT = 200


class Watch:
    """Watches the settlings of the model: in which sweep a ranked rule fires, and whether a budget is passed."""

    def __init__(self):
        self.settle, self.sweep, self.fire = firing.settle, firing.sweep, firing.fire
        model.settle, firing.sweep, firing.fire = self.settled, self.swept, self.fired
        self.ranks, self.faults = {}, []
        self.number = self.latest = 0

    def expect(self, documents):
        """From now on a unit has its ranks, if it can be ranked."""
        unit = Unit(documents)
        ranks, _ = report_of(unit)
        if ranks is not None:
            self.ranks[unit.identifier] = {rule[1]: rank for rule, rank in zip(unit.rules, ranks)}

    def settled(self, run, sums):
        """Settles, and notes a ranked unit whose depth is at most its turns and that passes its budget."""
        self.number = 0
        stays = self.settle(run, sums)
        ranks = self.ranks.get(run.unit.identifier)
        if not stays and ranks is not None and max(ranks.values()) <= run.unit.turns:
            self.faults.append(f"{run.unit.identifier} passed its budget")
        return stays

    def swept(self, run, sums):
        """Sweeps, and counts it."""
        self.number += 1
        return self.sweep(run, sums)

    def fired(self, run, sums, site, answer):
        """Fires, and notes a rule that does so in a later sweep than its rank."""
        (_, name, _), _ = site
        ranks = self.ranks.get(run.unit.identifier)
        if ranks is not None:
            self.latest = max(self.latest, self.number)
            if self.number > ranks[name]:
                self.faults.append(f"{run.unit.identifier}: {name} of rank {ranks[name]} fired in sweep {self.number}")
        self.fire(run, sums, site, answer)


def drawn(seed, watch):
    """The rest of the draw of a seed and its folders, once the model has run its history under watch."""
    watch.ranks.clear()

    class Watched(histories.History):
        """A history whose units are watched from its first line on."""

        def __init__(self, draw, folders, *rest):
            for documents in folders:
                watch.expect(documents)
            super().__init__(draw, folders, *rest)

    plain, histories.History = histories.History, Watched
    draw, folders, _ = histories.case_of(seed)
    histories.History = plain
    return draw, folders


def printed_by(program, folder):
    """The status, what the program prints of a folder, and what it says."""
    done = subprocess.run([program, "rank", str(folder)], capture_output=True, stdin=subprocess.DEVNULL, timeout=60,
                          check=False)
    return done.returncode, done.stdout.decode(), done.stderr.decode()


def wrong_row(program):
    """The first folder of the rows of which something else is printed, with what is, or None."""
    for folder, wanted in ROWS:
        status, got, said = printed_by(program, TOP / folder)
        if (status, got[:len(wanted)], said) != (0, wanted, ""):
            return f"{folder}\nwanted {wanted}\ngot    {status} {got[:1000]} {said}"
    return None


def printed_by_all(program, draw, folders):
    """The same of each folder of a draw, one call each."""
    with tempfile.TemporaryDirectory() as path:
        for folder in histories.write_folders(draw, pathlib.Path(path), folders):
            yield printed_by(program, folder)


class Counts:
    """How many units are ranked, how deep, and how many have a loop."""

    def __init__(self):
        self.ranked = self.loops = self.deepest = 0

    def add(self, ranks):
        """Counts a unit by its ranks, or by None."""
        self.loops += ranks is None
        self.ranked += ranks is not None
        self.deepest = max([self.deepest] + (ranks or []))


def fault_of(program, draw, folders, counts):
    """What differs between the program and the evaluation, or None."""
    for documents, got in zip(folders, printed_by_all(program, draw, folders)):
        ranks, lines = report_of(Unit(documents))
        wanted = 0, "".join(line + "\n" for line in lines), ""
        if got != wanted:
            return f"wanted {wanted}\ngot    {got}"
        counts.add(ranks)
    return None


def main():
    program = sys.argv[1]
    first = int(sys.argv[2]) if len(sys.argv) > 2 else SEED
    count = int(sys.argv[3]) if len(sys.argv) > 3 else COUNT
    fault = wrong_row(program)
    if fault is not None:
        print(f"a difference: {fault}")
        return 1
    agreed, counts, watch = 0, Counts(), Watch()
    for seed in range(first, first + count):
        draw, folders = drawn(seed, watch)
        fault = watch.faults[0] if watch.faults else None
        if fault is None and refused_of(folders) is None:
            fault = fault_of(program, draw, folders, counts)
        if fault is not None:
            print(f"a difference, to be had again by `run.py PROGRAM {seed} 1`:\n{fault}")
            break
        agreed += 1
    print(f"{counts.ranked} units are ranked, the deepest {counts.deepest}, and {counts.loops} have a loop; the latest sweep in "
          f"which a rule of a ranked unit fired is the {watch.latest}.")
    print(f"{agreed} of {count} draws agreed")
    return 0 if agreed == count else 1


if __name__ == "__main__":
    sys.exit(main())
