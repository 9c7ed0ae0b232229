#!/usr/bin/env python3
"""Runs `rt ci` from nothing at the top of a repository and says where its time goes.

    gate_times.py [FOLDER]

It proves everything from nothing, as the gate does. What the gate says goes to standard error; the table to
standard output: for each crate of crates.txt the seconds that a processor worked for its proof, for its tests
(which prove the crate again where it has any), and for its edits, whose first one proves it once more. The
processes are looked at twice a second, so the last half second of each is not seen; the line `not seen` has it.
"""
import collections
import os
import pathlib
import resource
import subprocess
import sys
import threading
import time

KINDS = ["proof", "tests", "edits"]
TICKS = os.sysconf("SC_CLK_TCK")
PAUSE = 0.5


def parents():
    """The parent of each process."""
    found = {}
    for entry in os.listdir("/proc"):
        if entry.isdigit():
            fields = fields_of(int(entry))
            if fields:
                found[int(entry)] = int(fields[1])
    return found


def fields_of(process):
    """The fields of a process behind its name: its state, its parent and so on; None where it has ended."""
    try:
        return pathlib.Path(f"/proc/{process}/stat").read_text().rpartition(")")[2].split()
    except OSError:
        return None


def seconds_of(process):
    """The seconds that a processor worked for the process itself, or None where it has ended."""
    fields = fields_of(process)
    return (int(fields[11]) + int(fields[12])) / TICKS if fields else None


def task_of(process):
    """The crate and the kind of a run of the prover, or None for another process."""
    try:
        words = pathlib.Path(f"/proc/{process}/cmdline").read_bytes().decode(errors="replace").split("\0")
        folder = os.readlink(f"/proc/{process}/cwd")
    except OSError:
        return None
    if os.path.basename(words[0]) != "rattle" or "--crate-name" not in words[:-1]:
        return None
    crate = words[words.index("--crate-name") + 1]
    if any(part.startswith("rt-edit-") for part in folder.split("/")):
        return crate, "edits"
    return crate, "tests" if "--test" in words else "proof"


class Sampler:
    """Looks at the processes below one process until that has ended."""

    def __init__(self, top):
        self.top, self.seconds, self.tasks, self.has_ended = top, {}, {}, threading.Event()

    def task(self, process, above):
        """The task of the process, or of the nearest one above it that has one."""
        while process in above and process != self.top:
            if self.tasks.get(process) is None:
                self.tasks[process] = task_of(process)
            if self.tasks[process]:
                return self.tasks[process]
            process = above[process]
        return None

    def look(self):
        above = parents()
        # (a number is given to another process once the first has ended)
        self.tasks = {process: task for process, task in self.tasks.items() if process in above}
        for process in above:
            at = process
            while at in above and at != self.top:
                at = above[at]
            spent = seconds_of(process) if at == self.top else None
            if spent is not None:
                task, born = self.task(process, above), fields_of(process)
                if born:
                    self.seconds[process, born[19]] = task, spent

    def run(self):
        while not self.has_ended.wait(PAUSE):
            self.look()

    def table(self):
        spent = collections.Counter()
        for task, seconds in self.seconds.values():
            spent[task] += seconds
        return spent


def crates_in(folder):
    lines = (folder / "crates.txt").read_text().splitlines()
    return [line.split(":")[0].split()[0] for line in lines if ":" in line.partition("#")[0]]


def print_table(crates, spent, whole, wall):
    print("| crate | proof | tests | edits | all |\n|---|---|---|---|---|")
    for crate in crates:
        row = [spent[crate, kind] for kind in KINDS]
        print(f"| {crate} | " + " | ".join(f"{seconds:.0f}" for seconds in [*row, sum(row)]) + " |")
    sums = [sum(spent[crate, kind] for crate in crates) for kind in KINDS]
    print("| all | " + " | ".join(f"{seconds:.0f}" for seconds in [*sums, sum(sums)]) + " |")
    print(f"\n{whole:.0f} seconds of a processor, of which {spent[None]:.0f} for what is no crate's and "
          f"{whole - sum(sums) - spent[None]:.0f} not seen; {wall / 60:.1f} minutes on {os.cpu_count()} processors.")


def gate():
    """The words of a gate that proves all from nothing; in a kit that keeps nothing from run to run, `rt ci` does."""
    says = subprocess.run(["rt", "--help"], capture_output=True, text=True, check=True).stdout
    return ["rt", "ci", *(["--anew"] if "--anew" in says else [])]


def main():
    folder = pathlib.Path(sys.argv[1] if len(sys.argv) > 1 else ".").resolve()
    began = time.monotonic()
    with subprocess.Popen(gate(), cwd=folder, stdin=subprocess.DEVNULL, stdout=sys.stderr) as gate:
        sampler = Sampler(gate.pid)
        thread = threading.Thread(target=sampler.run)
        thread.start()
        try:
            status = gate.wait()
        finally:
            sampler.has_ended.set()
            thread.join()
    used = resource.getrusage(resource.RUSAGE_CHILDREN)
    print_table(crates_in(folder), sampler.table(), used.ru_utime + used.ru_stime, time.monotonic() - began)
    return status


if __name__ == "__main__":
    sys.exit(main())
