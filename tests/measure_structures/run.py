#!/usr/bin/env python3
"""Measures the plain data structures of a run beside the same work in plain Rust.

    tests/measure_structures/run.py [RUNS [STRUCTURE..]]     the time
    tests/measure_structures/run.py count [STRUCTURE..]      the instructions, by valgrind, in some minutes

Each folder beside this file is a structure. It holds `program` (a crate `measure_STRUCTURE`: its src and
proofs, each file with `.text` behind its name, since `rt` reads no crate here), `libraries` (the
crates on which that stands), `plain.rs` (the same work in plain Rust) and `words` (a line for each
measurement: the word that both are called with). In a temporary folder the crate is proved and built by
`rt run`, over copies of this repository's crates with what their checks kept, and the plain program by
`rustc -O`. Both have to print the same. Each is called RUNS times (11 where no number is given), in turn,
and the median and the least time of the whole call are printed: the processor's time, which other work
on the machine disturbs less than what passes on a clock.
"""
import functools
import os
import re
import resource
import shutil
import statistics
import subprocess
import sys
import tempfile

HERE = os.path.dirname(os.path.abspath(__file__))
ROOT = os.path.dirname(os.path.dirname(HERE))


def lines_of_crates():
    """Each crate of the repository, with the crates that it names."""
    crates = {}
    with open(os.path.join(ROOT, "crates.txt")) as file:
        for line in file:
            name, colon, rest = line.partition(":")
            if colon and not name.startswith("#"):
                crates[name.split()[0]] = (line.rstrip("\n"), rest.split())
    return crates


def below(names, crates):
    """The crates of the repository that these stand on, themselves too."""
    found = []
    for name in names:
        if name in crates:
            for each in below(crates[name][1], crates) + [name]:
                if each not in found:
                    found.append(each)
    return found


def words_of(*path):
    with open(os.path.join(HERE, *path)) as file:
        return file.read().split()


def build(structure, work):
    """The program in Rattle and the one in plain Rust, built."""
    crates = lines_of_crates()
    libraries = words_of(structure, "libraries")
    name = "measure_" + structure
    needed = below(libraries, crates)
    for crate in needed:
        source = os.path.join(ROOT, "crates", crate)
        shutil.copytree(source, os.path.join(work, "crates", crate), symlinks=True)
    own = os.path.join(work, "crates", name)
    shutil.copytree(os.path.join(HERE, structure, "program"), own)
    for place, _, names in os.walk(own):
        for each in names:
            path = os.path.join(place, each)
            os.rename(path, path.removesuffix(".text"))
    with open(os.path.join(work, "crates.txt"), "w") as file:
        for crate in needed:
            file.write(crates[crate][0] + "\n")
        file.write(f"{name}: {' '.join(libraries)}\n")
    made = subprocess.run(["rt", "run"], cwd=own, capture_output=True, text=True)
    if made.returncode != 0:
        sys.exit(f"{structure}: not built\n{made.stdout[-4000:]}{made.stderr[-4000:]}")
    plain = os.path.join(work, "plain_" + structure)
    source = os.path.join(HERE, structure, "plain.rs")
    subprocess.run(["rustc", "-O", "-o", plain, source], check=True)
    return os.path.join(own, "out", name), plain


def timed(command):
    """The seconds of processor time of one call, and what it printed."""
    before = resource.getrusage(resource.RUSAGE_CHILDREN)
    done = subprocess.run(command, capture_output=True, check=True)
    after = resource.getrusage(resource.RUSAGE_CHILDREN)
    return after.ru_utime + after.ru_stime - before.ru_utime - before.ru_stime, done.stdout


def counted(command):
    """The instructions of one call, in millions."""
    tool = ["valgrind", "--tool=callgrind", "--callgrind-out-file=/dev/null"]
    done = subprocess.run(tool + command, capture_output=True, check=True, text=True)
    return int(re.search(r"Collected : (\d+)", done.stderr).group(1)) / 1e6


def measure(structure, look):
    work = tempfile.mkdtemp()
    try:
        program, plain = build(structure, work)
        with open(os.path.join(HERE, structure, "words")) as file:
            for line in file:
                look(structure, program, plain, line.split())
    finally:
        shutil.rmtree(work)


def count(structure, program, plain, words):
    ours, theirs = counted([program] + words), counted([plain] + words)
    print(f"{structure} {' '.join(words)}: {ours:.0f} and {theirs:.0f} million instructions, {ours / theirs:.2f} times")


def compare(structure, program, plain, words, runs):
    taken = {program: [], plain: []}
    printed = set()
    for _ in range(runs):
        for command in (program, plain):
            seconds, text = timed([command] + words)
            taken[command].append(seconds)
            printed.add(text)
    if len(printed) != 1:
        sys.exit(f"{structure} {' '.join(words)}: the two print different lines: {printed}")
    for name, times in (("rattle", taken[program]), ("plain Rust", taken[plain])):
        median, least = statistics.median(times), min(times)
        print(f"{structure} {' '.join(words)}: {name}: median {median * 1000:.0f} ms, least {least * 1000:.0f} ms")
    ratio = statistics.median(taken[program]) / statistics.median(taken[plain])
    least = min(taken[program]) / min(taken[plain])
    print(f"{structure} {' '.join(words)}: {ratio:.2f} times plain Rust (of the least times {least:.2f})")


def main():
    first = sys.argv[1] if len(sys.argv) > 1 else "11"
    look = count if first == "count" else functools.partial(compare, runs=int(first))
    every = sorted(each for each in os.listdir(HERE) if os.path.isdir(os.path.join(HERE, each, "program")))
    for structure in sys.argv[2:] or every:
        measure(structure, look)


if __name__ == "__main__":
    main()
