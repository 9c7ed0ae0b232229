#!/usr/bin/env python3
"""Says which functions of a crate cost most to prove.

    proof_times.py crates/NAME [HOW MANY]

The crate's folder out/ is to be removed first, and the whole crate proved by `rt check --jobs 1`, with little else on the
machine. Each part of a proof is written as it is done, so the time between one file and the next is what it cost, in
seconds.
"""
import collections
import pathlib
import re
import sys

# The parts of the proof of one function.
PART = re.compile(r"(Code|Statement|Proof|Met|Symbol|Body|Lts|Carried.*|TheImpl|Laws|Answers|Invariants|Goals?.*|Part.*"
                  r"|Step.*|Walk.*|Loop.*|[A-Z]\w*-\d.*|Kinds|Reads|Tie|Layout|Named|Mir|decls)")


def function_of(name):
    """The function that a module belongs to."""
    words = re.sub(r"^Rattle-\w+?[-.](proofs|specs)\.", "", name).split(".")
    while len(words) > 1 and PART.fullmatch(words[-1]):
        words.pop()
    return ".".join(words)


def modules(crate):
    """Each module with the seconds between the one before it and itself."""
    files = [(file.stat().st_mtime, file.stem) for file in (crate / "out/incremental").rglob("*.oantt")]
    files.sort()
    return [(name, moment - before) for (before, _), (moment, name) in zip(files, files[1:])]


def main():
    if len(sys.argv) < 2:
        sys.exit(__doc__)
    count = int(sys.argv[2]) if len(sys.argv) > 2 else 20
    found = modules(pathlib.Path(sys.argv[1]))
    if not found:
        sys.exit(f"{sys.argv[1]} keeps no proof: run rt check --jobs 1 there")
    functions, parts = collections.Counter(), collections.Counter()
    for name, seconds in found:
        functions[function_of(name)] += seconds
        parts[name] += seconds
    print(f"{sum(functions.values()):.0f} seconds, of which the most went to the functions")
    for name, seconds in functions.most_common(count):
        print(f"{seconds:8.1f}  {name}")
    print("and to the parts")
    for name, seconds in parts.most_common(count):
        print(f"{seconds:8.1f}  {name}")


if __name__ == "__main__":
    main()
