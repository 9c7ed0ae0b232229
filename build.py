#!/usr/bin/env python3
"""Proves and builds crates/ld_program and the crates that it stands on, with all processors; `./ld --build` calls it.

    build.py            says which crate is done, and where one is not proved, why
    build.py --order    only lists the crates, lowest first

Crates that do not stand on each other are built side by side. A crate that is alone gets all processors, and of
several the one with the longest way still to go gets those that are left. `rt` keeps other runs out of a crate
and of all that it stands on, so each is built in a folder of its own: with links to what it stands on, and its
own work, which is moved there and back.
"""
import contextlib
import fcntl
import os
import pathlib
import re
import shutil
import subprocess
import sys
import threading
import time

ROOT = pathlib.Path(__file__).resolve().parent
PROGRAM = "ld_program"
SOURCES = ["src", "specs", "proofs"]
KEPT = ["incremental", "rlib"]


def name_in(line):
    """The crate that a line of crates.txt names, or None."""
    head, colon, _ = line.partition("#")[0].partition(":")
    return head.split()[0] if colon else None


def read_crates():
    """The crates of crates.txt, each with the crates of the repository that it names."""
    lines = [line.partition("#")[0] for line in (ROOT / "crates.txt").read_text().splitlines()]
    named = {name_in(line): line.partition(":")[2].split() for line in lines if name_in(line)}
    return {name: [each for each in libraries if each in named] for name, libraries in named.items()}


def below(crates, name):
    """All crates that this one stands on, lowest first."""
    found = []

    def go(crate):
        for each in crates[crate]:
            if each not in found:
                go(each)
                found.append(each)

    go(name)
    return found


def count_lines(name):
    """The lines of the crate's own code, definitions and proofs."""
    files = [file for part in SOURCES for file in (ROOT / "crates" / name / part).rglob("*.*t*") if file.is_file()]
    return sum(file.read_bytes().count(b"\n") for file in files)


def ways(crates, needed):
    """For each crate the lines of the longest chain that begins with it and goes up to the program."""
    way = {}
    for name in reversed(needed):
        above = [way[other] for other in needed if name in crates[other]]
        way[name] = count_lines(name) + max(above, default=0)
    return way


def link_tree(source, target):
    """The same files at another place."""
    try:
        shutil.copytree(source, target, copy_function=os.link)
    except (OSError, shutil.Error):
        shutil.rmtree(target, ignore_errors=True)
        shutil.copytree(source, target)


def move_kept(source, target):
    """Moves what rt keeps of a crate from one of its folders into the other."""
    for part in KEPT:
        if (source / "out" / part).is_dir():
            shutil.rmtree(target / "out" / part, ignore_errors=True)
            (target / "out").mkdir(exist_ok=True)
            shutil.move(source / "out" / part, target / "out" / part)


def build_library(crates, name, jobs, stage):
    """Builds a crate over those below it, which are built; returns its status."""
    room, crate, lower = stage / name, ROOT / "crates" / name, below(crates, name)
    room.mkdir()
    lines = (ROOT / "crates.txt").read_text().splitlines(keepends=True)
    (room / "crates.txt").write_text("".join(it for it in lines if name_in(it) in [*lower, name]))
    for each in [*lower, name]:
        for part in [*SOURCES, *(["out/rlib"] if each != name else [])]:
            if (ROOT / "crates" / each / part).is_dir():
                link_tree(ROOT / "crates" / each / part, room / "crates" / each / part)
    move_kept(crate, room / "crates" / name)
    try:
        return run_rt(["lib", "--jobs", str(jobs)], room / "crates" / name, crate)
    finally:
        move_kept(room / "crates" / name, crate)
        shutil.rmtree(room)


def run_rt(words, where, crate):
    """Runs rt in a folder, with what it says in the crate's out/build.log; returns its status."""
    (crate / "out").mkdir(exist_ok=True)
    with open(crate / "out/build.log", "wb") as log:
        return subprocess.run(["rt", *words], cwd=where, stdin=subprocess.DEVNULL, stdout=log,
                              stderr=subprocess.STDOUT, check=False).returncode


def say(text):
    print(f"ld: {text}", file=sys.stderr, flush=True)


def show_log(name):
    """The errors in what rt said of a crate, or else its last lines."""
    log = ROOT / "crates" / name / "out/build.log"
    lines = log.read_text(errors="replace").splitlines() if log.is_file() else []
    told = [line for line in lines if re.search(r": (no proof|not proved|error)|^rt: ", line)]
    for line in (told or lines)[-20:]:
        say(line)
    say(f"{name} could not be built; see {log.relative_to(ROOT)}")


def build_libraries(crates, needed, stage, done):
    """Builds the crates below the program, as many at once as there are processors; returns whether all are built."""
    processors, way = len(os.sched_getaffinity(0)), ways(crates, needed)
    left, running, built = sorted(needed, key=lambda it: -way[it]), {}, {}
    turn = threading.Condition()

    def work(name, jobs):
        try:
            status = build_library(crates, name, jobs, stage)
        except OSError as error:
            say(f"{name}: {error}")
            status = 2
        with turn:
            built[name] = status
            turn.notify()

    try:
        while left or running:
            for name, jobs in chosen(crates, left, running, built, processors):
                left.remove(name)
                running[name] = threading.Thread(target=work, args=(name, jobs)), jobs
                running[name][0].start()
            with turn:
                turn.wait_for(lambda: any(name in built for name in running))
            for name in [it for it in running if it in built]:
                running.pop(name)[0].join()
                if built[name]:
                    show_log(name)
                    left.clear()
                else:
                    done(name)
    finally:
        # (an interrupt ends rt too; each thread then moves back what rt keeps)
        for thread, _ in running.values():
            thread.join()
    return not any(built.values())


def chosen(crates, left, running, built, processors):
    """The crates to begin now, each with its number of processors; the first that is left has the longest way."""
    free = processors - sum(jobs for _, jobs in running.values())
    ready = [name for name in left if all(it in built for it in crates[name])][:free]
    return [(name, free - len(ready) + 1 if number == 0 else 1) for number, name in enumerate(ready)]


@contextlib.contextmanager
def alone(names):
    """Keeps other runs of rt out of these crates, and others of this script out of the place for their folders."""
    # (rt ci looks into every folder but .git)
    place = ROOT / ".git" if (ROOT / ".git").is_dir() else ROOT / "crates" / PROGRAM
    stage, held = place / "ld-build", []
    try:
        for name in sorted(names):
            held.append(os.open(ROOT / "crates" / name, os.O_RDONLY))
            try:
                fcntl.flock(held[-1], fcntl.LOCK_EX | fcntl.LOCK_NB)
            except BlockingIOError:
                say(f"waiting for another run in crates/{name}")
                fcntl.flock(held[-1], fcntl.LOCK_EX)
        shutil.rmtree(stage, ignore_errors=True)
        stage.mkdir()
        yield stage
    finally:
        shutil.rmtree(stage, ignore_errors=True)
        for it in held:
            os.close(it)


def build_program(done):
    """Builds the program itself; it is run once with no words, and then says that it has none."""
    crate = ROOT / "crates" / PROGRAM
    run_rt(["run", "--jobs", str(len(os.sched_getaffinity(0)))], crate, crate)
    program = crate / "out" / PROGRAM
    if not os.access(program, os.X_OK) or b"\nld: bad-words\n" not in b"\n" + (crate / "out/build.log").read_bytes():
        show_log(PROGRAM)
        return False
    program.touch()
    done(PROGRAM)
    return True


def main():
    crates, began, count = read_crates(), time.monotonic(), 0
    needed = below(crates, PROGRAM)
    if "--order" in sys.argv:
        print(*needed, PROGRAM, sep="\n")
        return 0

    def done(name):
        nonlocal count
        count += 1
        minutes = (time.monotonic() - began) / 60
        say(f"crate {count} of {len(needed) + 1}, {minutes:.1f} minutes: {name}")

    with alone(needed) as stage:
        if not build_libraries(crates, needed, stage, done):
            return 1
    return 0 if build_program(done) else 1


if __name__ == "__main__":
    sys.exit(main())
