#!/usr/bin/env python3
"""Runs the program on random histories of random units, one or several, and compares all that it writes with the model.

    run.py PROGRAM [SEED [COUNT]]

The model (model.py) was written from the documents by somebody who had not read the program or its
definitions. The units of a call and its history follow from a seed: the first from SEED, the next from the number
after it. So `run.py PROGRAM SEED 1` runs one of them again. At the first difference it ends. What is printed counts
what was covered; without a SEED each kind has to be covered as often as LEAST of counts.py says. A line is drawn with an eye on the model's state of the runs, so that most of them do something.
"""
import fcntl
import json
import pathlib
import random
import subprocess
import sys
import tempfile
import termios
import threading
import time

import courses
from commands import lines_of
from counts import Counts
from lines import History
from model import refused_of
from moments import BEGINNINGS

SEED = 1
COUNT = 450
LONGEST = 60
SHOWN = 300
LONGEST_FOLDER = 20_000
# How often folders have a fault, so that none is published; how often a unit is at the shape of the limits, and how
# often a run is filled.
FAULTY = 0.03
VAST = 1 / 80
CROWDED = 1 / 80


def write_folder(draw, path, documents):
    """Writes each document into its file."""
    for name, document in documents.items():
        (path / name).write_bytes(courses.file_of(draw, document))


def pieces(draw, data):
    """The bytes cut into pieces of random sizes, about a hundred at most."""
    most = max(draw.choice([3, 40, 1_000, 100_000]), len(data) // 50)
    place = 0
    while place < len(data):
        size = draw.randint(1, most)
        yield data[place:place + size]
        place += size


def wait_for_reader(pipe):
    """Waits a little for the program to take what the pipe holds, so that it sees the pieces as they were cut."""
    for _ in range(1_000):
        if not any(fcntl.ioctl(pipe, termios.FIONREAD, bytes(4))):
            return
        time.sleep(0.00005)


def feed(pipe, given):
    """Writes the pieces into the program's input and ends it; a program that has ended takes no more."""
    try:
        for piece in given:
            while piece:
                piece = piece[pipe.write(piece):]
            wait_for_reader(pipe)
    except BrokenPipeError:
        pass
    pipe.close()


def write_folders(draw, path, folders):
    """Writes the folders, and gives their paths in order."""
    paths = [path / f"folder {number}" for number in range(len(folders))]
    for folder, documents in zip(paths, folders):
        folder.mkdir()
        write_folder(draw, folder, documents)
    return [str(folder) for folder in paths]


def run_program(program, draw, folders, data):
    """The status, what is written and what is said, for these folders and this input."""
    with tempfile.TemporaryDirectory() as path:
        words = write_folders(draw, pathlib.Path(path), folders)
        with open(pathlib.Path(path, "out"), "w+b") as out, open(pathlib.Path(path, "err"), "w+b") as err:
            running = subprocess.Popen([program, "replay", *words], bufsize=0, stdin=subprocess.PIPE, stdout=out,
                                       stderr=err)
            watch = threading.Timer(LONGEST, running.kill)
            watch.start()
            feed(running.stdin, pieces(draw, data))
            status = running.wait()
            watch.cancel()
            out.seek(0)
            err.seek(0)
            return status, out.read(), err.read()


def shortened(line, longest=SHOWN):
    """A line as it is shown: the beginning of a long one."""
    return repr(line) if len(line) <= longest else f"{line[:longest]!r}.. ({len(line)} bytes)"


def tell(seed, folders, lines, blocks, got):
    """Shows the first line whose reply differs, what came before it, and both replies."""
    status, written, said = got
    place = 0
    blocks = [block.encode() for block in blocks]
    while place < len(blocks) and written.startswith(blocks[place]):
        written = written[len(blocks[place]):]
        place += 1
    print(f"a difference, to be had again by `run.py PROGRAM {seed} 1`: status {status}, {said!r} is said")
    for documents in folders:
        text = json.dumps(documents)
        print(text if len(text) <= LONGEST_FOLDER else f"{text[:SHOWN]}.. ({len(text)} characters)")
    for line in lines[:place + 1]:
        print(shortened(line))
    print(f"the model: {shortened(blocks[place] if place < len(blocks) else b'', 4 * SHOWN)}")
    print(f"the program: {shortened(written, 4 * SHOWN)}")


def case_of(seed):
    """What is drawn for a seed: the rest of the draw, the documents of the folders, and the history."""
    draw = random.Random(seed)
    era = draw.choice(BEGINNINGS)
    is_vast = courses.happens(draw, VAST)
    is_crowd = not is_vast and courses.happens(draw, CROWDED)
    folders = courses.folders_of(draw, era, is_vast, is_crowd)
    count = draw.choice([0, 1, 50, 100, 150, 200, 300])
    history = History(draw, folders, era, is_crowd).grow(60 if is_vast else 360 if is_crowd else count)
    if courses.happens(draw, FAULTY):
        folders = courses.spoiled(draw, folders)
    return draw, folders, history


def main():
    program = sys.argv[1]
    first = int(sys.argv[2]) if len(sys.argv) > 2 else SEED
    count = int(sys.argv[3]) if len(sys.argv) > 3 else COUNT
    agreed = compared = 0
    counts = Counts()
    for seed in range(first, first + count):
        draw, folders, history = case_of(seed)
        refused = refused_of(folders)
        status, said = (0, b"") if refused is None else (4, b"ld: unit-refused\n")
        blocks = history.blocks if refused is None else [refused]
        got = run_program(program, draw, folders, history.data)
        if got != (status, "".join(blocks).encode(), said):
            tell(seed, folders, lines_of(history.data), blocks, got)
            break
        agreed += 1
        compared += len(lines_of(history.data)) if status == 0 else 0
        counts.add(folders, blocks, history.world.firings if status == 0 else {})
    for line in counts.told():
        print(line)
    lacking = list(counts.lacking()) if len(sys.argv) == 2 and agreed == count else []
    for line in lacking:
        print(f"not covered: {line}")
    print(f"{agreed} of {count} histories agreed, with {compared} lines")
    return 0 if agreed == count > 0 and not lacking else 1


if __name__ == "__main__":
    sys.exit(main())
