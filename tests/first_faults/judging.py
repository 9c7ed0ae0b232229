"""Runs the program on folders and compares what it writes with what a first fault promises.

Each run is to be quick, which is measured in seconds of the processor, since the machine may have other work.
"""
import pathlib
import resource
import subprocess
import tempfile

SECONDS = 5
LONGEST = 120


def write_folder(path, files):
    path.mkdir()
    for name, data in files.items():
        (path / name).write_bytes(data)


def spent():
    """The seconds that the processor has worked for the programs run so far."""
    used = resource.getrusage(resource.RUSAGE_CHILDREN)
    return used.ru_utime + used.ru_stime


def run_program(program, paths):
    """The status, what is written and what is said, or None where the program takes too long."""
    before = spent()
    try:
        done = subprocess.run([program, "replay", *map(str, paths)], stdin=subprocess.DEVNULL, capture_output=True,
                              timeout=LONGEST, check=False)
    except subprocess.TimeoutExpired:
        return None
    if spent() - before > SECONDS:
        return None
    return done.returncode, done.stdout.decode(), done.stderr.decode()


def promised(fault, number):
    """The status, what is written and what is said where the folder of this number has this first fault, or none has one."""
    if fault is None:
        return 0, "", ""
    return 4, f"refused {number} {fault}\n", "ld: unit-refused\n"


def judge(program, fault, *folders):
    """What is wrong with the program's answer to folders of which the last alone has a fault, or None."""
    with tempfile.TemporaryDirectory() as path:
        paths = [pathlib.Path(path, str(number)) for number in range(len(folders))]
        for place, files in zip(paths, folders):
            write_folder(place, files)
        answer = run_program(program, paths)
    if answer is None:
        return f"it takes more than {SECONDS} seconds"
    if answer != promised(fault, len(folders)):
        return f"{answer} in place of {promised(fault, len(folders))}"
    return None
