"""Checks the files, commands and programs that the documents show."""
import contextlib
import pathlib
import re
import shlex
import subprocess
import sys
import tempfile

from markdown import ROOT, blocks, commands, documents

LONGEST = 120
# Commands that are shown and not run here, by how they begin, each with what is looked at in its place.
ELSEWHERE = {
    "./ld --build": "tests/run begins with it",
    "tests/run": "this is run by it",
    ".ci/run": "the gate runs tests/run",
    "rt ": "the toolchain's own; the gate runs `rt ci`",
    "cd ": "the folder has to be there",
    "python3 tests/": "the file has to be there; it measures, and takes long",
}


def files():
    """Each block that shows a file of the repository, against the file."""
    count = 0
    for document in documents():
        for block in blocks(document.read_text()):
            if "/" in block.name and (ROOT / block.name).is_file():
                count += 1
                same = block.text == (ROOT / block.name).read_text()
                yield f"{document.name} shows {block.name}", None if same else "the file is another one"
    yield "files in the documents", None if count else "none is shown"


def run_history(program, command, place):
    """What is wrong with a command that runs a history in a place, or None."""
    words, _, lines = command.removeprefix("./ld ").partition(" < ")
    replies = pathlib.Path(ROOT / lines).with_suffix(".replies")
    with open(ROOT / lines, "rb") as given:
        done = subprocess.run([program, *shlex.split(words)], cwd=place, stdin=given, capture_output=True, timeout=LONGEST,
                              check=False)
    if replies.is_file() and done.stdout != replies.read_bytes():
        return f"other replies than {replies.name}"
    return None if (done.returncode, done.stderr) == (0, b"") else f"status {done.returncode}, {done.stderr!r}"


def run_report(program, command):
    """What is wrong with a command that reports on a folder, or None."""
    done = subprocess.run([program, *shlex.split(command)[1:]], cwd=ROOT, stdin=subprocess.DEVNULL, capture_output=True,
                          timeout=LONGEST, check=False)
    return None if (done.returncode, done.stderr) == (0, b"") else f"status {done.returncode}, {done.stderr!r}"


def shown_outputs(document):
    """What a document shows as the output of commands: the blocks that have a command as their name."""
    return {block.name: block.text for block in blocks(document.read_text()) if block.name.startswith("./ld ")}


def run_shown(program, command, document):
    """What is wrong with a command whose output stands in a block that has the command as its name, or None."""
    shown = shown_outputs(document)
    if command not in shown:
        return "no block has this command as its name"
    done = subprocess.run([program, *shlex.split(command)[1:]], cwd=ROOT, stdin=subprocess.DEVNULL, capture_output=True,
                          timeout=LONGEST, check=False)
    same = (done.returncode, done.stdout.decode(), done.stderr) == (0, shown[command], b"")
    return None if same else f"it gives {done}"


def is_there(command):
    """Whether the folder or the file that a command names is there."""
    named = re.match(r"cd (\S+)|python3 (\S+)", command)
    place = named and (named[1] or named[2])
    return place is None or (ROOT / place).resolve() == ROOT.parent or (ROOT / place).exists()


@contextlib.contextmanager
def place_of_journal():
    """A folder for the journal of a document's commands, with the examples in it."""
    with tempfile.TemporaryDirectory() as place:
        (pathlib.Path(place) / "examples").symlink_to(ROOT / "examples")
        yield place


def shown_commands(program):
    """Each command that a document shows."""
    count = 0
    for document in documents():
        with place_of_journal() as place:
            for name, wrong, is_run in commands_in(program, document, place):
                count += is_run
                yield name, wrong
    yield "commands in the documents", None if count else "none is run"


def commands_in(program, document, place):
    """Each command that a document shows, what is wrong, and whether it was run. Those that keep lines have one journal."""
    for command in commands(document.read_text()):
        name = f"{document.name} shows the command {command}"
        if command.startswith("./ld keep ") and " < " in command:
            yield name, run_history(program, command, place), True
        elif command.startswith("./ld ") and " < " in command:
            yield name, run_history(program, command, ROOT), True
        elif command.startswith("./ld gen ") or command in shown_outputs(document):
            yield name, run_shown(program, command, document), True
        elif command.startswith(("./ld check ", "./ld rank ")):
            yield name, run_report(program, command), True
        elif not any(command.startswith(each) for each in ELSEWHERE):
            yield name, "this test does not know it", False
        else:
            yield name, None if is_there(command) else "what it names is not there", False


def platform(program):
    """The program of docs/EMBEDDING.md, called three times with one journal."""
    shown = {block.name: block.text for block in blocks((ROOT / "docs/EMBEDDING.md").read_text())}
    with tempfile.TemporaryDirectory() as room:
        script, journal = pathlib.Path(room) / "platform.py", pathlib.Path(room) / "journal"
        script.write_text(shown["platform.py"])
        for call, wanted in enumerate(["first call", "later calls", "later calls"], 1):
            name = f"call {call} of the program of EMBEDDING.md"
            try:
                done = subprocess.run([sys.executable, script, program, ROOT / "examples/first", journal],
                                      stdin=subprocess.DEVNULL, capture_output=True, timeout=LONGEST, check=False)
            except subprocess.TimeoutExpired:
                yield name, "it does not end"
                return
            same = (done.returncode, done.stdout.decode(), done.stderr) == (0, shown[wanted], b"")
            yield name, None if same else f"it gives {done}"
            # (as a crash in the middle of a write leaves the journal)
            with open(journal, "ab") as file:
                file.write(b'["2024-01-01T08')


def looking(program):
    """The program of docs/EMBEDDING.md that prints the lines of a journal, over the one of the first example."""
    shown = {block.name: block.text for block in blocks((ROOT / "docs/EMBEDDING.md").read_text())}
    with place_of_journal() as place:
        wrong = run_history(program, "./ld keep examples/first < examples/first.lines", place)
        script = pathlib.Path(place) / "kept.py"
        script.write_text(shown["kept.py"])
        done = subprocess.run([sys.executable, script, "ld.journal"], cwd=place, capture_output=True, timeout=LONGEST, check=False)
        same = (done.returncode, done.stdout.decode(), done.stderr) == (0, shown["kept lines"], b"")
        yield "the program of EMBEDDING.md that reads a journal", wrong or (None if same else f"it gives {done}")


def cases(program):
    yield from files()
    yield from shown_commands(program)
    yield from looking(program)
    yield from platform(program)
