#!/usr/bin/env python3
"""Checks what `./ld` does while there is no proved program, or an old one, with a stand-in for the toolchain's `rt`.

The stand-in notes how it is called, answers a line, and ends as the file `ends` says. So this needs no toolchain, and
shows what `./ld` hands on, what it says, and how it ends; that `rt try` itself answers is not shown here.
"""
import os
import pathlib
import shutil
import subprocess
import sys
import tempfile

ROOT = pathlib.Path(__file__).resolve().parent.parent
LINE = "ld: not proved: "
RT = """#!/bin/bash
pwd >"$ROOM/where"
printf '%s\\n' "$@" >"$ROOM/words"
cat >"$ROOM/input"
echo an answer
cat "$ROOM/ends" >&2
"""


class Door:
    """A copy of `./ld` in a repository without a program, and a stand-in for `rt`."""

    def __init__(self, room):
        self.room, self.crate = room, room / "repository/crates/ld_program"
        (self.crate / "src").mkdir(parents=True)
        (room / "bin").mkdir()
        shutil.copy(ROOT / "ld", room / "repository/ld")
        (room / "repository/crates.txt").write_text("ld_program:\n")
        self.write(room / "bin/rt", RT)
        shutil.copytree(ROOT / "examples/first", room / "my course")

    def write(self, path, text):
        path.parent.mkdir(exist_ok=True)
        path.write_text(text)
        path.chmod(0o755)

    def make_program(self, second):
        """A program, and a source, of which the program is so many seconds newer."""
        self.write(self.crate / "out/ld_program", '#!/bin/bash\necho "proved: $*"\nexit 5\n')
        self.write(self.crate / "src/main.rt", "")
        for path, moment in [(self.crate / "src/main.rt", 0), (self.room / "repository/crates.txt", 0),
                             (self.crate / "out/ld_program", second)]:
            os.utime(path, (1_000_000 + moment, 1_000_000 + moment))

    def call(self, words, ends="checked: ended status=0\nrun=ended status=0 runners=1 proved=no\n", has_rt=True, given=b""):
        """The status, what is written, and the lines that are said."""
        (self.room / "ends").write_text(ends)
        (self.room / "words").unlink(missing_ok=True)
        path = f"{self.room}/bin:" if has_rt else ""
        env = {**os.environ, "ROOM": str(self.room), "PATH": f"{path}/usr/bin:/bin"}
        done = subprocess.run(["bash", self.room / "repository/ld", *words], cwd=self.room, input=given, env=env,
                              capture_output=True, timeout=60, check=False)
        return done.returncode, done.stdout.decode(), done.stderr.decode().splitlines()

    def words(self):
        """The words that `rt` was called with, or None."""
        path = self.room / "words"
        return path.read_text().splitlines() if path.exists() else None


def is_told(said):
    return bool(said) and said[0].startswith(LINE) and "--build" in said[0]


def cases(door):
    """The name of each check, and whether it holds."""
    status, written, said = door.call(["replay", "my course", "none"], given=b"a line")
    words = door.words()
    yield "an answer without a proof", (status, written) == (0, "an answer\n") and is_told(said) and len(said) == 1
    yield "the whole input", (door.room / "input").read_bytes() == b"a line"
    yield "the crate of the program", (door.room / "where").read_text() == f"{door.crate.resolve()}\n"
    yield "words", words[0] == "try" and words[-4:] == ["--", "replay", "folder1", "none"]
    yield "documents", sorted(word for word in words if "=" in word) == sorted(
        f"folder1/{name}={(door.room / 'my course' / name).resolve()}" for name in ["roles.json", "activities.json", "unit.json"])
    (door.room / "7").mkdir()
    shutil.copytree(ROOT / "examples/first", door.room / "check")
    door.call(["gen", "7", "3"], given=b"a line")
    yield "numbers that are names of folders", door.words()[-3:] == ["gen", "7", "3"]
    yield "no input where none is read", (door.room / "input").read_bytes() == b""
    door.call(["check", "check"])
    yield "a verb that is the name of a folder", door.words()[-3:] == ["--", "check", "folder1"]
    ends = "ld: unit-refused\nchecked: ended status=4\nrun=ended status=4 runners=1 proved=no\n"
    status, _, said = door.call(["replay", "my course"], ends)
    yield "the program's status and word", status == 4 and is_told(said) and said[1:] == ["ld: unit-refused"]
    status, _, said = door.call(["replay", "my course"], "error: this is refused\nrun=none proved=no\n")
    yield "no answer", status == 1 and "error: this is refused" in said and "no answer" in said[-1]
    status, written, said = door.call(["play", "my course"])
    yield "words without a form", (status, written, said[0], door.words()) == (2, "", "ld: bad-words", None)
    status, written, said = door.call(["--help"])
    yield "help", (status, said, door.words()) == (0, [], None) and all(
        f"./ld {word} " in written for word in ["replay", "keep", "check", "canon", "rank", "gen", "--build"])
    status, written, said = door.call(["keep", "my course"])
    yield "a journal", (status, written, door.words()) == (1, "", None) and "--build" in said[0]
    if not shutil.which("rt", path="/usr/bin:/bin"):
        status, written, said = door.call(["replay", "my course"], has_rt=False)
        yield "no toolchain", (status, written) == (1, "") and "rt" in said[0]
    door.make_program(1)
    yield "a proved program", door.call(["replay", "x y"]) == (5, "proved: replay x y\n", []) and door.words() is None
    door.make_program(-1)
    status, written, said = door.call(["replay", "my course"])
    yield "a program that is older than a source", (status, written) == (0, "an answer\n") and is_told(said)


def main():
    passed = failed = 0
    with tempfile.TemporaryDirectory() as room:
        for name, holds in cases(Door(pathlib.Path(room).resolve())):
            passed, failed = passed + bool(holds), failed + (not holds)
            if not holds:
                print(f"failed: {name}")
    print(f"{passed} passed, {failed} failed")
    return 1 if failed or not passed else 0


if __name__ == "__main__":
    sys.exit(main())
