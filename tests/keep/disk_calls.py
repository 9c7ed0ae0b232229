"""The calls that the program makes on its journal: what a loss of power would leave between them, and that each may fail.

disk_calls.c stands between the program and the C library, tells these calls, and fails one. So it is seen that a line
is synced twice, and before its reply; a process that is killed loses nothing of what it wrote, so no kill can show it.
"""
import collections
import dataclasses
import os
import pathlib
import random
import shutil
import struct
import subprocess
import tempfile
from collections.abc import Iterator

from calls import COURSE, JOURNAL, SECONDS, blocks_of, empty_room, text_of
from full import BLOCKS, DONE, LINES, wrong_after
from journal import journal_of, kept, overwritten

SOURCE = pathlib.Path(__file__).with_name("disk_calls.c")
HEAD = struct.Struct("=cQQ")
# How many images are looked at beside the plain ones, wherever something is not synced.
IMAGES = 200


@dataclasses.dataclass(frozen=True)
class DiskCall:
    """A read, a write, a sync, or output."""

    kind: str
    place: int
    size: int
    piece: bytes


def compiler() -> str:
    """A C compiler: the machine's, or the one of the Rattle toolchain."""
    found = shutil.which(os.environ.get("CC", "cc"))
    if found is not None:
        return found
    page = subprocess.run(["rt", "doc"], capture_output=True, text=True, check=True)
    return str(pathlib.Path(page.stdout.strip()).parent / "toolchain/bin/clang")


def compiled(folder: pathlib.Path) -> str:
    """The library that tells the calls."""
    library = str(folder / "disk_calls.so")
    flags = ["-O2", "-shared", "-fPIC", "-nostdlib", "-fno-builtin"]
    subprocess.run([compiler(), *flags, "-o", library, SOURCE], check=True)
    return library


def calls_in(told: bytes) -> Iterator[DiskCall]:
    """The calls that were told."""
    place = 0
    while place < len(told):
        kind, at, size = HEAD.unpack_from(told, place)
        place += HEAD.size
        length = size if kind in b"wo" else 0
        yield DiskCall(kind.decode(), at, size, told[place : place + length])
        place += length


def told_call(
    program: str, library: str, room: pathlib.Path, lines: list[bytes], failed: int
) -> tuple[int, bytes, list[DiskCall]]:
    """The status, the output and the calls of a call of `keep`, in which the call of this number fails (0: none)."""
    with tempfile.TemporaryFile() as report:
        done = subprocess.run(
            [program, "keep", COURSE],
            cwd=room,
            input=text_of(lines),
            capture_output=True,
            timeout=SECONDS,
            check=False,
            pass_fds=[report.fileno()],
            env={
                **os.environ,
                "LD_PRELOAD": library,
                "TOLD_CALLS": str(report.fileno()),
                "FAILED_CALL": str(failed),
            },
        )
        report.seek(0)
        return done.returncode, done.stdout, list(calls_in(report.read()))


def torn(file: bytes, writes: list[DiskCall], chance: random.Random) -> bytes:
    """The file where each of these writes left some of its bytes, none, or other ones."""
    for write in writes:
        size = chance.randint(0, write.size)
        piece = write.piece[:size]
        if chance.random() < 0.5:
            piece = bytes(chance.choice([0, 1, 1, 2, 255]) for _ in piece)
        file = file.ljust(write.place, b"\1")
        file = overwritten(file, write.place, piece)
    return file


def images(
    synced: bytes, writes: list[DiskCall], chance: random.Random
) -> Iterator[bytes]:
    """Images that a loss of power may leave after these writes: all of them where there is one write of one byte."""
    yield synced
    if len(writes) == 1 and writes[0].size == 1:
        for value in range(256):
            yield overwritten(synced, writes[0].place, bytes([value]))
    elif writes:
        for _ in range(IMAGES):
            yield torn(synced, writes, chance)


def wrong_images(before: bytes, lines: list[bytes], told: list[DiskCall]) -> str | None:
    """What is wrong with what a loss of power would leave at some moment of a call over this file, or None.

    All lines are done but those whose reply begins with `no`. What the file kept before is kept always.
    """
    chance = random.Random(len(told))
    old, synced, file = kept(before), before, before
    writes: list[DiskCall] = []
    written = b""
    for number, each in enumerate(told, 1):
        if each.kind == "w":
            if each.place > len(file):
                return f"call {number} writes past the end"
            writes.append(each)
            file = overwritten(file, each.place, each.piece)
        elif each.kind == "s":
            synced, writes = file, []
        elif each.kind == "o":
            written += each.piece
        blocks, _ = blocks_of(written)
        done = [line for line, block in zip(lines, blocks) if block[:3] == b"ok "]
        for image in images(synced, writes, chance):
            left = kept(image)
            more = left[len(old) + len(done) :]
            if left[: len(old) + len(done)] != old + done:
                return f"call {number}: {len(done)} are answered, and a crash leaves {left!r:.400}"
            if more not in ([], lines[len(blocks) :][:1]):
                return f"call {number}: a crash leaves {left!r:.400}"
    return None


def losses(
    program: str, library: str, room: pathlib.Path
) -> Iterator[tuple[str, str | None]]:
    """A loss of power between any two calls, over an empty folder and over the journal of three lines and a torn gate."""
    for name, before, lines in [
        ("no file", b"", LINES),
        ("three lines", journal_of(DONE[:3]), LINES[3:]),
        (
            "a torn gate",
            journal_of(DONE[:3])[:-1] + b"\7\0\0\0*" + DONE[0] + b"\0",
            LINES[3:],
        ),
    ]:
        (room / JOURNAL).unlink(missing_ok=True)
        if before:
            (room / JOURNAL).write_bytes(before)
        status, written, told = told_call(program, library, room, lines, 0)
        kinds = collections.Counter(each.kind for each in told)
        blocks = BLOCKS[-len(lines) :]
        wrong = wrong_images(before, lines, told)
        if (status, written) != (0, b"".join(blocks)):
            wrong = f"status {status}, {written!r:.400}"
        elif wrong is None and min(kinds["s"], kinds["w"]) < 2 * (len(lines) - 1):
            wrong = f"the calls are {kinds}"
        yield f"a loss of power, over {name}", wrong


def failures(
    program: str, library: str, room: pathlib.Path
) -> Iterator[tuple[str, str | None]]:
    """Each call on the disk fails once, over an empty folder and over a journal of three lines."""
    for name, before, lines in [
        ("no file", b"", LINES),
        ("three lines", journal_of(DONE[:3]), LINES[3:]),
    ]:
        number = 0
        while True:
            number += 1
            (room / JOURNAL).unlink(missing_ok=True)
            if before:
                (room / JOURNAL).write_bytes(before)
            status, written, told = told_call(program, library, room, lines, number)
            if sum(each.kind in "rws" for each in told) < number:
                break
            yield f"call {number} on the disk fails, over {name}", (
                wrong_failure(program, room, before, lines, status, written)
            )
        few = None if number > 4 * (len(lines) - 1) else f"{number - 1} calls"
        yield f"calls on the disk, over {name}", few


def wrong_failure(
    program: str,
    room: pathlib.Path,
    before: bytes,
    lines: list[bytes],
    status: int,
    written: bytes,
) -> str | None:
    """What is wrong where a call on the disk failed, or None."""
    if status != 9:
        return f"status {status}, {written!r:.400}"
    known = len(kept(before))
    return wrong_after(program, room, lines, BLOCKS[-len(lines) :], written, known)


def cases(program: str) -> Iterator[tuple[str, str | None]]:
    """The name of each case, and what is wrong, or None."""
    with empty_room() as folder, empty_room() as room:
        library = compiled(folder)
        yield from losses(program, library, room)
        yield from failures(program, library, room)
