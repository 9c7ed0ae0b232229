"""Disks that are full: files that may have few bytes, and a small file system."""
import contextlib
import pathlib
import subprocess
from collections.abc import Iterator

from calls import JOURNAL, ROOT, blocks_of, empty_room, keep, text_of
from journal import journal_of, kept

LINES = (ROOT / "examples/first.lines").read_bytes().splitlines()
REPLIES = (ROOT / "examples/first.replies").read_bytes()
BLOCKS, _ = blocks_of(REPLIES)
DONE = LINES[:6]
WHOLE = journal_of(DONE)
SMALL = 65_536


def wrong_after(
    program: str,
    room: pathlib.Path,
    lines: list[bytes],
    blocks: list[bytes],
    written: bytes,
    known: int = 0,
) -> str | None:
    """What is wrong where the disk failed at a line, which is kept or not; then the rest is sent again, with room for it.

    All lines are done but those whose block begins with `no`. So many lines of the journal were known before.
    """
    answered, rest = blocks_of(written)
    if rest or answered != blocks[: len(answered)]:
        return f"it wrote {written!r:.400}"
    before = [
        line
        for line, block in zip(lines, blocks[: len(answered)])
        if block.startswith(b"ok ")
    ]
    file = (room / JOURNAL).read_bytes() if (room / JOURNAL).exists() else b""
    left = kept(file)[known:]
    more = left[len(before) :]
    if left[: len(before)] != before or more not in ([], lines[len(answered) :][:1]):
        return f"{len(answered)} lines are answered, and it keeps {left!r:.400}"
    begin = len(answered) + len(more)
    again = keep(program, room, text_of(lines[begin:]))
    if (again.status, again.written) != (0, b"".join(blocks[begin:])):
        return f"then it gives {again!r:.400}"
    return None


def small_file(program: str, most: int) -> str | None:
    """What is wrong where the journal may have so many bytes, or None."""
    with empty_room() as room:
        try:
            end = keep(program, room, text_of(LINES), most=most)
            if end.status != (9 if most < len(WHOLE) else 0):
                return f"status {end.status}"
            if most == 0 and (end.written, end.taken) != (b"", 0):
                return f"before the first line: {end}"
            return wrong_after(program, room, LINES, BLOCKS, end.written)
        except (ValueError, subprocess.TimeoutExpired) as error:
            return repr(error)


@contextlib.contextmanager
def small_disk() -> Iterator[pathlib.Path | None]:
    """A file system of 64 KB, or None where none can be mounted here."""
    with empty_room() as room:
        mount = ["mount", "-t", "tmpfs", "-o", f"size={SMALL}", "none", str(room)]
        try:
            if subprocess.run(mount, capture_output=True, check=False).returncode != 0:
                yield None
                return
        except OSError:
            yield None
            return
        try:
            yield room
        finally:
            subprocess.run(["umount", "-l", str(room)], check=True)


def full_disk(program: str, room: pathlib.Path) -> str | None:
    """What is wrong where the disk gets full after some lines, of which the last ones have room again, or None."""
    (room / "filler").write_bytes(bytes(SMALL // 2))
    line = b'["2024-01-01T08:00:00Z","create","r%d","u1"]'
    lines = [(line % number).ljust(500) for number in range(100)]
    blocks = [b"ok create\n"] * len(lines)
    end = keep(program, room, text_of(lines))
    if end.status != 9 or not 10 * len(b"ok create\n") <= len(end.written) < 1000:
        return f"it gives {end!r:.400}"
    answered = len(end.written) // len(b"ok create\n")
    again = keep(program, room, b"")
    if (again.status, again.written) != (0, b""):
        return f"opened on the full disk, it gives {again!r:.400}"
    if answered < 10:
        return f"{answered} lines are answered"
    (room / "filler").unlink()
    return wrong_after(program, room, lines, blocks, end.written)


def no_room_at_all(program: str, room: pathlib.Path) -> str | None:
    """What is wrong where the disk is full before the journal is made, or None."""
    with contextlib.suppress(OSError):
        (room / "filler").write_bytes(bytes(SMALL))
    end = keep(program, room, text_of(LINES))
    if (end.status, end.written, end.taken) != (9, b"", 0):
        return f"it gives {end!r:.400}"
    (room / "filler").unlink()
    return wrong_after(program, room, LINES, BLOCKS, b"")


def cases(program: str, step: int) -> Iterator[tuple[str, str | None]]:
    """The name of each case, and what is wrong, or None."""
    sizes = sorted({*range(0, len(WHOLE) + 3, step), len(WHOLE) - 1, len(WHOLE)})
    for most in sizes:
        yield f"a file of at most {most} bytes", small_file(program, most)
    for check in (full_disk, no_room_at_all):
        with small_disk() as room:
            if room is None:
                print("skipped: a full disk, since no tmpfs can be mounted here")
                return
            try:
                yield check.__name__.replace("_", " "), check(program, room)
            except (ValueError, OSError, subprocess.TimeoutExpired) as error:
                yield check.__name__.replace("_", " "), repr(error)
