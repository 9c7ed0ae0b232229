"""Journals that are cut at each byte, or of which one byte is changed, against the plain evaluation of tests/histories."""
import concurrent.futures
import json
import pathlib
import subprocess
import sys
from collections.abc import Iterator

from calls import COURSE, JOURNAL, ROOT, Ending, empty_room, keep, text_of
from journal import journal_of, kept, opened, with_line

sys.path.insert(0, str(ROOT / "tests" / "histories"))

from commands import is_passed_over  # noqa: E402
from model import World  # noqa: E402
from unit import Unit  # noqa: E402

LINES = (ROOT / "examples/first.lines").read_bytes().splitlines()[:6]
WHOLE = journal_of(LINES)
# What is sent once the journal is open.
GIVEN = [
    b'["2024-01-01T10:00:00Z","create","s","u1"]',
    b'["2024-01-01T10:00:00Z","tree","r","ann"]',
    b'["2024-01-01T10:00:00Z","start","r"]',
]
FEW = [0, 1, 2, 0x20, 0xFF]


def world() -> World:
    """The evaluation, with the unit of the course published."""
    files = sorted(pathlib.Path(COURSE).glob("*.json"))
    documents = {file.name: json.loads(file.read_text()) for file in files}
    return World({documents["unit.json"]["identifier"]: Unit(documents)})


def block(state: World, line: bytes) -> bytes:
    """The reply to a line of the journal; a blank one is no command line."""
    return b"no 1 bad-line\n" if is_passed_over(line) else state.block(line).encode()


def promised(file: bytes) -> tuple[Ending, bytes | list[bytes]]:
    """How a call ends over this file, and the file that it leaves; only its lines where they differ."""
    state = world()
    for number, line in enumerate(kept(file), 1):
        reply = block(state, line)
        if not reply.startswith(b"ok "):
            return Ending(10, b"journal %d %s" % (number, reply), 0), kept(file)
    file, written = opened(file), b""
    for line in GIVEN:
        reply = block(state, line)
        written += reply
        if reply.startswith(b"ok "):
            file = with_line(file, line)
    return Ending(0, written, len(text_of(GIVEN))), file


def wrong_over(program: str, file: bytes) -> tuple[int, str | None]:
    """The status, and what is wrong with a call over this file, or None."""
    end, after = promised(file)
    with empty_room() as room:
        (room / JOURNAL).write_bytes(file)
        try:
            got = keep(program, room, text_of(GIVEN))
        except (ValueError, subprocess.TimeoutExpired) as error:
            return end.status, repr(error)
        left = (room / JOURNAL).read_bytes()
    if got != end:
        return end.status, f"{got} in place of {end}"
    if (kept(left) if end.status else left) != after:
        return end.status, f"the file is {left!r} in place of {after!r}"
    return end.status, None


def files(values: list[int] | None) -> Iterator[tuple[str, bytes]]:
    """The journal cut at each byte, and with each byte changed: to each value, or else to some and to two near ones."""
    for size in range(len(WHOLE) + 1):
        yield f"cut to {size} bytes", WHOLE[:size]
    for place, old in enumerate(WHOLE):
        news = set(values or [*FEW, old ^ 1, (old + 1) % 256]) - {old}
        for new in sorted(news):
            name = f"byte {place} is {new} in place of {old}"
            yield name, WHOLE[:place] + bytes([new]) + WHOLE[place + 1 :]


def cases(program: str, every: bool, jobs: int) -> Iterator[tuple[str, str | None]]:
    """The name of each case, and what is wrong, or None; last, whether both endings came."""
    table = list(files(list(range(256)) if every else None))
    statuses = set()
    with concurrent.futures.ThreadPoolExecutor(jobs) as pool:
        ends = pool.map(lambda row: wrong_over(program, row[1]), table)
        for (name, _), (status, wrong) in zip(table, ends):
            statuses.add(status)
            yield f"a journal: {name}", wrong
    both = None if statuses == {0, 10} else f"the statuses are {statuses}"
    yield "journals that go on, and journals that differ", both
