#!/usr/bin/env python3
"""Gives the program documents, lines and streams that are cut, deep, long or fail, and looks at all that it says.

    hostile_input.py PROGRAM [WORD]

All cases are over one small unit and the seven lines of one run, and each is compared with the status, the output
and the word on standard error that docs/COMMANDS.md and docs/FORMATS.md promise. With a WORD, only the cases whose
names have it are run. Shelves, inputs and outputs that fail at a later call stand in crates/ld_top_tests, over memory:
src/folders.rt has each call to a shelf, src/streams.rt each take from an input and each write to an output.
"""
import dataclasses
import os
import pathlib
import resource
import signal
import socket
import subprocess
import sys
import tempfile
import threading
from collections.abc import Callable, Iterator

SECONDS = 60
LONGEST_DOCUMENT = 4_194_304
LONGEST_LINE = 65_536
DEEP = b"[" * 200 + b"]" * 200

UNIT = {
    "roles.json": b'{"roles":[{"identifier":"learner","kind":"learner"}]}',
    "activities.json": b'{"activities":[{"identifier":"read","title":"Read","complete":{"user-choice":true},'
    b'"items":[{"identifier":"i1","title":"Text","href":"text.html"}]}]}',
    "unit.json": b'{"format":1,"identifier":"u1","level":"A","title":"First","method":{"plays":[{"identifier":"p",'
    b'"acts":[{"identifier":"a","role-parts":[{"identifier":"rp","role":"learner","ref":"read"}]}]}]}}',
}
OPTIONAL = ["properties.json", "environments.json", "conditions.json"]

CREATE = b'["2024-01-01T08:00:00Z","create","r","u1"]'
LINES = [
    CREATE,
    b'["2024-01-01T08:00:00Z","enrol","r","ann"]',
    b'["2024-01-01T08:00:00Z","assign","r","ann","learner"]',
    b'["2024-01-01T09:00:00Z","start","r"]',
    b'["2024-01-01T09:10:00Z","complete","r","ann","read"]',
    b'["2024-01-01T09:11:00Z","tree","r","ann"]',
    b'["2024-01-01T09:12:00Z","complete","r","ann","read"]',
]
INPUT = b"".join(line + b"\n" for line in LINES)
MADE, BAD = b"ok create\n", b"no 1 bad-line\n"
REPLIES = b"""ok create
ok enrol turns=0 fired=0 rejected=0 sent=0
ok assign turns=0 fired=0 rejected=0 sent=0
ok start turns=1 fired=1 rejected=0 sent=0
ok complete turns=1 fired=2 rejected=0 sent=0
ok tree turns=0 fired=0 rejected=0 sent=0 lines=6
unit u1 open "First"
  play p open
    act a open
      part rp done
        activity read done "Read"
          item i1 text.html "Text"
no 31 not-open
"""

# What is said on standard error at each status.
SAID = {
    0: b"",
    3: b"ld: shelf-fault\n",
    4: b"ld: unit-refused\n",
    5: b"ld: read-fault\n",
    6: b"ld: write-fault\n",
}


@dataclasses.dataclass
class Case:
    """What a call finds, and what it has to write.

    A document that is None is a folder. `piece` is how many bytes of the input each take gets, 0 where it is a file.
    `room` is how many bytes the output takes; then a beginning of `written` is right, too.
    """

    name: str
    written: bytes = REPLIES
    status: int = 0
    changed: dict[str, bytes | None] = dataclasses.field(default_factory=dict)
    given: bytes = INPUT
    piece: int = 0
    room: int | None = None


def faulty(name: str, document: str, content: bytes, fault: str) -> Case:
    """A document with this content, and the fault that is told of it."""
    return Case(
        name, f"refused 1 {document} {fault}\n".encode(), 4, {document: content}
    )


def documents() -> Iterator[Case]:
    """Documents that are cut, deep, long or no text."""
    activities, roles, unit = (
        UNIT["activities.json"],
        UNIT["roles.json"],
        UNIT["unit.json"],
    )
    for length in range(len(activities)):
        name = f"activities.json cut to {length} bytes"
        yield faulty(name, "activities.json", activities[:length], ". not-json")
    yield faulty("roles.json of 200 nested arrays", "roles.json", DEEP, ". not-json")
    title = unit.replace(b'"First"', b'"Fi\xffst"')
    yield faulty(
        "a byte 0xFF in the title of unit.json", "unit.json", title, ". not-json"
    )
    longer = roles.ljust(LONGEST_DOCUMENT + 1)
    yield faulty(
        "roles.json with spaces, one byte too long", "roles.json", longer, ". too-big"
    )
    longest = roles.ljust(LONGEST_DOCUMENT)
    yield Case(
        "roles.json with spaces, as long as may be", changed={"roles.json": longest}
    )
    format_3 = unit.replace(b'"format":1', b'"format":3')
    yield faulty(
        "a format that there is not", "unit.json", format_3, "/format not-in-profile"
    )


def lines() -> Iterator[Case]:
    """Lines that are deep or long, or end in another way."""
    yield Case("a line of 200 nested arrays", BAD, given=DEEP + b"\n")
    yield Case(
        "a line of 200 nested arrays among others",
        BAD + REPLIES,
        given=DEEP + b"\n" + INPUT,
    )
    inner = LINES[3].replace(b'"r"', DEEP)
    yield Case(
        "200 nested arrays in place of a word",
        MADE + BAD,
        given=CREATE + b"\n" + inner + b"\n",
    )
    longest = CREATE.rjust(LONGEST_LINE)
    yield Case(
        "a line with spaces before it, as long as may be", MADE, given=longest + b"\n"
    )
    yield Case(
        "a line with spaces before it, one byte too long",
        BAD,
        given=b" " + longest + b"\n",
    )
    yield Case(
        "carriage returns before the line feeds", given=INPUT.replace(b"\n", b"\r\n")
    )


def pieces() -> Iterator[Case]:
    """The input at so many bytes a take; the second one has blank lines of 30,000 bytes between the others."""
    blank = b" " * 30_000 + b"\n"
    spaced = b"".join(line + b"\n" + blank for line in LINES)
    for piece in (1, 2, 7, 65_536):
        yield Case(f"{piece} bytes at a take", piece=piece)
    for piece in (700, 65_536):
        yield Case(
            f"{piece} bytes at a take, among blank lines", given=spaced, piece=piece
        )


def failing() -> Iterator[Case]:
    """Documents that cannot be read, and an output that is full after so many bytes."""
    for document in [*UNIT, *OPTIONAL]:
        yield Case(f"a folder in place of {document}", b"", 3, {document: None})
    room = 0
    for line in REPLIES.splitlines(keepends=True):
        for full in (room, room + len(line) // 2):
            name = f"an output of {full} bytes"
            yield Case(name, REPLIES[:full], 6, piece=44, room=full)
        room += len(line)
    yield Case("an output of as many bytes as the replies", room=len(REPLIES))


def cases() -> Iterator[Case]:
    yield from documents()
    yield from lines()
    yield from pieces()
    yield from failing()


def write_folder(path: pathlib.Path, changed: dict[str, bytes | None]) -> None:
    """Writes the documents of the unit, some of them changed."""
    for name, content in {**UNIT, **changed}.items():
        if content is None:
            (path / name).mkdir()
        else:
            (path / name).write_bytes(content)


def feed(end: socket.socket, given: bytes, piece: int) -> None:
    """Sends the pieces as packets, each of which is one take; a program that has ended takes no more."""
    try:
        for place in range(0, len(given), piece):
            end.send(given[place : place + piece])
    except ConnectionError:
        pass
    end.close()


def limited(room: int | None) -> Callable[[], None] | None:
    """What is to be done in the new process, so that a file of this size takes no more bytes."""

    def limit() -> None:
        signal.signal(signal.SIGXFSZ, signal.SIG_IGN)
        resource.setrlimit(resource.RLIMIT_FSIZE, (room, room))

    return None if room is None else limit


def run_program(
    program: str, folder: pathlib.Path, case: Case
) -> tuple[int, bytes, bytes]:
    """The status, what is written and what is said."""
    with tempfile.TemporaryFile() as source, tempfile.TemporaryFile() as out:
        source.write(case.given)
        source.seek(0)
        ours, theirs = socket.socketpair(socket.AF_UNIX, socket.SOCK_SEQPACKET)
        with subprocess.Popen(
            [program, "replay", folder],
            stdin=theirs if case.piece else source,
            stdout=out,
            stderr=subprocess.PIPE,
            preexec_fn=limited(case.room),
        ) as running:
            theirs.close()
            watch = threading.Timer(SECONDS, running.kill)
            watch.start()
            if case.piece:
                feed(ours, case.given, case.piece)
            said = running.stderr.read() if running.stderr else b""
            status = running.wait()
            watch.cancel()
            ours.close()
        out.seek(0)
        return status, out.read(), said


def wrong_in(program: str, case: Case) -> str | None:
    """What is wrong with the answer of the program, or None."""
    with tempfile.TemporaryDirectory() as path:
        folder = pathlib.Path(path)
        write_folder(folder, case.changed)
        status, written, said = run_program(program, folder, case)
    if (status, said) != (case.status, SAID[case.status]):
        return f"status {status}, {said!r} is said, in place of {case.status}"
    if case.status == 6 and case.written.startswith(written):
        return None
    return (
        None
        if written == case.written
        else f"{written[:300]!r} in place of {case.written[:300]!r}"
    )


def main() -> int:
    program = os.path.abspath(sys.argv[1])
    word = sys.argv[2] if len(sys.argv) > 2 else ""
    run = failed = 0
    for case in cases():
        if word not in case.name:
            continue
        run += 1
        wrong = wrong_in(program, case)
        if wrong is not None:
            failed += 1
            print(f"failed: {case.name}: {wrong}", flush=True)
    print(f"{run} cases of hostile input, {failed} failed")
    return 1 if failed or not run else 0


if __name__ == "__main__":
    sys.exit(main())
