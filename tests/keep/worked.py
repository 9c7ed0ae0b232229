"""Cases that were worked out by hand, from docs/JOURNAL.md and docs/COMMANDS.md."""
import os
import pathlib
import shutil
import subprocess
from collections.abc import Callable, Iterator

from calls import (
    COURSE,
    JOURNAL,
    ROOT,
    Ending,
    call,
    empty_room,
    keep,
    running,
    text_of,
)
from journal import journal_of, kept, opened, with_line

Check = Callable[[str, pathlib.Path], str | None]

LINES = (ROOT / "examples/first.lines").read_bytes().splitlines()
REPLIES = (ROOT / "examples/first.replies").read_bytes()
CREATE, SETUP, COMPLETE = LINES[0], LINES[:4], LINES[4]
SECOND = b'["2024-01-01T10:00:00Z","create","s","u1"]'
MADE, BAD, THERE = b"ok create\n", b"no 1 bad-line\n", b"no 3 run-exists\n"
LONGEST = 65_536


def differs(what: str, got: object, wanted: object) -> str | None:
    """What is wrong, if these are not the same."""
    return (
        None if got == wanted else f"{what}: {got!r:.400} in place of {wanted!r:.400}"
    )


def ends(end: Ending, status: int, written: bytes) -> str | None:
    """What is wrong with the status and with what was written."""
    return differs("the ending", (end.status, end.written), (status, written))


def file_of(room: pathlib.Path) -> bytes | None:
    """The bytes of the journal, or None where there is none."""
    path = room / JOURNAL
    return path.read_bytes() if path.is_file() else None


def put(room: pathlib.Path, file: bytes) -> None:
    (room / JOURNAL).write_bytes(file)


def gives(
    program: str,
    room: pathlib.Path,
    before: bytes | None,
    given: bytes,
    status: int,
    written: bytes,
    after: bytes | None,
) -> str | None:
    """What is wrong with a call of `keep` over a file: its status, its output, or the file that it leaves."""
    if before is not None:
        put(room, before)
    wrong = ends(keep(program, room, given), status, written)
    return wrong or differs("the file", file_of(room), after)


def answer(process: subprocess.Popen[bytes], line: bytes) -> bytes:
    """The first line of the reply to a line that is sent now."""
    assert process.stdin and process.stdout
    process.stdin.write(line + b"\n")
    process.stdin.flush()
    return process.stdout.readline()


def ended(process: subprocess.Popen[bytes]) -> int:
    """The status once the input is closed."""
    assert process.stdin
    process.stdin.close()
    return process.wait()


def first_line(program: str, room: pathlib.Path) -> str | None:
    """One line in an empty folder: the 48 bytes of docs/JOURNAL.md."""
    file = b"\1\0\0\0\x2a" + b'["2024-01-01T08:00:00Z","create","r","u1"]' + b"\0"
    assert len(file) == 48
    return gives(program, room, None, CREATE + b"\n", 0, MADE, file)


def no_input(program: str, room: pathlib.Path) -> str | None:
    """An empty folder and no input: one closed gate, also after a second call."""
    wrong = gives(program, room, None, b"", 0, b"", b"\0")
    return wrong or gives(program, room, None, b"", 0, b"", b"\0")


def whole_example(program: str, room: pathlib.Path) -> str | None:
    """The lines of the example in one call: all but the last one, which is refused, are kept."""
    file = journal_of(LINES[:6])
    return gives(program, room, None, text_of(LINES), 0, REPLIES, file)


def second_call(program: str, room: pathlib.Path) -> str | None:
    """The setup in one call, and one command in a second one, which answers that and nothing else."""
    wrong = differs("the setup", keep(program, room, text_of(SETUP)).status, 0)
    reply = b"ok complete turns=1 fired=2 rejected=0 sent=0\n"
    file = journal_of(SETUP + [COMPLETE])
    return wrong or gives(program, room, None, COMPLETE + b"\n", 0, reply, file)


def line_by_line(program: str, room: pathlib.Path) -> str | None:
    """Each line of the example in a call of its own."""
    written = b""
    for line in LINES:
        written += keep(program, room, line + b"\n").written
    wrong = differs("the replies", written, REPLIES)
    return wrong or differs("the file", file_of(room), journal_of(LINES[:6]))


def in_turns(program: str, room: pathlib.Path) -> str | None:
    """Each line is sent once the one before is answered, and is in the file when its reply is read."""
    with running(program, room) as process:
        wrong = None
        for number, line in enumerate(LINES[:5], 1):
            reply = answer(process, line)
            wrong = wrong or differs(f"reply {number}", reply[:3], b"ok ")
            file = file_of(room) or b""
            wrong = wrong or differs(f"file {number}", file, journal_of(LINES[:number]))
        return wrong or differs("the status", ended(process), 0)


def lines_that_look(program: str, room: pathlib.Path) -> str | None:
    """Lines that only look are kept; blank, bad and refused ones are not."""
    at = b'["2024-01-01T08:00:00Z",'
    looks = [at + b'"%s","r"%s]' % each for each in LOOKS]
    others = [b"", b" \t\r", b"{}", at + b'"tree","r","nobody"]', at + b'"start","r"]']
    lines = [*SETUP[:3], at + b'"start","r"]']
    mixed = [each for pair in zip(looks, others) for each in pair]
    wrong = differs("the setup", keep(program, room, text_of(lines)).status, 0)
    end = keep(program, room, text_of(mixed))
    wrong = wrong or differs("the status", end.status, 0)
    wrong = wrong or differs("ok replies", end.written.count(b"ok "), len(LOOKS))
    return wrong or differs("the file", file_of(room), journal_of(lines + looks))


LOOKS = [
    (b"tree", b',"ann"'),
    (b"outbox", b',"ann"'),
    (b"report", b""),
    (b"tick", b""),
    (b"next", b""),
]


def look_moves_time(program: str, room: pathlib.Path) -> str | None:
    """A line that only looked keeps its moment over a restart."""
    later = b'["2024-01-01T12:00:00Z","tree","r","ann"]\n'
    wrong = differs("the look", keep(program, room, text_of(SETUP) + later).status, 0)
    reply = b"no 5 moment-back 2024-01-01T12:00:00Z\n"
    return wrong or ends(keep(program, room, COMPLETE + b"\n"), 0, reply)


def lines_as_they_came(program: str, room: pathlib.Path) -> str | None:
    """A line is kept byte for byte without its line feed: with its spaces, a carriage return, as the longest one."""
    spaced = b'\t[ "2024-01-01T08:00:00Z" , "create" , "\\u0072" , "u1" ] \r'
    longest = SECOND.rjust(LONGEST)
    last = b'["2024-01-01T10:00:00Z","create","t","u1"]'
    given = spaced + b"\n" + longest + b"\n" + b" " + longest + b"\n" + last
    file = journal_of([spaced, longest, last])
    wrong = gives(program, room, None, given, 0, MADE + MADE + BAD + MADE, file)
    written = THERE * 3
    given = text_of([CREATE, SECOND, last])
    return wrong or gives(program, room, None, given, 0, written, file)


def another_unit(program: str, room: pathlib.Path) -> str | None:
    """The journal of another unit: its first line is refused, and nothing is taken."""
    shutil.copytree(COURSE, room / "w")
    unit = (room / "w/unit.json").read_text()
    (room / "w/unit.json").write_text(unit.replace('"u1"', '"w"'))
    file = journal_of(SETUP)
    put(room, file)
    end = keep(program, room, text_of(LINES), str(room / "w"))
    wrong = differs("the ending", end, Ending(10, b"journal 1 no 2 unknown-unit\n", 0))
    wrong = wrong or differs("the lines", kept(file_of(room) or b""), SETUP)
    return wrong or gives(program, room, None, b"", 0, b"", file)


# Journals of which a line is refused: the lines, and what is told.
REFUSED = {
    "twice the same line": ([CREATE, CREATE], b"2 no 3 run-exists\n"),
    "the third of three": ([*LINES[:2], LINES[1]], b"3 no 9 person-exists\n"),
    "a moment goes back": (
        [SECOND, b'["2024-01-01T09:59:59Z","enrol","s","ann"]'],
        b"2 no 5 moment-back 2024-01-01T10:00:00Z\n",
    ),
    "a blank line": ([CREATE, b" \t\r"], b"2 no 1 bad-line\n"),
    "a line feed": ([b"\n"], b"1 no 1 bad-line\n"),
    "two lines in one record": ([CREATE + b"\n" + SECOND], b"1 no 1 bad-line\n"),
    "bytes that are no text": ([b"\xff\0"], b"1 no 1 bad-line\n"),
    "the longest line": ([b"[" * LONGEST], b"1 no 1 bad-line\n"),
    "what is done already": (LINES, b"7 no 31 not-open\n"),
}


def refused_journal(name: str) -> Check:
    """A journal that differs: its line is told, nothing is taken, and it keeps what it kept."""
    lines, told = REFUSED[name]

    def check(program: str, room: pathlib.Path) -> str | None:
        put(room, journal_of(lines))
        end = keep(program, room, text_of(LINES))
        wrong = differs("the ending", end, Ending(10, b"journal " + told, 0))
        return wrong or differs("the lines", kept(file_of(room) or b""), lines)

    return check


# Files that keep no line, or something after their lines, and the file once they are opened.
OTHER_FILES = {
    "an empty file": (b"", b"\0"),
    "the byte 0": (b"\0", b"\0"),
    "the byte 1": (b"\1", b"\0"),
    "another byte": (b"x", b"\0"),
    "another byte and three": (b"xyz4", b"\0yz4"),
    "another byte and four": (b"xyz45", bytes(5)),
    "another byte and more": (b"xyz45" + b"6" * 99, bytes(5) + b"6" * 99),
    "a gate and four bytes": (b"\1\0\0\0\1", b"\0\0\0\0\1"),
    "a record without a next gate": (b"\1\0\0\0\1x", b"\0\0\0\0\1x"),
    "a length of 0": (b"\1\0\0\0\0\0\0", b"\0\0\0\0\0\0\0"),
    "a length of 65,537": (
        b"\1\0\1\0\1" + b"[" * 70_000,
        b"\0\0\1\0\1" + b"[" * 70_000,
    ),
    "a closed gate before a line": (
        b"\0" + journal_of([CREATE])[1:],
        b"\0" + journal_of([CREATE])[1:],
    ),
    "a line and other bytes": (
        journal_of([CREATE])[:-1] + b"x\0\0\0*" + SECOND + b"\1",
        journal_of([CREATE])[:-1] + bytes(5) + SECOND + b"\1",
    ),
    "zeros": (bytes(10_000), bytes(10_000)),
}


def other_file(name: str) -> Check:
    """A file is opened, and then takes a line over what stands after its last gate."""
    before, after = OTHER_FILES[name]

    def check(program: str, room: pathlib.Path) -> str | None:
        wrong = differs("opened", opened(before), after)
        wrong = wrong or gives(program, room, before, b"", 0, b"", after)
        both = with_line(after, SECOND)
        given = SECOND + b"\n"
        return wrong or gives(program, room, before, given, 0, MADE, both)

    return check


def filled_to(place: int) -> list[bytes]:
    """Lines that are done, of which the last gate stands at this place."""
    lines: list[bytes] = []
    while place > 0:
        size = place if place <= LONGEST else min(LONGEST, place - 1000)
        line = b'["2024-01-01T08:00:00Z","create","f%d","u1"]' % len(lines)
        lines.append(line.ljust(size - 5))
        place -= size
    return lines


def near(edge: int) -> Check:
    """Journals with a gate at each place near this one, where a part of a file may end that is read at once."""

    def check(program: str, room: pathlib.Path) -> str | None:
        for place in range(edge - 50, edge + 7):
            before = filled_to(place)
            file = journal_of(before + SETUP)
            put(room, file)
            after = with_line(file, SECOND)
            given = text_of([before[-1], CREATE, SECOND])
            written = THERE * 2 + MADE
            wrong = gives(program, room, None, given, 0, written, after)
            if wrong is not None:
                return f"a gate at {place}: {wrong}"
        return None

    return check


EDGES = [4096, 8192, 16_384, 32_768, 65_536, 131_072]


def is_a_folder(program: str, room: pathlib.Path) -> str | None:
    """A journal that is a folder."""
    (room / JOURNAL).mkdir()
    end = keep(program, room, text_of(LINES))
    return differs("the ending", end, Ending(9, b"", 0))


def leads_nowhere(program: str, room: pathlib.Path) -> str | None:
    """A journal that cannot be opened, since it is a link into a folder that is not there."""
    (room / JOURNAL).symlink_to(room / "none" / "file")
    end = keep(program, room, text_of(LINES))
    return differs("the ending", end, Ending(9, b"", 0))


def is_no_file(program: str, room: pathlib.Path) -> str | None:
    """A journal that cannot be synced, since it is a device."""
    (room / JOURNAL).symlink_to("/dev/null")
    end = keep(program, room, text_of(LINES))
    return differs("the ending", end, Ending(9, b"", 0))


def held_by_another(program: str, room: pathlib.Path) -> str | None:
    """A second call on a journal ends before it takes a line; once the first is killed, a third one goes on."""
    with running(program, room) as first:
        wrong = differs("the first", answer(first, CREATE), MADE)
        end = keep(program, room, text_of(LINES))
        wrong = wrong or differs("the second", end, Ending(9, b"", 0))
        wrong = wrong or differs("the first", answer(first, SECOND), MADE)
        first.kill()
        first.wait()
    file = journal_of([CREATE, SECOND])
    wrong = wrong or differs("the file", file_of(room), file)
    given = text_of([CREATE, SECOND])
    return wrong or gives(program, room, None, given, 0, THERE * 2, file)


def two_rooms(program: str, room: pathlib.Path) -> str | None:
    """Calls in two folders hold two journals."""
    (room / "other").mkdir()
    with running(program, room) as first:
        wrong = differs("the first", answer(first, CREATE), MADE)
        end = keep(program, room / "other", CREATE + b"\n")
        wrong = wrong or differs("its status", ended(first), 0)
    return wrong or ends(end, 0, MADE)


def made_without_a_journal(
    words: list[str], status: int, written: bytes, given: bytes = b""
) -> Check:
    """A call that ends so, takes no input where its status is not 0, and makes no journal."""

    def check(program: str, room: pathlib.Path) -> str | None:
        (room / "folder/roles.json").mkdir(parents=True)
        end = call(program, words, room, given or text_of(LINES))
        wrong = ends(end, status, written)
        if status != 0:
            wrong = wrong or differs("bytes taken", end.taken, 0)
        return wrong or differs("the files", os.listdir(room), ["folder"])

    return check


def input_that_fails(program: str, room: pathlib.Path) -> str | None:
    """Input that is a folder: what was kept stands."""
    file = journal_of(SETUP)
    put(room, file)
    wrong = ends(keep(program, room, room), 5, b"")
    return wrong or differs("the file", file_of(room), file)


def full_output(program: str, room: pathlib.Path) -> str | None:
    """An output that takes nothing: a line that was done is kept, also the one whose reply failed, and none after it."""
    end = keep(program, room, text_of(SETUP), output="/dev/full")
    wrong = differs("the status", end.status, 6)
    wrong = wrong or differs("the file", file_of(room), journal_of([CREATE]))
    end = keep(program, room, text_of([CREATE, *SETUP]), output="/dev/full")
    wrong = wrong or differs("a refusal", end.status, 6)
    wrong = wrong or differs("the file", file_of(room), journal_of([CREATE]))
    return wrong or ends(keep(program, room, CREATE + b"\n"), 0, THERE)


def full_output_of_a_difference(program: str, room: pathlib.Path) -> str | None:
    """An output that takes nothing, and a journal that differs."""
    put(room, journal_of([CREATE, CREATE]))
    end = keep(program, room, text_of(LINES), output="/dev/full")
    wrong = differs("the ending", end, Ending(6, b"", 0))
    lines = kept(file_of(room) or b"")
    return wrong or differs("the lines", lines, [CREATE, CREATE])


def two_units(program: str, room: pathlib.Path) -> str | None:
    """Two folders, and then one of them alone: the line of the other's run differs."""
    other = str(ROOT / "examples" / "seminar")
    line = b'["2024-01-01T08:00:00Z","create","s","seminar"]'
    words = ["keep", COURSE, other]
    wrong = ends(call(program, words, room, text_of([CREATE, line])), 0, MADE * 2)
    end = keep(program, room, text_of(LINES))
    told = b"journal 2 no 2 unknown-unit\n"
    wrong = wrong or differs("the ending", end, Ending(10, told, 0))
    return wrong or ends(call(program, words, room, line), 0, THERE)


SINGLE: list[Check] = [
    first_line,
    no_input,
    whole_example,
    second_call,
    line_by_line,
    in_turns,
    lines_that_look,
    look_moves_time,
    lines_as_they_came,
    another_unit,
    is_a_folder,
    leads_nowhere,
    is_no_file,
    held_by_another,
    two_rooms,
    input_that_fails,
    full_output,
    full_output_of_a_difference,
    two_units,
]
ABSENT = b"refused 1 roles.json . absent\n"
REPEATED = b"refused 2 unit.json /identifier repeated-unit\n"
# Calls that make no journal: their words, their status and what they write.
WITHOUT = {
    "no folder": (["keep"], 2, b""),
    "65 folders": (["keep"] + [COURSE] * 65, 2, b""),
    "a dash": (["keep", "-"], 2, b""),
    "a dash behind a folder": (["keep", COURSE, "-x"], 2, b""),
    "an empty word": (["keep", ""], 2, b""),
    "a document that is a folder": (["keep", "folder"], 3, b""),
    "a folder that is not there": (["keep", "none"], 4, ABSENT),
    "one folder twice": (["keep", COURSE, COURSE], 4, REPEATED),
    "replay": (["replay", COURSE], 0, REPLIES),
    "check": (["check", COURSE], 0, b"ok u1 rules=3 leaves=0\n"),
}


def cases(program: str) -> Iterator[tuple[str, str | None]]:
    """The name of each case, and what is wrong, or None."""
    table = {check.__name__.replace("_", " "): check for check in SINGLE}
    table |= {
        f"a journal that differs: {name}": refused_journal(name) for name in REFUSED
    }
    table |= {f"a file to be opened: {name}": other_file(name) for name in OTHER_FILES}
    table |= {f"gates near byte {edge}": near(edge) for edge in EDGES}
    for name, row in WITHOUT.items():
        table[f"without a journal: {name}"] = made_without_a_journal(*row)
    for name, check in table.items():
        with empty_room() as room:
            try:
                yield name, check(program, room)
            except (ValueError, subprocess.TimeoutExpired, OSError) as error:
                yield name, repr(error)
