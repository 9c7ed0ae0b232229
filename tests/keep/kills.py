"""Calls that are killed at random moments, over and over, and go on where the journal ends.

One long row of lines is sent. A call gets the next ones of it, and is killed: while it opens the journal, after some
time, or after some replies. Then the journal is read, and the next call gets the lines behind the last one that was
kept. In the end all lines have to be done, as if no call had been killed.
"""
import collections
import dataclasses
import os
import pathlib
import random
import subprocess
import time
from collections.abc import Iterator

from calls import COURSE, JOURNAL, blocks_of, call, empty_room, keep, running, text_of
from journal import gate_and_lines, kept

# How many lines a call gets, and how many kills one journal sees.
PIECE, SERIES = 30, 20
# Of ten kills, how many come while the journal is opened, and how many after some time from then on.
EARLY, TIMED = 3, 4


def lines_of(count: int, chance: random.Random) -> list[bytes]:
    """Lines of many runs of the course: most are done, others are refused; some are long."""
    lines: list[bytes] = []
    while len(lines) < count:
        run, person = f"r{len(lines)}", chance.choice(["ann", "bob"])
        for row in [
            f'"create","{run}","u1"',
            f'"enrol","{run}","{person}"',
            f'"assign","{run}","{person}","learner"',
            f'"start","{run}"',
            f'"tree","{run}","{person}"',
            f'"complete","{run}","{person}","read"',
            f'"complete","{run}","{person}","read"',
            f'"report","{run}"',
            f'"set","{run}","{person}","none","1"',
            f'"tick","{run}"',
        ]:
            if chance.random() < 0.9:
                day, second = divmod(len(lines), 86_400)
                clock = time.strftime("%H:%M:%S", time.gmtime(second))
                line = f'["2024-01-{1 + day:02}T{clock}Z",{row}]'
                lines.append(line.encode().ljust(chance.choice([0, 0, 0, 900])))
    return lines[:count]


@dataclasses.dataclass
class Series:
    """One journal and the row of lines that are sent to it, with the reply block of each, as `replay` gives them."""

    program: str
    room: pathlib.Path
    chance: random.Random
    lines: list[bytes]
    blocks: list[bytes]
    # The place behind the line that is done as the first, second .. one, and the place of the next line to be sent.
    ends: list[int]
    place: int = 0
    # How long a call takes that gets no line, and one that gets PIECE lines, where it is not killed.
    opening: float = 0.0
    seconds: float = 0.0
    seen: collections.Counter[str] = dataclasses.field(
        default_factory=collections.Counter
    )

    def accepted(self, end: int) -> list[bytes]:
        """Those of the first lines that are done."""
        return [self.lines[each - 1] for each in self.ends if each <= end]

    def killed_call(self, given: list[bytes]) -> bytes:
        """What a call writes that gets these lines at once, in a pipe that stays open, and is killed."""
        kind = self.chance.randrange(10)
        with running(self.program, self.room) as process:
            assert process.stdin and process.stdout
            os.write(process.stdin.fileno(), text_of(given))
            written = b""
            if kind < EARLY:
                time.sleep(self.chance.uniform(0, self.opening))
            elif kind < EARLY + TIMED:
                time.sleep(self.chance.uniform(0, 1.1 * self.seconds))
            else:
                rows = range(self.chance.randrange(PIECE))
                written = b"".join(process.stdout.readline() for _ in rows)
                time.sleep(self.chance.uniform(0, 2 * self.seconds / PIECE))
            process.kill()
            written += process.stdout.read()
        return written

    def turn(self) -> str | None:
        """What is wrong with the next call, with the journal after it, or with what `replay` gives then; or None."""
        given = self.lines[self.place : self.place + PIECE]
        answered, part = blocks_of(self.killed_call(given))
        end = self.place + len(answered)
        if answered != self.blocks[self.place : end]:
            return f"it wrote {answered!r:.400}"
        if part and not self.blocks[end].startswith(part):
            return f"it wrote {part!r:.400}"
        path = self.room / JOURNAL
        file = path.read_bytes() if path.exists() else b""
        gate, left = gate_and_lines(file)
        sure = len(self.accepted(end))
        if left != self.accepted(self.place + len(given))[: len(left)]:
            return f"it keeps other lines: {left!r:.400}"
        if not sure <= len(left) <= sure + 1:
            return f"{sure} lines are acknowledged, and it keeps {len(left)}"
        self.seen["kills"] += 1
        self.seen["before the journal was there"] += not file
        self.seen["before the first reply"] += not answered
        self.seen["between replies"] += 0 < len(answered) < len(given)
        self.seen["a line kept whose reply was not seen"] += len(left) > sure
        self.seen["something behind the last gate"] += len(file) > gate + 1
        self.place = self.ends[len(left) - 1] if left else 0
        return self.wrong_behind(left)

    def wrong_behind(self, left: list[bytes]) -> str | None:
        """What is wrong with the replies of `replay` to the next lines, behind the kept ones."""
        end = self.place + PIECE
        given = text_of(left + self.lines[self.place : end])
        written = call(self.program, ["replay", COURSE], self.room, given).written
        if blocks_of(written)[0][len(left) :] != self.blocks[self.place : end]:
            return "replay gives other replies behind the kept lines"
        return None

    def rest(self) -> str | None:
        """What is wrong with a call that gets all other lines and is not killed, and with all that is kept then."""
        end = keep(self.program, self.room, text_of(self.lines[self.place :]))
        if (end.status, end.written) != (0, b"".join(self.blocks[self.place :])):
            return f"the last call gives {end!r:.400}"
        left = kept((self.room / JOURNAL).read_bytes())
        if left != self.accepted(len(self.lines)):
            return "the journal has other lines than those that are done"
        return None


def seconds_of(program: str, room: pathlib.Path, lines: list[bytes]) -> float:
    """How long a call takes that gets these lines."""
    begun = time.monotonic()
    keep(program, room, text_of(lines))
    return time.monotonic() - begun


def series_in(
    program: str, room: pathlib.Path, kills: int, chance: random.Random
) -> Series:
    """A series over an empty folder. How long its calls take is seen in another one."""
    lines = lines_of(kills * PIECE, chance)
    written = call(program, ["replay", COURSE], room, text_of(lines)).written
    blocks, part = blocks_of(written)
    if len(blocks) != len(lines) or part:
        raise ValueError(f"replay gives {len(blocks)} replies to {len(lines)} lines")
    ends = [place for place, block in enumerate(blocks, 1) if block.startswith(b"ok ")]
    series = Series(program, room, chance, lines, blocks, ends)
    with empty_room() as other:
        keep(program, other)
        series.opening = seconds_of(program, other, [])
        series.seconds = seconds_of(program, other, lines[:PIECE])
    return series


def cases(program: str, kills: int, seed: int) -> Iterator[tuple[str, str | None]]:
    """The name of each kill, and what is wrong, or None; last, whether they came at moments of all kinds."""
    seen: collections.Counter[str] = collections.Counter()
    for first in range(0, kills, SERIES):
        count = min(SERIES, kills - first)
        chance = random.Random(f"{seed} {first}")
        with empty_room() as room:
            try:
                series = series_in(program, room, count, chance)
                wrong = None
                for number in range(first + 1, first + count + 1):
                    wrong = wrong or series.turn()
                    yield f"kill {number} of seed {seed}", wrong
                name = f"all lines after kill {first + count} of seed {seed}"
                yield name, wrong or series.rest()
            except (ValueError, OSError, subprocess.TimeoutExpired) as error:
                yield f"the kills from {first + 1} on of seed {seed}", repr(error)
                continue
        seen += series.seen
    print(", ".join(f"{count} {what}" for what, count in seen.items()))
    least = {"between replies": kills // 5, "before the first reply": kills // 50}
    few = [f"only {seen[what]} {what}" for what in least if seen[what] < least[what]]
    yield "moments of kills", ", ".join(few) or None
