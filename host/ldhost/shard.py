"""A shard: some editions of units, one log of lines, and the two engine processes that stand behind it.

- The *keeper* (logs.py) takes every command. A command is done once its line is in the log on disk.
- The *reader* (`ld replay`) is given the same lines and answers what is only looked at, so that a look at a page is
  neither written to disk nor done again at each start.

Replies follow from the lines, so both processes answer alike; the host compares them and closes the shard where they
differ. A look is asked at the run's last moment. Where it settles something (another run wrote a value that both
share), the same line is given to the keeper too. Else it leaves the run as it was.
"""

import asyncio
import fcntl
import json
import os
from pathlib import Path
from typing import Any, Callable, Coroutine, NoReturn, Sequence, TypeVar

from .child import Gone
from .course import Course
from .engine import Engine
from .journal import mark, mark_of
from .logs import FileLog, MakeLog
from .reader import Reader
from .replies import NO_MEMORY, Reply
from .run import Run
from .shut import Closed, Held
from .timing import Timing

T = TypeVar("T")
LOCK_TRIES, LOCK_PAUSE = 100, 0.1


class OtherCommand(Exception):
    """A delivery key was used for another command before."""


def write_whole(path: Path, text: str) -> None:
    """Writes a file so that it has its old content or the new one, and no other."""
    part = path.with_name(path.name + ".part")
    with open(part, "w") as out:
        out.write(text)
        out.flush()
        os.fsync(out.fileno())
    os.replace(part, path)


class Shard:
    def __init__(
        self,
        folder: Path,
        units: Path,
        engine: Engine,
        timing: Timing,
        clock: Callable[[], str],
        make_log: MakeLog = FileLog,
    ):
        self.folder, self.units, self.engine, self.timing, self.clock = folder, units.resolve(), engine, timing, clock
        self.log = make_log(engine.program, folder)
        self.lock = asyncio.Lock()
        self.hold = -1
        self.changed: Callable[[Run], None] = lambda run: None
        self.forget()

    def forget(self) -> None:
        self.reader: Reader | None = None
        self.runs: dict[str, Run] = {}
        self.done: dict[str, tuple[list[str], Reply]] = {}
        self.kept = 0
        self.closed: str | None = None

    @property
    def folders(self) -> list[Path]:
        return [self.units / edition for edition in self.editions]

    @staticmethod
    def line(moment: str, verb: str, *words: str) -> str:
        return json.dumps([moment, verb, *words])

    # -- opening and closing

    async def open(self) -> "Shard":
        """Takes the shard and builds all that the host knows of its runs from the log."""
        try:
            await self.take()
            await self.open_taken()
        except Held:
            self.let_go()
            raise
        return self

    async def open_taken(self) -> None:
        self.editions = (self.folder / "editions").read_text().split()
        try:
            self.courses = {course.id: course for course in (Course(f, self.engine.has_pages) for f in self.folders)}
            await self.log.take()
            lines = await self.log.lines()
            self.reader = Reader(self.engine.program, self.folders, self.folder, self.log.lines)
            await self.reader.start(lines, self.note)
            self.kept = len(lines)
            await self.log.open(self.folders, self.hold)
        except (Closed, Gone, OSError, ValueError, KeyError) as error:
            self.runs, self.closed = {}, f"{type(error).__name__}: {error}"

    async def take(self) -> None:
        """Locks the shard. The keeper inherits the lock, so one that outlives its host still holds it."""
        if self.hold >= 0:
            return
        self.hold = os.open(self.folder / "lock", os.O_CREAT | os.O_RDWR, 0o600)
        for _ in range(LOCK_TRIES):
            try:
                return fcntl.flock(self.hold, fcntl.LOCK_EX | fcntl.LOCK_NB)
            except BlockingIOError:
                await asyncio.sleep(LOCK_PAUSE)
        raise Held(self.folder.name)

    async def reopen(self, editions: Sequence[str] = ()) -> None:
        """Opens again what is in the shard's folder now, for instance after the disk was mended. Given editions are
        the shard's from now on."""
        async with self.lock:
            await self.stop_children()
            if editions:
                write_whole(self.folder / "editions", "".join(f"{edition}\n" for edition in editions))
            self.forget()
            try:
                await self.open()
            except Held as held:
                self.closed = f"another host has {held}"

    async def close(self) -> None:
        async with self.lock:
            await self.stop_children()
            self.let_go()
            self.closed = "the host ends"

    def let_go(self) -> None:
        if self.hold >= 0:
            os.close(self.hold)
        self.hold = -1

    async def stop_children(self) -> None:
        await self.log.stop()
        if self.reader:
            await self.reader.stop()

    # -- lines: the lock is held

    async def put(self, line: str) -> Reply:
        """Gives a line to both processes. Where the answer is `ok`, the line is on disk."""
        if self.closed:
            raise Closed(self.closed)
        asked = self.ask_reader(line), self.log.keep(line, self.kept)
        shown, kept = await asyncio.gather(*asked, return_exceptions=True)
        for answer in (shown, kept):
            if isinstance(answer, BaseException):
                self.shut(f"{type(answer).__name__}: {answer}")
        assert isinstance(shown, Reply) and not isinstance(kept, BaseException)
        return await self.take_in(line, shown, kept)

    async def ask_reader(self, line: str) -> Reply:
        assert self.reader
        return await self.reader.ask(line, self.kept)

    async def take_in(self, line: str, shown: Reply, kept: Reply | None) -> Reply:
        """What both processes answered, once it is alike."""
        if kept and kept.head == NO_MEMORY:
            assert self.reader
            await self.reader.renew(self.kept)
            return kept
        if kept and shown.text != kept.text:
            self.shut(f"keeper and reader differ at {line!r}")
        if shown.ok:
            self.kept += 1
            self.note(line, shown)
        return shown

    def shut(self, reason: str) -> NoReturn:
        self.closed = reason
        raise Closed(reason)

    def note(self, line: str, reply: Reply) -> None:
        moment, verb, *words = json.loads(line)
        if not reply.ok:
            raise Closed(f"a kept line is answered {reply.head!r}")
        if mark_of(line):
            self.done[mark_of(line)] = ([verb, *words], reply)
        if verb == "create":
            self.runs[words[0]] = Run(words[0], self.courses[words[1]], moment)
        elif not verb.startswith("global-"):
            self.runs[words[0]].note(moment, verb, words[1:])

    # -- commands

    async def say(self, verb: str, *words: str, key: str | None = None) -> Reply:
        """Does a command at the present moment. A key that was seen before gets the reply of that time."""
        return await self.whole(self.say_locked(verb, list(words), key))

    async def whole(self, work: Coroutine[Any, Any, T]) -> T:
        """Does the work to its end under the lock, also where the request for it is given up: no reply stays unread."""

        async def locked() -> T:
            async with self.lock:
                return await work

        return await asyncio.shield(asyncio.ensure_future(locked()))

    async def say_locked(self, verb: str, words: list[str], key: str | None) -> Reply:
        if self.closed:
            raise Closed(self.closed)
        if key and mark(key) in self.done:
            said, reply = self.done[mark(key)]
            if said != [verb, *words]:
                raise OtherCommand()
            return reply
        run = self.run_of(verb, words)
        moment = max(self.clock(), run.last) if run and verb != "create" else self.clock()
        while run and await self.timing.before(self, run, moment):
            await self.follow(run)
        alarm = await self.timing.alarm_of(self, run) if run else None
        if alarm and alarm <= moment:
            return Reply(NO_MEMORY)  # it could not ring, and nothing may come before it
        reply = await self.put(self.line(moment, verb, *words) + mark(key))
        if reply.ok:
            await self.follow(self.run_of(verb, words))
        return reply

    def run_of(self, verb: str, words: list[str]) -> Run | None:
        return self.runs.get(words[0]) if words and not verb.startswith("global-") else None

    async def follow(self, run: Run | None) -> None:
        """What follows a kept line: news of the run, and what it settles in other runs that share a value with it."""
        if run:
            self.changed(run)
        for other in list(self.runs.values()):
            is_linked = not run or run.course.uris & other.course.uris
            if is_linked and other.course.uris and other is not run and other.started:
                await self.look_at("tick", other.name)

    # -- looks

    async def look(self, verb: str, *words: str) -> Reply:
        return (await self.look_all([[verb, *words]]))[0]

    async def look_all(self, looks: Sequence[Sequence[str]]) -> list[Reply]:
        """Answers several looks of one state: no command comes between them."""

        async def all_of_them() -> list[Reply]:
            return [await self.look_at(*words) for words in looks]

        return await self.whole(all_of_them())

    async def look_at(self, verb: str, *words: str, moment: str | None = None) -> Reply:
        """Asks the reader, at the run's last moment or at a later one. What settled something is kept."""
        if self.closed:
            raise Closed(self.closed)
        run = self.run_of(verb, list(words))
        line = self.line(moment or (run.last if run else self.clock()), verb, *words)
        reply = await self.ask_reader(line)
        if reply.ok and reply.work[0]:
            reply = await self.take_in(line, reply, await self.keep_look(line))
            if run:
                self.changed(run)
        elif reply.ok and run and moment:
            run.last = moment
        return reply

    async def keep_look(self, line: str) -> Reply | None:
        try:
            kept = await self.log.keep(line, self.kept)
        except (Closed, Gone, OSError) as error:
            self.shut(f"{type(error).__name__}: {error}")
        return kept

    # -- time

    async def pass_time(self) -> None:
        """Lets pass in each run what is due now."""
        moment = self.clock()
        for name in list(self.runs):
            await self.whole(self.pass_time_in(name, moment))

    async def pass_time_in(self, name: str, moment: str) -> None:
        run = self.runs.get(name)
        if run and not self.closed and await self.timing.due(self, run, moment):
            await self.follow(run)

    async def next_alarm(self, run: Run) -> str | None:
        """When the run's next alarm is, as far as that is known."""
        return None if self.closed else await self.whole(self.timing.alarm_of(self, run))
