"""All published units and all shards of a host.

An edition is a published unit. Its folder does not change any more, so that all kept lines are answered as before. A
run of an edition without uris has a shard of its own: a journal that can be put away or deleted with the run. Runs of
units that share a uri are in one shard, since the engine's store of global values is one per process; the shard's list
of editions only ever grows at its end.
"""

import asyncio
import logging
import re
import shutil
from pathlib import Path
from typing import Callable

from . import moments
from .course import CONTENT, DOCUMENTS, FORMAT, IMPORTED, PAGES, Course
from .engine import UNIT_REFUSED, Engine, Unfit, answer
from .faults import Fault, explain
from .logs import FileLog, MakeLog
from .replies import BAD_LINE, Reply
from .run import Run
from .shard import Shard, write_whole
from .timing import timing_of
from .uploads import Refused

TURN = 0.5
PARTS = {*DOCUMENTS, PAGES, CONTENT, IMPORTED}
IDENTIFIER = re.compile("[A-Za-z_][A-Za-z0-9_.-]{0,63}")
log = logging.getLogger("ldhost")


class House:
    def __init__(
        self,
        data: Path,
        engine: Engine,
        tick_seconds: int,
        clock: Callable[[], str] = moments.present,
        make_log: MakeLog = FileLog,
    ):
        self.data, self.engine, self.clock, self.make_log = data, engine, clock, make_log
        self.timing = timing_of(engine, tick_seconds)
        self.units: dict[str, Course] = {}
        self.shards: dict[str, Shard] = {}
        self.listeners: dict[str, set[asyncio.Event]] = {}
        self.ending = asyncio.Event()
        self.building = asyncio.Lock()
        """One shard or edition is made at a time."""

    async def open(self) -> None:
        for name in ("units", "shards"):
            (self.data / name).mkdir(parents=True, exist_ok=True)
        self.units = {f.name: self.course(f) for f in sorted((self.data / "units").iterdir())}
        for folder in sorted((self.data / "shards").iterdir()):
            if (folder / "editions").exists():
                await self.open_shard(folder)
        self.clockwork = asyncio.ensure_future(self.let_time_pass())

    def course(self, folder: Path) -> Course:
        return Course(folder, self.engine.has_pages)

    async def open_shard(self, folder: Path) -> Shard:
        shard = Shard(folder, self.data / "units", self.engine, self.timing, self.clock, self.make_log)
        shard.changed = self.wake
        await shard.open()
        if shard.closed:
            log.error("shard %s is closed: %s", folder.name, shard.closed)
        self.shards[folder.name] = shard
        return shard

    async def close(self) -> None:
        self.clockwork.cancel()
        for shard in self.shards.values():
            await shard.close()

    async def let_time_pass(self) -> None:
        while True:
            for shard in list(self.shards.values()):
                try:
                    await shard.pass_time()
                except Exception as error:  # one run that fails does not stop the time of the others
                    log.error("shard %s: %s: %s", shard.folder.name, type(error).__name__, error)
            await asyncio.sleep(TURN)

    # -- who waits for news of a run

    def listen(self, run: str) -> asyncio.Event:
        event = asyncio.Event()
        self.listeners.setdefault(run, set()).add(event)
        return event

    def wake(self, run: Run) -> None:
        for event in self.listeners.get(run.name, ()):
            event.set()

    def wake_all(self) -> None:
        """Ends all waiting, since the host ends."""
        self.ending.set()
        for events in self.listeners.values():
            for event in events:
                event.set()

    # -- runs

    def runs(self) -> dict[str, tuple[Shard, Run]]:
        return {name: (shard, run) for shard in self.shards.values() for name, run in shard.runs.items()}

    def find(self, name: str) -> tuple[Shard, Run] | None:
        for shard in self.shards.values():
            if name in shard.runs:
                return shard, shard.runs[name]
        return None

    async def say(self, verb: str, run: str, words: list[str], key: str | None = None) -> Reply:
        """Does a command in the run. The word of `create` is an edition."""
        found = self.find(run)
        if verb == "create":
            if not IDENTIFIER.fullmatch(run):
                return Reply(BAD_LINE)
            if len(words) != 1 or words[0] not in self.units:
                return Reply("no 2 unknown-unit")
            shard = found[0] if found else await self.shard_for(run, words[0])
            return await shard.say(verb, run, self.units[words[0]].id, key=key)
        if found is None:
            return Reply("no 4 unknown-run")
        return await found[0].say(verb, run, *words, key=key)

    async def shard_for(self, run: str, edition: str) -> Shard:
        """The shard where a run of this edition is to be made."""
        if self.units[edition].uris:
            return self.shard_of_edition(edition)
        name = f"run.{run}"
        async with self.building:
            if name not in self.shards:
                await self.open_shard(self.new_shard(name, edition))
        return self.shards[name]

    def shard_of_edition(self, edition: str) -> Shard:
        return next(shard for shard in self.shards.values() if edition in shard.editions)

    def new_shard(self, name: str, edition: str) -> Path:
        folder = self.data / "shards" / name
        folder.mkdir(exist_ok=True)
        write_whole(folder / "editions", edition + "\n")
        return folder

    # -- publishing

    async def ask(self, form: str, *folders: Path) -> tuple[int, str]:
        try:
            status, out = await answer(self.engine.program, form, list(folders))
        except Unfit as unfit:
            raise Refused(str(unfit)) from None
        if status not in (0, UNIT_REFUSED):
            raise Refused(f"the engine ended with status {status}")
        return status, out.rstrip("\n")

    async def check(self, folder: Path) -> Fault | None:
        """The first fault of the course, explained."""
        status, line = await self.ask("check", folder)
        return explain(folder, line) if status == UNIT_REFUSED else None

    async def unrest(self, folder: Path) -> str | None:
        """What an author should look at, where the course's rules might not come to rest."""
        _, text = await self.ask("rank", folder)
        head, *names = text.split("\n")
        if head.endswith(" never-30"):
            return None
        if head.startswith("loop "):
            return "These rules feed each other in a circle, and might not come to rest: " + ", ".join(names) + "."
        return "The rules are deeper than the unit's turns, so a command might be refused. Give the unit more turns."

    async def publish(self, folder: Path) -> str:
        """Makes a new edition of the folder's unit, which has no fault, and gives its name."""
        async with self.building:
            course = self.course(folder)
            if course.format != FORMAT:
                raise Refused(f"the unit has format {course.format}, and this host runs format {FORMAT}")
            linked = await self.linked_shard(course, folder)
            name = self.free_name(course.id)
            place = self.data / "units" / name
            await asyncio.to_thread(copy, folder, place)
            self.units[name] = self.course(place)
            if linked:
                await linked.reopen([*linked.editions, name])
            elif course.uris:
                await self.open_shard(self.new_shard(f"shared.{name}", name))
            return name

    def free_name(self, unit: str) -> str:
        number = 1
        while f"{unit}-{number}" in self.units:
            number += 1
        return f"{unit}-{number}"

    async def linked_shard(self, course: Course, folder: Path) -> Shard | None:
        """The shard with units that share a uri with this one, if there is one and the unit fits beside them."""
        linked = [s for s in self.shards.values() if any(course.uris & self.units[e].uris for e in s.editions)]
        if len(linked) > 1:
            raise Refused("the unit shares values with units of several shards, which can't be joined")
        if linked:
            status, line = await self.ask("replay", *linked[0].folders, folder)
            if status:
                raise Refused(f"beside the units that share its values: {line}")
        return linked[0] if linked else None


def copy(folder: Path, target: Path) -> None:
    """A copy that appears at once: of the documents, of what an import noted, and of the files below `content/`."""
    part = target.parent.parent / "part"
    shutil.rmtree(part, ignore_errors=True)
    shutil.copytree(folder, part, ignore=lambda at, names: left_out(folder, Path(at), names))
    part.rename(target)


def left_out(folder: Path, at: Path, names: list[str]) -> set[str]:
    """What is not copied from a folder within a course folder: links, and at the top all that is no part of a course."""
    others = set(names) - PARTS if at == folder else set()
    return others | {name for name in names if (at / name).is_symlink()}
