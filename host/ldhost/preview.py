"""A preview: an author goes through a course in all roles and through time. Nothing of it is kept."""

import asyncio
import secrets
from dataclasses import dataclass, field
from pathlib import Path
from typing import Sequence

from . import moments
from .child import Child, Gone
from .course import Course
from .engine import Engine
from .replies import Reply
from .run import Run
from .shard import Shard
from .shut import Closed

RUN = "preview"
MOST = 20
MOST_PERSONS = 200
LONGEST_NAME = 58


@dataclass
class Preview:
    """One engine process with one run. Its time stands still until the author moves it."""

    author: str
    edition: str
    child: Child
    run: Run
    moment: str
    name: str = field(default_factory=lambda: secrets.token_hex(8))
    lock: asyncio.Lock = field(default_factory=asyncio.Lock)

    async def say(self, verb: str, *words: str) -> Reply:
        async with self.lock:
            return await self.give(verb, *words)

    async def look_all(self, looks: Sequence[Sequence[str]]) -> list[Reply]:
        async with self.lock:
            return [await self.give(verb, *words[1:]) for verb, *words in looks]

    async def give(self, verb: str, *words: str) -> Reply:
        try:
            reply = await self.child.ask(Shard.line(self.moment, verb, RUN, *words))
        except Gone as gone:
            raise Closed(f"the preview ended with {gone}") from None
        if reply.ok and verb != "create":
            self.run.note(self.moment, verb, list(words))
        return reply

    async def set_up(self) -> Reply:
        """Makes the run with persons of each role and starts it; the reply is that of `start`."""
        await self.give("create", self.run.course.id)
        for person, role in cast(self.run.course):
            await self.give("enrol", person)
            await self.give("assign", person, role)
        return await self.give("start")

    async def move(self, seconds: int) -> Reply:
        async with self.lock:
            self.moment = moments.after(self.moment, seconds)
            return await self.give("tick")

    async def move_to_alarm(self) -> str | None:
        """Moves to the next moment at which anything depends on time, where there is one."""
        async with self.lock:
            alarm = (await self.give("next")).value
            if alarm:
                self.moment = max(alarm, self.moment)
                await self.give("tick")
            return alarm


def cast(course: Course) -> list[tuple[str, str]]:
    """The persons of a preview: for each role as many as it needs, and at least one."""
    persons = []
    for name, role in course.roles.items():
        persons += [(f"{name[:LONGEST_NAME]}-{n}", name) for n in range(1, max(1, role["least"]) + 1)][:MOST_PERSONS]
    return persons[:MOST_PERSONS]


class Previews:
    """The previews that are open. The oldest one ends where there are too many."""

    def __init__(self, engine: Engine, units: Path):
        self.engine, self.units = engine, units.resolve()
        self.open: dict[str, Preview] = {}

    async def begin(self, author: str, edition: str) -> tuple[Preview, Reply]:
        while len(self.open) >= MOST:
            await self.end(next(iter(self.open)))
        folder = self.units / edition
        child = await Child.start(self.engine.program, "replay", [folder], self.units)
        moment = moments.present()
        run = Run(RUN, Course(folder, self.engine.has_pages), moment)
        preview = Preview(author, edition, child, run, moment)
        self.open[preview.name] = preview
        return preview, await preview.set_up()

    async def end(self, name: str) -> None:
        await self.open.pop(name).child.stop()

    async def end_all(self) -> None:
        for name in list(self.open):
            await self.end(name)
