"""A process `ld replay` that was given the kept lines of a shard. One that ends is followed by another."""

import asyncio
from pathlib import Path
from typing import Awaitable, Callable, Sequence

from .child import Child, Gone
from .replies import NO_MEMORY, Reply
from .shut import Closed

TRIES, PAUSE = 10, 0.05


class Reader:
    def __init__(self, program: Path, folders: Sequence[Path], place: Path, lines: Callable[[], Awaitable[list[str]]]):
        self.program, self.folders, self.place, self.lines = program, folders, place, lines
        self.child: Child | None = None

    async def start(self, lines: Sequence[str], then: Callable[[str, Reply], None] | None = None) -> None:
        """Starts a process and gives it the lines; `then` hears of each line and its reply."""
        child = self.child = await Child.start(self.program, "replay", self.folders, self.place)

        async def feed() -> None:
            for line in lines:
                await child.send(line)

        feeding = asyncio.ensure_future(feed())
        try:
            for line in lines:
                reply = await child.block()
                if then:
                    then(line, reply)
        finally:
            feeding.cancel()
            await asyncio.gather(feeding, return_exceptions=True)

    async def ask(self, line: str, kept: int) -> Reply:
        """The reply to a line after so many kept ones. A process that ended, or has no memory, is replaced."""
        for number in range(TRIES):
            await asyncio.sleep(PAUSE * number)
            try:
                assert self.child
                reply = await self.child.ask(line)
                if reply.head != NO_MEMORY:
                    return reply
            except Gone:
                pass
            await self.renew(kept)
        raise Closed("the reader ends again and again")

    async def renew(self, kept: int) -> None:
        """Starts a new process and gives it so many of the kept lines."""
        for number in range(TRIES):
            await asyncio.sleep(PAUSE * number)
            await self.stop()
            try:
                return await self.start((await self.lines())[:kept])
            except Gone as gone:
                if not gone.is_killed:
                    raise Closed(f"no new reader: {gone}") from None
            except OSError as error:
                raise Closed(f"no new reader: {error}") from None
        raise Closed("the reader ends again and again")

    async def stop(self) -> None:
        if self.child:
            await self.child.stop()
