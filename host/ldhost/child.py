"""One engine process over pipes: a line goes in, a reply block comes out."""

import asyncio
from pathlib import Path
from typing import Sequence

from .replies import Reply, lines_after

LONGEST_LINE = 1 << 20
PATIENCE = 20


class Gone(Exception):
    """The engine process has ended."""

    def __init__(self, status: int):
        super().__init__(f"status {status}")
        self.status = status
        self.is_killed = status < 0
        """Whether a signal ended it, so that it did not choose to end."""


class Child:
    def __init__(self, process: asyncio.subprocess.Process):
        self.process = process

    @classmethod
    async def start(
        cls, engine: Path, form: str, folders: Sequence[Path], place: Path, held: Sequence[int] = ()
    ) -> "Child":
        """Starts the engine in the folder `place`; it inherits the open files `held`."""
        pipe = asyncio.subprocess.PIPE
        process = await asyncio.create_subprocess_exec(
            str(engine),
            form,
            *map(str, folders),
            cwd=place,
            stdin=pipe,
            stdout=pipe,
            limit=LONGEST_LINE,
            pass_fds=held,
        )
        return cls(process)

    async def send(self, line: str) -> None:
        assert self.process.stdin
        try:
            self.process.stdin.write(line.encode() + b"\n")
            await self.process.stdin.drain()
        except (BrokenPipeError, ConnectionResetError):
            raise Gone(await self.process.wait()) from None

    async def line(self) -> str:
        assert self.process.stdout
        raw = await self.process.stdout.readline()
        if not raw.endswith(b"\n"):
            raise Gone(await self.process.wait())
        return raw[:-1].decode()

    async def block(self) -> Reply:
        head = await self.line()
        return Reply(head, [await self.line() for _ in range(lines_after(head))])

    async def ask(self, line: str) -> Reply:
        await self.send(line)
        return await self.block()

    async def stop(self) -> None:
        """Closes the engine's input, so that it ends by itself."""
        if self.process.returncode is not None:
            return
        assert self.process.stdin
        self.process.stdin.close()
        try:
            await asyncio.wait_for(self.process.wait(), PATIENCE)
        except asyncio.TimeoutError:
            self.process.kill()
            await self.process.wait()
