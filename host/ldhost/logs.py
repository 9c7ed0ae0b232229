"""Where the lines of a shard are kept: in a journal beside its editions, or in a table of PostgreSQL.

A log answers a line by an engine process of its own, and keeps the line where the answer is `ok`. A line is on disk
before its reply is given.
"""

import asyncio
from pathlib import Path
from typing import TYPE_CHECKING, Any, Callable, Protocol, Sequence

from .child import Child, Gone
from .engine import Unfit
from .journal import kept_lines
from .reader import PAUSE, TRIES, Reader
from .replies import BAD_LINE, Reply
from .shut import Closed, Held

if TYPE_CHECKING:
    from .table import Table

JOURNAL, IN_TABLE = "ld.journal", "in-table"
JOURNAL_STATUSES = {9: "the disk failed", 10: "its journal does not suit its units", 11: "its journal is full"}
NO_LINE = "[]"


class Log(Protocol):
    async def take(self) -> None:
        """Makes sure that the log is of this kind, and has it for this host alone."""

    async def lines(self) -> list[str]:
        """The kept lines in their order."""

    async def open(self, folders: Sequence[Path], hold: int) -> None:
        """Starts what answers lines, once the kept ones were read. It inherits the open file `hold`."""

    async def keep(self, line: str, kept: int) -> Reply | None:
        """Answers a line that follows so many kept ones. None where it is kept, but its reply was lost."""

    async def stop(self) -> None:
        """Ends what was started."""


MakeLog = Callable[[Path, Path], Log]
"""Makes the log of a shard, from the engine's program and the shard's folder."""


def ends_of_keepers(gone: Gone) -> str:
    return JOURNAL_STATUSES.get(gone.status, f"the keeper ended with status {gone.status}")


class FileLog:
    """The journal `ld.journal`, which the keeper writes, a process `ld keep`."""

    def __init__(self, program: Path, folder: Path):
        self.program, self.folder, self.journal = program, folder, folder / JOURNAL
        self.keeper: Child | None = None

    async def take(self) -> None:
        if (self.folder / IN_TABLE).exists():
            raise Closed("its lines are in a table of PostgreSQL (--log)")

    async def lines(self) -> list[str]:
        return kept_lines(self.journal)

    async def open(self, folders: Sequence[Path], hold: int) -> None:
        self.folders, self.hold = folders, hold
        await self.start_keeper()

    async def start_keeper(self) -> None:
        """Returns once a keeper has opened the journal: from then on all that is in it outlives a loss of power. One that
        is killed meanwhile is followed by another."""
        for number in range(TRIES):
            await asyncio.sleep(PAUSE * number)
            self.keeper = await Child.start(self.program, "keep", self.folders, self.folder, (self.hold,))
            try:
                reply = await self.keeper.ask(NO_LINE)
            except Gone as gone:
                if not gone.is_killed:
                    raise Closed(ends_of_keepers(gone)) from None
                continue
            if reply.head != BAD_LINE:
                raise Closed(f"the keeper begins with {reply.head!r}")
            return
        raise Closed("the keeper ends again and again")

    async def keep(self, line: str, kept: int) -> Reply | None:
        for number in range(TRIES):
            await asyncio.sleep(PAUSE * number)
            try:
                assert self.keeper
                return await self.keeper.ask(line)
            except Gone as gone:
                if gone.status in JOURNAL_STATUSES:
                    raise Closed(ends_of_keepers(gone)) from None
                lines = kept_lines(self.journal)
                await self.start_keeper()
                if len(lines) == kept + 1 and lines[-1] == line:
                    return None
                if len(lines) != kept:
                    raise Closed(f"its journal has {len(lines)} lines, and the host knows {kept}") from None
        raise Closed("the keeper ends again and again")

    async def stop(self) -> None:
        if self.keeper:
            await self.keeper.stop()


class TableLog:
    """Rows of a table of PostgreSQL. Another process `ld replay` answers lines in the keeper's place."""

    def __init__(self, table: "Table", program: Path, folder: Path):
        self.table, self.program, self.folder = table, program, folder
        self.reader: Reader | None = None

    async def take(self) -> None:
        if kept_lines(self.folder / JOURNAL):
            raise Closed(f"its lines are in the file {JOURNAL}, and not in the table (--log)")
        (self.folder / IN_TABLE).touch()
        if not await self.do(self.table.take):
            raise Held(self.folder.name)

    async def do(self, work: Callable[..., Any], *given: Any) -> Any:
        """Does in a thread what waits for the database."""
        try:
            return await asyncio.to_thread(work, *given)
        except self.table.FAILURES as failure:
            raise Closed(f"the database: {failure}".strip()) from None

    async def lines(self) -> list[str]:
        return list(await self.do(self.table.lines))

    async def open(self, folders: Sequence[Path], hold: int) -> None:
        self.reader = Reader(self.program, folders, self.folder, self.lines)
        await self.reader.start(await self.lines())

    async def keep(self, line: str, kept: int) -> Reply | None:
        assert self.reader
        reply = await self.reader.ask(line, kept)
        if reply.ok:
            await self.do(self.table.add, kept, line)
        return reply

    async def stop(self) -> None:
        if self.reader:
            await self.reader.stop()
        await asyncio.to_thread(self.table.release)


def maker_of(address: str | None) -> MakeLog:
    """What makes the logs of a host that is given this address, or none."""
    return FileLog if address is None else tables_at(address)


def tables_at(address: str) -> MakeLog:
    if not address.startswith(("postgresql://", "postgres://")):
        raise Unfit("--log takes an address postgresql://..")
    try:
        from .table import Table
    except ImportError:
        raise Unfit("--log needs the package python3-psycopg2") from None
    Table(address, "").prepare()
    return lambda program, folder: TableLog(Table(address, folder.name), program, folder)
