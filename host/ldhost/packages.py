"""Packages of IMS Learning Design: the importer in ../import makes course folders of them, in a process of its own."""

import asyncio
import json
import logging
import os
import signal
import sys
from dataclasses import dataclass
from pathlib import Path

from .engine import Engine
from .uploads import Refused

IMPORTER = Path(__file__).resolve().parents[2] / "import"
SECONDS, MEMORY, AT_A_TIME = 60, 1 << 30, 2
IMPORTED, WITH_LOSSES, REFUSED = 0, 1, 3
log = logging.getLogger("ldhost")


@dataclass(frozen=True)
class Entry:
    """What an import tells of one thing: `lost`, `changed`, a `note`, or why all is `refused`."""

    file: str
    line: int
    """The line of the file; 0 where it is about no line."""
    kind: str
    code: str
    element: str
    identifier: str
    text: str


class Importer:
    """Bounded in time, in memory and in how many packages there are at a time."""

    def __init__(self, engine: Engine, folder: Path = IMPORTER, seconds: float = SECONDS):
        self.engine, self.folder, self.seconds = engine, folder, seconds
        self.turns = asyncio.Semaphore(AT_A_TIME)

    async def bring(self, package: Path, target: Path) -> list[Entry]:
        """Makes the course folder, and gives what is told of it. Where an entry is `refused`, no folder is made."""
        if not (self.folder / "ldimport").is_dir():
            raise Refused("this is a package of IMS Learning Design, and the importer is not installed here")
        report = package.with_name("report.json")
        async with self.turns:
            status = await self.run(self.words(package, target, report))
        if status not in (IMPORTED, WITH_LOSSES, REFUSED) or not report.exists():
            raise Refused(f"the package could not be imported: the importer ended with status {status}")
        return [Entry(**entry) for entry in json.loads(report.read_bytes())]

    def words(self, package: Path, target: Path, report: Path) -> list[str]:
        bounds = ["prlimit", f"--as={MEMORY}", f"--cpu={SECONDS}"]
        words = [sys.executable, "-B", "-m", "ldimport", str(package), str(target)]
        options = ["--engine", str(self.engine.program), "--report", str(report)]
        return bounds + words + options + ["--pages"] * self.engine.has_pages

    async def run(self, words: list[str]) -> int:
        """The status of the importer, which is ended with all that it started when its time is over."""
        nothing, pipe = asyncio.subprocess.DEVNULL, asyncio.subprocess.PIPE
        process = await asyncio.create_subprocess_exec(
            *words, cwd=self.folder, stdin=nothing, stdout=nothing, stderr=pipe, start_new_session=True
        )
        try:
            _, said = await asyncio.wait_for(process.communicate(), self.seconds)
        except asyncio.TimeoutError:
            os.killpg(process.pid, signal.SIGKILL)
            await process.wait()
            raise Refused(f"the import took more than {self.seconds:g} seconds") from None
        if said:
            log.error("importer: %s", said.decode(errors="replace")[-2000:])
        assert process.returncode is not None
        return process.returncode
