"""Uploaded courses that are not published yet. An author looks at what is said of one, and then publishes it or not."""

import asyncio
import shutil
import tempfile
from dataclasses import dataclass, field
from pathlib import Path
from secrets import token_hex

from .packages import Importer
from .reports import Report, report_of
from .uploads import Archive

MOST = 10


@dataclass
class Draft:
    """A course folder of an author, and what its import told, if it came as a package."""

    author: str
    place: Path
    report: Report | None = None
    name: str = field(default_factory=lambda: token_hex(8))

    @property
    def folder(self) -> Path:
        return self.place / "course"

    def end(self) -> None:
        shutil.rmtree(self.place, ignore_errors=True)


class Drafts:
    """An author has one draft at most. The oldest one ends where there are too many. None is there after a new start."""

    def __init__(self, folder: Path, importer: Importer):
        self.folder, self.importer = folder, importer
        self.waiting: dict[str, Draft] = {}
        shutil.rmtree(folder, ignore_errors=True)
        folder.mkdir(parents=True)

    async def make(self, author: str, raw: bytes) -> Draft:
        """Makes a draft of an archive: of a package by the importer, of a course's documents by unpacking them."""
        draft = Draft(author, Path(tempfile.mkdtemp(dir=self.folder)))
        try:
            archive = await asyncio.to_thread(Archive, raw)
            if archive.is_package:
                package = draft.place / "package.zip"
                await asyncio.to_thread(package.write_bytes, raw)
                entries = await self.importer.bring(package, draft.folder)
                draft.report = await asyncio.to_thread(report_of, entries, archive.text)
            else:
                await asyncio.to_thread(archive.unpack_or_refuse, draft.folder)
        except BaseException:
            draft.end()
            raise
        return draft

    def keep(self, draft: Draft) -> None:
        """Lets the draft wait for its author's word."""
        for other in list(self.waiting.values()):
            if other.author == draft.author or len(self.waiting) >= MOST:
                self.waiting.pop(other.name).end()
        self.waiting[draft.name] = draft

    def has(self, draft: Draft) -> bool:
        return draft.name in self.waiting

    def take(self, author: str, name: str) -> Draft | None:
        """The author's draft of this name, which waits no more."""
        draft = self.waiting.get(name)
        if draft is None or draft.author != author:
            return None
        return self.waiting.pop(name)
