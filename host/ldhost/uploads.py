"""Courses as zip archives: few and small files that all stay within one folder."""

import io
import re
import shutil
import zipfile
import zlib
from pathlib import Path

from .course import DOCUMENTS

MOST_BYTES, MOST_FILES = 64 << 20, 2000
MOST_SHOWN = 4 << 20
ENTRY = b"PK\x01\x02"
LINK = 0xA
BAD_NAME = re.compile(r"[\\:\x00-\x1f]")
BROKEN = (zipfile.BadZipFile, zlib.error, OSError, RuntimeError, NotImplementedError, EOFError, ValueError)
MANIFEST = "imsmanifest.xml"
"""What makes an archive a package of IMS Learning Design."""


class Refused(Exception):
    """A course was not taken; says why."""


class Archive:
    """An uploaded archive. No file in it is longer than its entry says, so the sizes of the entries bound it."""

    def __init__(self, raw: bytes):
        self.raw = raw
        self.zip = opened(raw)
        self.entries = [entry for entry in self.zip.infolist() if not entry.filename.endswith("/")]
        if sum(entry.file_size for entry in self.entries) > MOST_BYTES:
            raise Refused("the archive holds too much")
        names = {entry.filename for entry in self.entries}
        tops = {name.split("/")[0] for name in names}
        self.around = f"{min(tops)}/" if len(tops) == 1 and not tops & {*DOCUMENTS, MANIFEST} else ""
        """The folder that stands around all files, which is left out."""
        self.is_package = self.around + MANIFEST in names

    def unpack(self, target: Path) -> None:
        """Writes the files below the folder."""
        for entry in self.entries:
            path = target.joinpath(*parts_of(entry)[self.around.count("/") :])
            path.parent.mkdir(parents=True, exist_ok=True)
            with self.zip.open(entry) as source, open(path, "wb") as out:
                shutil.copyfileobj(source, out)

    def unpack_or_refuse(self, target: Path) -> None:
        """Unpacks; whatever is wrong within the archive is a refusal."""
        try:
            self.unpack(target)
        except BROKEN as error:
            raise Refused(f"the archive can't be read: {error}") from None

    def text(self, name: str) -> str | None:
        """The text of a file, for showing it. None where it is not there, too long to show, or can't be read."""
        try:
            entry = self.zip.getinfo(self.around + name)
            raw = self.zip.read(entry) if entry.file_size <= MOST_SHOWN else None
        except (KeyError, *BROKEN):
            return None
        return None if raw is None else raw.decode(encoding_of(raw), "replace")


def opened(raw: bytes) -> zipfile.ZipFile:
    if raw.count(ENTRY) > MOST_FILES:
        raise Refused("the archive holds too many files")
    try:
        return zipfile.ZipFile(io.BytesIO(raw))
    except (zipfile.BadZipFile, ValueError, NotImplementedError):
        raise Refused("this is no zip archive") from None


def parts_of(entry: zipfile.ZipInfo) -> list[str]:
    parts = entry.filename.split("/")
    if any(part in ("", ".", "..") or BAD_NAME.search(part) for part in parts):
        raise Refused(f"a file name leads out of the folder: {entry.filename!r}")
    if entry.external_attr >> 28 == LINK:
        raise Refused("the archive holds a link")
    if entry.compress_type not in (zipfile.ZIP_STORED, zipfile.ZIP_DEFLATED):
        raise Refused("the archive is packed in a way that takes too much memory to unpack; pack it as usual")
    return parts


def encoding_of(raw: bytes) -> str:
    """How an XML document is written, as far as its first bytes tell."""
    return "utf-16" if raw[:2] in (b"\xff\xfe", b"\xfe\xff") else "utf-8-sig"
