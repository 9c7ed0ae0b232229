"""A content package: a zip archive or a folder, with names that stay within it and within bounds."""

import os
import re
import stat
import struct
import unicodedata
import zipfile
import zlib
from collections.abc import Callable, Iterator
from functools import partial
from pathlib import Path
from typing import IO

from .report import Refused

MANIFEST = "imsmanifest.xml"
MOST_FILES = 10_000
MOST_BYTES = 1 << 30  # of all files that are taken out
MOST_FILE = 256 << 20  # of one file
MOST_DOCUMENT = 32 << 20  # of a document that is parsed
MOST_DIRECTORY = 16 << 20  # of the directory of an archive, which is read at once
PIECE = 1 << 16

NO_NAME = re.compile('[\x00-\x1f\x7f:<>"|?*\ud800-\udfff]')

Opener = Callable[[], IO[bytes]]


def safe_name(name: str) -> str | None:
    """The name with `/` between its parts, or None where it leads out of the package or can't be a file's."""
    name = name.replace("\\", "/")
    if not name or len(name.encode("utf-8", "surrogatepass")) > 1024:
        return None
    for part in name.split("/"):
        if part in ("", ".", "..") or len(part.encode("utf-8", "surrogatepass")) > 255 or part[-1] in " .":
            return None
        if NO_NAME.search(part):
            return None
    return name


def fold(name: str) -> str:
    """Names that some file system takes for the same have the same folded one."""
    return unicodedata.normalize("NFC", name).casefold()


class Package:
    """`openers` has, for each file's name, what opens the file."""

    def __init__(self, path: Path, zip_names: str | None = None) -> None:
        self.path, self.left = path, MOST_BYTES
        self.openers: dict[str, Opener] = {}
        self.folded: dict[str, str] = {}
        if path.is_dir():
            self.list_folder()
        elif path.is_file():
            self.list_archive(zip_names)
        else:
            raise Refused("no-package", f"there is no file or folder {path}")
        self.find_manifest()

    def add(self, name: str, opener: Opener) -> None:
        if len(self.openers) >= MOST_FILES:
            raise Refused("package-too-large", f"more than {MOST_FILES} files")
        other = self.folded.setdefault(fold(name), name)
        if other != name or name in self.openers:
            raise Refused("package-names", f"two files are named alike: {other} and {name}")
        self.openers[name] = opener

    def list_folder(self) -> None:
        for folder, folders, files in os.walk(self.path, followlinks=False):
            folders.sort()
            for entry in sorted(files) + folders:
                path = Path(folder, entry)
                name = path.relative_to(self.path).as_posix()
                if path.is_symlink():
                    raise Refused("package-link", f"{name} is a link")
                if path.is_dir():
                    continue
                if not stat.S_ISREG(path.stat().st_mode) or safe_name(name) is None:
                    raise Refused("package-names", f"{name!r} is no file that can be taken over")
                self.add(name, partial(open_file, path))

    def list_archive(self, zip_names: str | None) -> None:
        check_directory(self.path)
        try:
            archive = zipfile.ZipFile(self.path, metadata_encoding=zip_names)
        except (zipfile.BadZipFile, OSError, ValueError, LookupError, NotImplementedError) as fault:
            raise Refused("no-package", f"this is no zip archive: {fault}") from None
        for entry in archive.infolist():
            if entry.filename.endswith(("/", "\\")):
                continue
            name = safe_name(entry.filename)
            if name is None:
                raise Refused("package-names", f"{entry.filename!r} leads out of the package or is no name of a file")
            if stat.S_ISLNK(entry.external_attr >> 16):
                raise Refused("package-link", f"{name} is a link")
            if entry.compress_type not in (zipfile.ZIP_STORED, zipfile.ZIP_DEFLATED):
                raise Refused("package-compression", f"{name} is neither stored nor deflated")
            if entry.flag_bits & 1:
                raise Refused("package-locked", f"{name} is encrypted")
            self.add(name, partial(open_entry, archive, entry))

    def find_manifest(self) -> None:
        """The manifest stands at the top; where all files stand in one folder, at the top of that."""
        if MANIFEST in self.openers:
            return
        tops = {name.partition("/")[0] for name in self.openers}
        top = next(iter(tops)) if len(tops) == 1 else None
        if top is None or f"{top}/{MANIFEST}" not in self.openers:
            raise Refused("no-manifest", f"the package has no {MANIFEST} at its top")
        self.openers = {name[len(top) + 1 :]: opener for name, opener in self.openers.items()}
        self.folded = {fold(name): name for name in self.openers}

    def pieces(self, name: str, most: int) -> Iterator[bytes]:
        """The file's bytes, counted as they come: what the archive says of sizes is not believed."""
        size = 0
        try:
            with self.openers[name]() as file:
                while piece := file.read(PIECE):
                    size += len(piece)
                    self.left -= len(piece)
                    if size > most:
                        raise Refused("package-too-large", f"{name} has too many bytes")
                    if self.left < 0:
                        raise Refused("package-too-large", f"the files have more than {MOST_BYTES} bytes")
                    yield piece
        except (zipfile.BadZipFile, zlib.error, NotImplementedError, EOFError, RuntimeError) as fault:
            raise Refused("package-broken", f"{name} can't be read: {fault}") from None

    def read(self, name: str) -> bytes:
        return b"".join(self.pieces(name, MOST_DOCUMENT))

    def copy(self, name: str, target: Path) -> None:
        target.parent.mkdir(parents=True, exist_ok=True)
        with open(target, "xb") as file:
            for piece in self.pieces(name, MOST_FILE):
                file.write(piece)


def open_file(path: Path) -> IO[bytes]:
    return open(path, "rb")


def open_entry(archive: zipfile.ZipFile, entry: zipfile.ZipInfo) -> IO[bytes]:
    """Opens a file of an archive; one that is said to begin before the archive does is broken."""
    if entry.header_offset < 0:
        raise zipfile.BadZipFile("it begins before the archive")
    return archive.open(entry)


def check_directory(path: Path) -> None:
    """Refuses an archive whose directory is large, before `zipfile` makes an object of each entry."""
    with open(path, "rb") as file:
        size = file.seek(0, os.SEEK_END)
        file.seek(max(0, size - (1 << 16) - 64))
        tail = file.read()
    end = tail.rfind(b"PK\5\6")
    if end < 0 or end + 22 > len(tail):
        raise Refused("no-package", "this is no zip archive")
    count, length = struct.unpack_from("<HL", tail, end + 10)
    has_locator = tail[max(0, end - 20) : end].startswith(b"PK\6\7")  # of a directory with 64-bit numbers
    if count > MOST_FILES or length > MOST_DIRECTORY or has_locator:
        raise Refused("package-too-large", f"the archive's directory is too large: at most {MOST_FILES} files")
