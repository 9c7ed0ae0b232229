"""The files of a course, and where its items lead. Files stand below `content/`; nothing else of a course is sent."""

import re
from pathlib import Path
from urllib.parse import unquote

from .course import CONTENT, Course

SCHEME = re.compile(r"[A-Za-z][A-Za-z0-9+.-]*:")
SAFE_SCHEMES = {"http:", "https:", "mailto:"}


def file_at(folder: Path, path: str) -> Path | None:
    """The file at a path of the course folder. None where that is not below `content/`, or no file."""
    try:
        target = (folder / path).resolve()
        is_file = target.is_file()
    except (OSError, ValueError):
        return None
    return target if is_file and target.is_relative_to((folder / CONTENT).resolve()) else None


def file_of(folder: Path, href: str) -> Path | None:
    """The file of an item's address."""
    return file_at(folder, unquote(re.split("[?#]", href)[0]))


def is_within(href: str) -> bool:
    """Whether the reference is to a file of the course."""
    return not SCHEME.match(href) and not href.startswith(("/", "\\"))


def link(course: Course, href: str, files: str) -> str | None:
    """Where an item leads: web addresses as they are, files of the course below `files`, all else nowhere."""
    if is_within(href):
        return files + href if file_of(course.folder, href) else None
    scheme = SCHEME.match(href)
    return href if scheme and scheme.group(0).lower() in SAFE_SCHEMES else None


def missing_files(course: Course) -> list[str]:
    """The references to files that the course does not have."""
    return sorted({href for href in course.hrefs if is_within(href) and not file_of(course.folder, href)})
