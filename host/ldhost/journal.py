"""What a journal `ld.journal` keeps (docs/JOURNAL.md), and delivery keys in its lines.

A delivery key lets a client send a command again without its being done again. A command line has no place for a key,
so it stands behind the line's JSON as white space, which means nothing to the engine and which the journal keeps.
"""

import hashlib
from pathlib import Path

LONGEST = 65536
BITS = 96


def kept_lines(path: Path) -> list[str]:
    """The lines that the file keeps. A file that is not there keeps none."""
    data = path.read_bytes() if path.exists() else b""
    at, lines = 0, []
    while at + 5 < len(data) and data[at] == 1:
        size = int.from_bytes(data[at + 1 : at + 5], "big")
        end = at + 5 + size
        if not 1 <= size <= LONGEST or end >= len(data):
            break
        lines.append(data[at + 5 : end].decode())
        at = end
    return lines


def mark(key: str | None) -> str:
    """The white space that stands for a key: a space or a tab for each of 96 bits of its hash."""
    if key is None:
        return ""
    bits = int.from_bytes(hashlib.sha256(key.encode()).digest()[: BITS // 8], "big")
    return "".join("\t" if bits >> place & 1 else " " for place in range(BITS))


def mark_of(line: str) -> str:
    """The white space behind a line; empty where the line was sent without a key."""
    return line[len(line.rstrip(" \t")) :]
