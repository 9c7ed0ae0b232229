"""Identifiers and titles in the engine's form."""

import hashlib
import re
import unicodedata

FORM = re.compile(r"[A-Za-z_][A-Za-z0-9_.-]{0,63}", re.ASCII)
READABLE = 53
LONGEST_TITLE = 256


def engine_id(raw: str) -> str:
    """The identifier itself where it has the engine's form.

    Any other becomes a readable part of it and a digest of the whole: `Übung` becomes `Ubung-` and ten digits. So it
    is the same in every edition of the package, and two different ones stay different.
    """
    if FORM.fullmatch(raw):
        return raw
    plain = unicodedata.normalize("NFKD", raw).encode("ascii", "ignore").decode()
    plain = re.sub(r"[^A-Za-z0-9_.-]", "_", plain)[:READABLE]
    if not plain or not (plain[0].isalpha() or plain[0] == "_"):
        plain = "_" + plain
    return f"{plain[:READABLE]}-{hashlib.sha256(raw.encode()).hexdigest()[:10]}"


def shortened(text: str, most: int = LONGEST_TITLE) -> str:
    """The text, or its beginning and an ellipsis within so many bytes."""
    raw = text.encode()
    if len(raw) <= most:
        return text
    return raw[: most - 3].decode(errors="ignore").rstrip() + "…"
