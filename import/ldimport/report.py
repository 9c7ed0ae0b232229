"""What an import reports: entries with a place in the package, a kind, a code and a sentence."""

import json
from dataclasses import dataclass
from typing import TYPE_CHECKING, Any

from .names import shortened

if TYPE_CHECKING:
    from .xmltree import Node

# `lost` and `changed` are losses: something with an effect in a run is not there, or has another effect.
# `note` is said of what is there in another form, and of what has no effect in a run.
KINDS = ("refused", "lost", "changed", "note")


def printable(text: str, most: int = 500) -> str:
    """The text on one line of the report: a package may hold line feeds, and texts of millions of characters."""
    return "".join(char if char.isprintable() else "\ufffd" for char in shortened(text, most))


@dataclass(frozen=True)
class Entry:
    file: str
    line: int
    kind: str
    code: str
    element: str
    identifier: str
    text: str

    def __post_init__(self) -> None:
        for name in ("file", "element", "identifier", "text"):
            object.__setattr__(self, name, printable(getattr(self, name)))

    def __str__(self) -> str:
        place = f"{self.file}:{self.line}: " if self.line else f"{self.file}: " if self.file else ""
        element = f" {self.element}" if self.element else ""
        identifier = f" '{self.identifier}'" if self.identifier else ""
        return f"{place}{self.kind} {self.code}{element}{identifier}: {self.text}"


class Refused(Exception):
    """The package as a whole can't be imported."""

    def __init__(self, code: str, text: str, file: str = "", line: int = 0) -> None:
        super().__init__(text)
        self.entry = Entry(file, line, "refused", code, "", "", text)


class Report:
    def __init__(self) -> None:
        self.entries: list[Entry] = []
        self._seen: set[Entry] = set()

    def add(self, entry: Entry) -> None:
        """Adds an entry; one that is there already is not repeated."""
        if entry not in self._seen:
            self._seen.add(entry)
            self.entries.append(entry)

    def at(self, node: "Node", kind: str, code: str, text: str, identifier: str | None = None) -> None:
        """Adds an entry about an element."""
        name = node.name() if identifier is None else identifier
        self.add(Entry(node.file, node.line, kind, code, node.tag, name, text))

    def plain(self, kind: str, code: str, text: str, file: str = "", line: int = 0, identifier: str = "") -> None:
        """Adds an entry about a file, or about the package."""
        self.add(Entry(file, line, kind, code, "", identifier, text))

    def count(self, kind: str) -> int:
        return sum(entry.kind == kind for entry in self.entries)

    def is_whole(self) -> bool:
        return not (self.count("lost") or self.count("changed"))

    def is_refused(self) -> bool:
        return self.count("refused") > 0

    def in_order(self) -> list[Entry]:
        return sorted(self.entries, key=lambda entry: (entry.file, entry.line, KINDS.index(entry.kind)))

    def as_json(self) -> list[dict[str, Any]]:
        return [dict(vars(entry)) for entry in self.in_order()]

    def __str__(self) -> str:
        """The entries, a line each."""
        return "".join(f"{entry}\n" for entry in self.in_order())

    def summary(self, done: str) -> str:
        """The last line: what was done, and how many entries there are of each kind."""
        counts = f"lost={self.count('lost')} changed={self.count('changed')} notes={self.count('note')}"
        return f"{'refused' if self.is_refused() else done} {counts}"


def print_json(value: Any) -> str:
    return json.dumps(value, ensure_ascii=False, indent=2) + "\n"
