"""What all parts of an import share: identifiers, what they name, the report, and objects that know their line."""

import re
from dataclasses import dataclass, field
from typing import Any

from .manifest import Manifest, Resource
from .names import engine_id, shortened
from .report import Refused, Report
from .xmltree import Node

# The engine's limits (docs/FORMATS.md, "Limits"), counted while reading, so that nothing grows beyond them.
MOST = {
    "roles": 60,
    "properties": 300,
    "property groups": 100,
    "environments": 400,
    "learning objects and services": 1000,
    "items": 4000,
    "activities and structures": 400,
    "rules": 600,
    "leaves": 4000,
    "pages": 100,
    "fields in a page": 1000,
    "references in show and hide": 1_000_000,  # more don't fit into a document of the size that the engine takes
}
MOST_WHOLE = 1_000_000


@dataclass(frozen=True)
class Options:
    """`format` 2 has occurrences of roles and support for each person; `pages` takes properties in XHTML over."""

    format: int = 1
    pages: bool = False
    identifier: str | None = None


class JsonObject(dict[str, Any]):
    """An object of a document, and the element that it comes from. Members without a value are left out."""

    def __init__(self, node: Node, **members: Any) -> None:
        super().__init__()
        self.node = node
        for name, value in members.items():
            if value is not None and value != []:
                self[name.replace("_", "-")] = value


@dataclass
class Named:
    """What an identifier of the package names."""

    kind: str
    id: str
    node: Node
    obj: JsonObject
    datatype: str = ""  # of a property
    personal: bool = False  # of a property: each person has one
    covers: list[str] = field(default_factory=list)  # what is shown and hidden with it


@dataclass
class Shown:
    """An item that is carried, and the activity or environment that shows it, if one does."""

    resource: Resource
    item: JsonObject
    at: tuple[str, str] | None


class Context:
    def __init__(self, report: Report, manifest: Manifest, options: Options) -> None:
        self.report, self.manifest, self.options = report, manifest, options
        self.named: dict[str, Named] = {}
        self.left_out: dict[str, str] = {}  # why what had the identifier is not there
        self.classes: dict[str, list[str]] = {}
        self.shown: list[Shown] = []
        self.renamed: dict[str, str] = {}
        self.services: dict[str, Any] = {}
        self.page_files: dict[str, dict[str, str]] = {}
        self._counts: dict[str, int] = {}
        self._numbers: dict[str, int] = {}
        self._taken: set[str] = set()
        self._wanted = {engine_id(raw) for node in manifest.design.walk() if (raw := node.raw_id())}

    def count(self, what: str, node: Node, more: int = 1) -> None:
        """Counts so many more; a package beyond a limit is refused where it goes beyond."""
        self._counts[what] = self._counts.get(what, 0) + more
        self.fits(what, node, self._counts[what])

    def fits(self, what: str, node: Node, number: int) -> None:
        """Refuses what alone is beyond a limit."""
        if number > MOST[what]:
            raise Refused("too-many", f"a unit has at most {MOST[what]} {what}", node.file, node.line)

    # Entries of the report.

    def lost(self, node: Node, code: str, text: str) -> None:
        self.report.at(node, "lost", code, text)

    def changed(self, node: Node, code: str, text: str) -> None:
        self.report.at(node, "changed", code, text)

    def note(self, node: Node, code: str, text: str) -> None:
        self.report.at(node, "note", code, text)

    def leave_out(self, node: Node, code: str, text: str) -> None:
        """Tells that an element is lost with all that stands in it."""
        self.lost(node, code, text)
        node.settle()

    # Identifiers.

    def fresh(self, wanted: str) -> str:
        """An identifier that nothing has and that no element of the package asks for."""
        name, number = engine_id(wanted), self._numbers.get(wanted, 1)
        while name in self._taken or name in self._wanted:
            number += 1
            name = engine_id(f"{wanted}.{number}")
        self._numbers[wanted] = number
        self._taken.add(name)
        return name

    def name(self, node: Node, otherwise: str) -> str:
        """The identifier of an element; one that has none gets the other name."""
        raw = node.get("identifier")
        if raw is None:
            return self.fresh(otherwise)
        name = engine_id(raw)
        if name in self._taken:
            name = self.fresh(raw + ".2")
            self.changed(node, "repeated-identifier", f"the identifier stands twice; here it becomes '{name}'")
            return name
        self._taken.add(name)
        if name != raw:
            self.renamed[raw] = name
            self.note(node, "renamed", f"the identifier becomes '{name}'")
        return name

    def declare(self, named: Named) -> Named:
        """From now on the element's identifier names this."""
        named.covers = named.covers or [named.id]
        raw = named.node.raw_id()
        if raw:
            self.named.setdefault(raw, named)
        return named

    def declare_unit(self, name: str) -> None:
        design = self.manifest.design
        self.declare(Named("unit", name, design, JsonObject(design, identifier=name)))

    def remove(self, node: Node, why: str) -> None:
        """What the element's identifier names is not there; what refers to it tells why."""
        raw = node.raw_id()
        self.left_out[raw] = why
        named = self.named.get(raw)
        if named is not None and named.node is node:
            del self.named[raw]

    def find(self, raw: str | None, kinds: tuple[str, ...]) -> Named | str:
        """What the identifier names, of one of these kinds, or why there is none."""
        named = self.named.get(raw or "")
        if named is None:
            why = self.left_out.get(raw or "")
            return f"'{raw or ''}' is left out: {why}" if why else f"nothing is named '{raw or ''}'"
        return named if named.kind in kinds else f"'{raw}' is of the kind {named.kind}"

    def refer(self, node: Node, kinds: tuple[str, ...], consequence: str) -> Named | None:
        """What the `ref` of an element names; where it names nothing fitting, that is told."""
        named = self.find(node.get("ref"), kinds)
        if isinstance(named, Named):
            return named
        self.lost(node, "reference", f"{named}; {consequence}")
        return None

    # Members that many elements have.

    def title(self, node: Node) -> str | None:
        element = node.one("title")
        if element is None:
            return None
        words = element.words()
        short = shortened(words)
        if short != words:
            self.changed(element, "title-cut", f"a title has at most 256 bytes, and this one has {len(words.encode())}")
        return short or None

    def visible(self, node: Node) -> bool | None:
        """False where the element is hidden at first, else None."""
        word = node.word("isvisible", "true")
        if word not in ("true", "false", "1", "0"):
            self.changed(node, "isvisible", f"'{word}' is neither true nor false; it is visible")
        return False if word in ("false", "0") else None

    def whole(self, node: Node, name: str) -> int | None:
        """An attribute that is a whole number of at most a million."""
        text = node.get(name)
        if text is None:
            return None
        if not re.fullmatch(r"\+?\d{1,100}", text, re.ASCII):
            self.lost(node, "number", f"{name} '{shortened(text)}' is no whole number")
            return None
        if int(text) > MOST_WHOLE:
            self.changed(node, "number", f"{name} {text} becomes {MOST_WHOLE}")
        return min(int(text), MOST_WHOLE)

    def no_parameters(self, node: Node) -> None:
        if node.get("parameters"):
            self.lost(node, "parameters", "parameters are carried for items alone")

    def no_metadata(self, node: Node) -> None:
        for metadata in node.all("metadata"):
            metadata.settle()
            self.note(metadata, "metadata", "metadata is not carried")
