"""The engine's reply blocks, read into plain values (docs/COMMANDS.md and docs/FORMATS.md)."""

import json
import re
from dataclasses import dataclass, field
from typing import Any

BLOCK = re.compile(r"ok (?:tree|outbox|report|page) .* lines=(\d+)")
WORK = re.compile(r"turns=(\d+) fired=(\d+) rejected=(\d+) sent=(\d+)")
VALUE = re.compile(r" (?:value|at)=(.*)$")
WITH_STATE = {"unit", "play", "act", "part", "activity", "support", "structure"}
BAD_LINE, NO_MEMORY = "no 1 bad-line", "no 99 no-memory"


@dataclass
class Refusal:
    number: int
    word: str
    more: list[str]


@dataclass
class Reply:
    head: str
    lines: list[str] = field(default_factory=list)

    @property
    def ok(self) -> bool:
        return self.head.startswith("ok ")

    @property
    def work(self) -> tuple[int, int, int, int]:
        """Turns, firings, rejected changes and notices sent."""
        found = WORK.search(self.head)
        turns, fired, rejected, sent = map(int, found.groups()) if found else (0, 0, 0, 0)
        return turns, fired, rejected, sent

    @property
    def refusal(self) -> Refusal:
        _, number, word, *more = self.head.split(" ")
        return Refusal(int(number), word, more)

    @property
    def value(self) -> str | None:
        """The value of `get`, `global-get` or `next`; None where there is none."""
        if self.head.startswith("ok global-get "):
            text = self.head.removeprefix("ok global-get ")
        else:
            found = VALUE.search(self.head)
            text = found.group(1) if found else "none"
        return None if text == "none" else str(json.loads(text)) if text.startswith('"') else text

    @property
    def text(self) -> str:
        return "\n".join([self.head, *self.lines])


def lines_after(head: str) -> int:
    """How many lines follow the first line of a block."""
    found = BLOCK.fullmatch(head)
    return int(found.group(1)) if found else 0


def tree(lines: list[str]) -> dict[str, Any]:
    """The nested nodes of a tree; the root is the unit."""
    path: list[dict[str, Any]] = []
    for line in lines:
        bare = line.lstrip(" ")
        node = node_of(bare)
        del path[(len(line) - len(bare)) // 2 :]
        if path:
            path[-1]["children"].append(node)
        path.append(node)
    return path[0]


def node_of(line: str) -> dict[str, Any]:
    kind, name, *more = line.split(" ", 2)
    rest = more[0] if more else ""
    node: dict[str, Any] = {"kind": kind, "id": name, "title": None, "children": []}
    third = {"item": "href", "service": "service"}.get(kind, "state" if kind in WITH_STATE else None)
    if third:
        node[third], _, rest = rest.partition(" ")
    if rest:
        node["title"] = json.loads(rest)
    return node


def outbox(lines: list[str]) -> list[dict[str, Any]]:
    """The notices to a person, the oldest first."""
    notices = []
    for line in lines:
        _, number, moment, activity, subject = line.split(" ", 4)
        about = None if activity == "-" else activity
        notices.append({"number": int(number), "moment": moment, "activity": about, "subject": json.loads(subject)})
    return notices


def report(lines: list[str]) -> dict[str, Any]:
    """The state of a run, with acts within their plays and parts within their acts."""
    out: dict[str, Any] = {"roles": [], "plays": []}
    for line in lines:
        kind, name, *more = line.split(" ")
        if kind == "started":
            out["started"] = name
        elif kind == "notices":
            out["notices"] = int(name)
        elif kind == "role":
            out["roles"].append({"id": name, "members": int(more[0].removeprefix("members="))})
        elif kind == "unit":
            out["unit"] = {"id": name, "state": more[0]}
        elif kind == "play":
            out["plays"].append({"id": name, "state": more[0], "acts": []})
        elif kind == "act":
            opened = more[1] if len(more) > 1 else None
            out["plays"][-1]["acts"].append({"id": name, "state": more[0], "opened": opened, "parts": []})
        elif kind == "part":
            out["plays"][-1]["acts"][-1]["parts"].append({"id": name, "state": more[0]})
    return out


def page(lines: list[str]) -> list[dict[str, Any]]:
    """The fields of a form: `view` or `set`, the property, and its value or None."""
    fields = []
    for line in lines[1:]:
        way, name, value = line.strip(" ").split(" ", 2)
        fields.append({"way": way, "property": name, "value": None if value == "none" else json.loads(value)})
    return fields
