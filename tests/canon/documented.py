"""What docs/FORMATS.md, "Documents", lists: the objects, their members, and the words and defaults of these."""

import re
from dataclasses import dataclass, field

from canonical import TOP
from forms import COMPLETE, completes

NAME = r"`([^`]+)`"
# The members at the beginning of a part of a row, as in "`title`?" or "`minLength`?, `maxLength`?: whole".
MEMBERS = re.compile(rf"{NAME}\??(?:, {NAME}\??)*")
# The words that a member may be, as in "`learner` or `staff`".
WORDS = re.compile(rf":? ?((?:{NAME}(?:, | or )?)+)")
DEFAULT = re.compile(r"\(`?([a-z0-9- ]+)`?\)")


@dataclass
class Listed:
    """The members of each object, the words of a member, and which have a default."""

    members: dict[str, list[str]] = field(default_factory=dict)
    words: dict[tuple[str, str], list[str]] = field(default_factory=dict)
    defaults: dict[tuple[str, str], str] = field(default_factory=dict)


def chapter() -> str:
    """The section "Documents", without what it says of faults."""
    text = (TOP / "docs" / "FORMATS.md").read_text()
    return text.partition("\n## Documents\n")[2].partition("\n### Faults of shape\n")[0]


def rows(text: str) -> list[list[str]]:
    """The cells of each row of a table, without its head."""
    lines = [line for line in text.splitlines() if line.startswith("|")]
    return [[cell.strip() for cell in line.strip("|").split("|")] for line in lines[2:]]


def add_member(listed: Listed, name: str, part: str) -> None:
    """Takes the members at the beginning of a part of a row, and what is said of them."""
    found = MEMBERS.match(part)
    if found is None:
        return
    rest = part[found.end() :]
    for member in re.findall(NAME, found[0]):
        listed.members.setdefault(name, []).append(member)
        words = WORDS.match(rest)
        if words is not None:
            listed.words[name, member] = re.findall(NAME, words[1])
        default = DEFAULT.search(rest)
        if default is not None and default[1] != "no limit":
            listed.defaults[name, member] = default[1]


def add_inner(listed: Listed, member: str, said: str) -> None:
    """Takes the members of an object that is listed in the row of the member that holds it."""
    if said.startswith("object of ") and member not in listed.members:
        for part in said.removeprefix("object of ").split(";"):
            add_member(listed, member, part.strip())


def add_sole(listed: Listed, name: str, table: str) -> None:
    """Takes a table of an Action, a Test or a Term: names of members, and what each holds."""
    for names, said in rows(table):
        for member in re.findall(NAME, names):
            listed.members.setdefault(name, []).append(member)
            add_inner(listed, member, said)


def add_completes(listed: Listed, table: str) -> None:
    """Takes the table of what completes each owner."""
    for owners, said in rows(table):
        name, _, rest = said.partition(": ")
        member = name.strip("`")
        for owner in owners.split(", "):
            listed.members.setdefault(completes(owner), []).append(member)
        add_inner(listed, member, rest)


def listed_in_document() -> Listed:
    """Everything that the section lists."""
    listed = Listed()
    objects, _, others = chapter().partition("\n### Objects of exactly one member\n")
    for name, parts in rows(objects):
        for part in parts.split(";"):
            add_member(listed, name.strip("`"), part.strip())
    for table in re.split(r"\n(?=\S*(?:An? )?\*\*)", others):
        head = re.search(r"\*\*`?(\w+)`?\*\*", table)
        if head is not None and head[1] == COMPLETE:
            add_completes(listed, table)
        elif head is not None:
            add_sole(listed, head[1], table)
    return listed
