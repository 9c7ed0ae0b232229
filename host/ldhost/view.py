"""What a person's page of a run holds."""

import hashlib
from dataclasses import dataclass, field
from typing import Any, Protocol, Sequence

from . import replies
from .files import link
from .replies import Reply
from .run import Run


class Source(Protocol):
    """A run's shard, or a preview."""

    async def look_all(self, looks: Sequence[Sequence[str]]) -> list[Reply]:
        """Answers several looks of one state."""


@dataclass
class View:
    run: Run
    person: str
    files: str
    root: dict[str, Any] | None = None
    notices: list[dict[str, Any]] = field(default_factory=list)
    forms: dict[str, list[tuple[dict[str, Any], list[dict[str, Any]]]]] = field(default_factory=dict)
    """For each activity its forms, each with its fields."""
    role_fields: list[tuple[str, str | None]] = field(default_factory=list)
    """Properties of the roles that a member of staff holds, with their values."""
    report: dict[str, Any] | None = None
    refused: str | None = None
    version: str = ""

    def link(self, href: str) -> str | None:
        return link(self.run.course, href, self.files)


async def view_of(source: Source, run: Run, person: str, files: str) -> View:
    """Asks for all that the page shows at once, and sums it up in a version that changes when any of it does."""
    looks = looks_for(run, person)
    answers = list(zip(looks, await source.look_all(looks)))
    view = View(run, person, files)
    seen = [answer.text for _, answer in answers] + [str(run.started), str(sorted(run.persons.items()))]
    view.version = hashlib.sha256("\n".join(seen).encode()).hexdigest()[:16]
    for (verb, _, *words), answer in answers:
        take_in(view, verb, words, answer)
    return view


def looks_for(run: Run, person: str) -> list[list[str]]:
    looks = [["tree", run.name, person]]
    if run.started:
        looks.append(["outbox", run.name, person])
        looks += [["page", run.name, person, page] for page in run.course.pages]
        if run.is_staff(person):
            held = set(run.persons[person])
            looks += [["get", run.name, person, name] for name in run.course.properties_of_roles(held)]
            looks.append(["report", run.name])
    return looks


def take_in(view: View, verb: str, words: list[str], answer: Reply) -> None:
    """Puts one answer where the page shows it. A form that is closed for the person is not shown."""
    if not answer.ok:
        view.refused = answer.refusal.word if verb == "tree" else view.refused
    elif verb == "tree":
        view.root = replies.tree(answer.lines)
    elif verb == "outbox":
        view.notices = replies.outbox(answer.lines)[::-1]
    elif verb == "page":
        page = view.run.course.pages[words[1]]
        view.forms.setdefault(page["activity"], []).append((page, replies.page(answer.lines)))
    elif verb == "get":
        view.role_fields.append((words[1], answer.value))
    elif verb == "report":
        view.report = replies.report(answer.lines)
