"""Whether the cases have each member, each word and each default that docs/FORMATS.md lists."""

from collections.abc import Iterable, Iterator
from dataclasses import dataclass, field
from typing import Any

from canonical import Files, canonical_documents, read
from documented import Listed, listed_in_document
from forms import OBJECTS, Form, Part, Plain, Several

Member = tuple[str, str]


@dataclass
class Seen:
    """The members that stand somewhere, the words and numbers that they have there, and those with an empty list."""

    members: set[Member] = field(default_factory=set)
    words: set[tuple[str, str, str]] = field(default_factory=set)
    empty: set[Member] = field(default_factory=set)

    def add(self, name: str, given: dict[str, Any]) -> None:
        """Takes an object and all within it."""
        for member, value in given.items():
            self.members.add((name, member))
            if value == []:
                self.empty.add((name, member))
            if isinstance(value, str | int):
                self.words.add((name, member, str(value).lower() if isinstance(value, bool) else str(value)))
            self.within(OBJECTS[name][member], value)

    def within(self, form: Form, value: Any) -> None:
        """Takes the objects of a value."""
        match form:
            case Part(name):
                self.add(name, value)
            case Several(of):
                for each in value:
                    self.within(of, each)


def default_of(listed: Listed, member: Member) -> str | None:
    """The default of a member as the document has it, or None."""
    default = listed.defaults.get(member)
    return listed.words[member][-1] if default == "the latter" else default


def as_listed(listed: Listed) -> Iterator[tuple[str, str | None]]:
    """Whether forms.py has the objects and members of the document, in their order, with their defaults."""
    for name in sorted(listed.members.keys() | OBJECTS.keys()):
        there, here = listed.members.get(name), list(OBJECTS.get(name, {}))
        yield f"the members of {name}", None if there == here else f"listed are {there}, and forms.py has {here}"
        for member, form in OBJECTS.get(name, {}).items():
            given = form.default if isinstance(form, Plain) else None
            known = None if given is None else str(given).lower()
            default = default_of(listed, (name, member))
            if known != default:
                yield f"the default of {member} of {name}", f"it is {default}, and in forms.py {known}"


def seen_in(cases: Iterable[Files]) -> tuple[Seen, Seen]:
    """What stands in the folders, and what in their canonical documents."""
    given, kept = Seen(), Seen()
    for files in cases:
        for name, document in read(files).items():
            given.add(name, document)
        for name, document in canonical_documents(files).items():
            kept.add(name, document)
    return given, kept


def covered(cases: Iterable[Files]) -> Iterator[tuple[str, str | None]]:
    """For each thing that the document lists its name, and what is wrong: that no case has it."""
    listed = listed_in_document()
    given, kept = seen_in(cases)
    yield from as_listed(listed)
    for name, members in listed.members.items():
        for member in members:
            default = default_of(listed, (name, member))
            here = (name, member) in kept.members or member == "create-new"
            yield f"{member} of {name}", None if here else "no case has it"
            if default is not None and (name, member, default) not in given.words:
                yield f"{member} of {name}", "no case has its default"
            for word in listed.words.get((name, member), []):
                if (name, member, word) not in given.words:
                    yield f"{member} of {name}", f"no case has {word}"
    for name, forms in OBJECTS.items():
        for member, form in forms.items():
            if isinstance(form, Several) and form.least == 0 and (name, member) not in given.empty:
                yield f"{member} of {name}", "no case has an empty list"
