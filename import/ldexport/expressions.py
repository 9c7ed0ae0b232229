"""Terms, tests and actions as elements."""

import xml.etree.ElementTree as ET
from collections.abc import Callable
from typing import Any

from ldimport import values
from ldimport.report import Report

from .folder import Folder, Json
from .tree import Texts, add

ARITHMETIC = ("sum", "subtract", "multiply", "divide")
COMPARISONS = ("is", "is-not", "greater-than", "less-than")
LITERALS = ("text", "integer", "boolean", "datetime", "duration")


class Expressions:
    def __init__(self, folder: Folder, report: Report) -> None:
        self.folder, self.report, self.texts = folder, report, Texts(report)

    def refer(self, parent: ET.Element, identifier: str) -> None:
        """A reference by the element that its kind has; learning objects and services are named by a class."""
        tag = self.folder.references.get(identifier, "item-ref")
        if tag == "class":
            add(parent, tag, **{"class": identifier})
        else:
            add(parent, tag, ref=identifier)

    # Terms.

    def term(self, parent: ET.Element, term: Json) -> None:
        name, value = the_member(term)
        if name in LITERALS:
            self.texts.value(add(parent, "property-value"), value)
        elif name == "property":
            add(parent, "property-ref", ref=value)
        elif name in ARITHMETIC:
            if not parent.tag.endswith(tuple(f"}}{word}" for word in ARITHMETIC)):
                parent = add(parent, "calculate")
            inner = add(parent, name)
            for part in value:
                self.term(inner, part)
        elif name == "datetime-activity-started":
            self.refer(add(parent, name), value)
        else:
            add(parent, name)

    def change(self, parent: ET.Element, change: Json) -> None:
        element = add(parent, "change-property-value")
        add(element, "property-ref", ref=change["property"])
        name, value = the_member(change["value"])
        if name not in LITERALS:
            self.term(add(element, "property-value"), change["value"])
            return
        self.texts.value(add(element, "property-value"), value)
        if self.folder.datatypes[change["property"]] == "uri" and values.percent(value) != value:
            self.report.plain("changed", "text", f"the uri {value!r} is read as '{values.percent(value)}'")

    # Tests.

    def test(self, parent: ET.Element, test: Json) -> None:
        name, value = the_member(test)
        element = add(parent, name)
        write: dict[str, Callable[[ET.Element, Any], None]] = {
            "and": self.tests,
            "or": self.tests,
            "not": self.test,
            "no-value": self.refer,
            "complete": self.refer,
            "users-in-role": self.quantified,
        }
        if name == "is-member-of-role":
            element.set("ref", value)
        elif name in COMPARISONS:
            self.comparison(element, value)
        else:
            write[name](element, value)

    def tests(self, element: ET.Element, tests: list[Json]) -> None:
        for test in tests:
            self.test(element, test)

    def quantified(self, element: ET.Element, asked: Json) -> None:
        """A role, and a test that is asked of its members."""
        add(element, "role-ref", ref=asked["role"])
        self.test(add(element, "expression"), asked["expression"])

    def comparison(self, element: ET.Element, sides: list[Json]) -> None:
        for side in sides:
            self.term(element, side)
        members = [the_member(side) for side in sides]
        if all(name in LITERALS for name, _ in members):
            guessed = {values.guess(value) for _, value in members}
            read = guessed.pop() if len(guessed) == 1 else "text"
            if members[0][0] != read:
                told = f"two literals of the type {members[0][0]} are compared; they are read as {read}"
                self.report.plain("changed", "literals", told)

    # Actions.

    def action(self, parent: ET.Element, action: Json) -> None:
        name, value = the_member(action)
        if name == "change":
            self.change(parent, value)
        elif name == "notify":
            self.notice(parent, value)
        else:
            element = add(parent, name)
            for identifier in value:
                self.refer(element, identifier)

    def notice(self, parent: ET.Element, notice: Json) -> None:
        element = add(parent, "notification")
        for role in notice["roles"]:
            add(add(element, "email-data"), "role-ref", ref=role)
        if "activity" in notice:
            self.refer(element, notice["activity"])
        self.texts.title(element, notice, "subject")


def the_member(obj: Json) -> tuple[str, Any]:
    """The name and value of an object of exactly one member."""
    ((name, value),) = obj.items()
    return name, value
