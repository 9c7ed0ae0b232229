"""Plays, acts, role-parts and conditions as elements."""

import xml.etree.ElementTree as ET

from ldimport.conditions import negated
from ldimport.persons import Persons
from ldimport.report import Report

from .completion import Completion
from .expressions import Expressions
from .folder import Folder, Json
from .tree import Texts, add, hidden

PERSONAL = ("locpers", "globpers")


class Method:
    def __init__(self, folder: Folder, report: Report, expressions: Expressions, completion: Completion) -> None:
        self.folder, self.report = folder, report
        self.expressions, self.completion, self.texts = expressions, completion, Texts(report)
        self.persons = Persons(personal_identifiers(folder))

    def write(self, design: ET.Element) -> None:
        method = add(design, "method")
        for play in self.folder.plays:
            self.play(method, play)
        self.completion.write(method, self.folder.unit["method"], "unit")
        if self.folder.conditions:
            conditions = add(method, "conditions")
            for number, condition in enumerate(self.folder.conditions):
                self.condition(conditions, condition, number)

    def play(self, parent: ET.Element, play: Json) -> None:
        element = add(parent, "play", identifier=play["identifier"], isvisible=hidden(play))
        self.texts.title(element, play)
        for act in play["acts"]:
            inner = add(element, "act", identifier=act["identifier"])
            self.texts.title(inner, act)
            for part in act["role-parts"]:
                self.part(inner, part)
            self.completion.write(inner, act, "act")
        self.completion.write(element, play, "play")

    def part(self, parent: ET.Element, part: Json) -> None:
        element = add(parent, "role-part", identifier=part["identifier"])
        self.texts.title(element, part)
        add(element, "role-ref", ref=part["role"])
        add(element, self.folder.references[part["ref"]], ref=part["ref"])

    def condition(self, parent: ET.Element, condition: Json, number: int) -> None:
        self.expressions.test(add(parent, "if"), condition["if"])
        tests = {"then": condition["if"], "else": negated(condition["if"])}
        for word, test in tests.items():
            actions = condition.get(word, [])
            if not actions and word == "else":
                continue
            element = add(parent, word)
            for action in actions:
                self.expressions.action(element, action)
            if self.persons.repeated([test], actions):
                told = "here it is done once for each person, and in a package once for the run"
                place = f"/conditions/{number}/{word}"
                self.report.plain("changed", "each-person", f"{place}: {told}", "conditions.json")


def personal_identifiers(folder: Folder) -> set[str]:
    """The properties, activities and structures that have a value, or are done, for each person."""
    repeatable = {role["identifier"] for role in folder.roles if role.get("create-new") == "allowed"}
    properties = {
        each["identifier"] for each in folder.properties if each["kind"] in PERSONAL or each.get("role") in repeatable
    }
    return properties | {each["identifier"] for each in folder.activities + folder.structures}
