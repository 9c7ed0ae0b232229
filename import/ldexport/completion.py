"""Rules of completion, and what follows it, as elements."""

import xml.etree.ElementTree as ET

from ldimport.completion import ELEMENTS

from .expressions import Expressions, the_member
from .folder import Json
from .resources import Resources
from .tree import add


class Completion:
    def __init__(self, expressions: Expressions, resources: Resources) -> None:
        self.expressions, self.resources = expressions, resources

    def write(self, parent: ET.Element, obj: Json, owner: str) -> None:
        """The rule of an activity, an act, a play or the unit, and what follows from it."""
        if "complete" in obj:
            self.rule(add(parent, ELEMENTS[owner]), obj["complete"])
        follows = obj.get("on-completion")
        if follows:
            self.follows(add(parent, "on-completion"), follows)

    def rule(self, parent: ET.Element, complete: Json) -> None:
        name, value = the_member(complete)
        if name in ("when-role-part-completed", "when-play-completed"):
            for identifier in value:
                add(parent, name, ref=identifier)
            return
        element = add(parent, name)
        if name == "time-limit":
            element.text = value
        elif name == "when-condition-true":
            self.expressions.quantified(element, value)
        elif name == "when-property-value-is-set":
            add(element, "property-ref", ref=value["property"])
            if "value" in value:
                self.expressions.texts.value(add(element, "property-value"), value["value"])

    def follows(self, element: ET.Element, follows: Json) -> None:
        self.resources.container(element, "feedback-description", follows.get("feedback", []))
        for change in follows.get("change", []):
            self.expressions.change(element, change)
        for notice in follows.get("notify", []):
            self.expressions.notice(element, notice)
