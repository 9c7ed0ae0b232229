"""Tests: what a condition or a rule asks."""

from typing import Any

from . import values
from .context import Context, Named
from .terms import Inexpressible, Place, Term, Terms
from .xmltree import Node

COMPARISONS = ("is", "is-not", "greater-than", "less-than")
DONE = ("activity", "structure", "role-part", "act", "play", "unit")
EVERYWHERE = Place()
QUANTIFIED = Place(is_quantified=True)

Json = dict[str, Any]


class Expressions:
    def __init__(self, context: Context) -> None:
        self.context, self.terms = context, Terms(context)

    def read(self, node: Node, place: Place = EVERYWHERE) -> Json:
        """The test as JSON."""
        tag = node.tag
        if tag in ("expression", "if", "calculate"):
            return self.read(only(node), place)
        if tag in ("and", "or"):
            parts = [self.read(child, place) for child in node.elements()]
            if not parts:
                raise Inexpressible(node, "expression", f"{tag} is empty")
            return parts[0] if len(parts) == 1 else {tag: parts}
        if tag == "not":
            return {tag: self.read(only(node), place)}
        if tag == "no-value":
            return {tag: self.terms.property(only(node), place).id}
        if tag == "is-member-of-role":
            if place.is_of_run:
                raise Inexpressible(node, "personal", "who is a member is asked for a person, not for the run")
            return {tag: self.role(node if "ref" in node.attrs else only(node))}
        if tag == "users-in-role":
            return self.users_in_role(node, place)
        if tag == "complete":
            return self.complete(node, place)
        if tag in COMPARISONS:
            return self.comparison(node, place)
        raise Inexpressible(node, "expression", f"there is no test {tag}")

    def role(self, reference: Node) -> str:
        named = self.context.find(reference.get("ref"), ("role",))
        if not isinstance(named, Named):
            raise Inexpressible(reference, "reference", named)
        return named.id

    def users_in_role(self, node: Node, place: Place) -> Json:
        if place.is_quantified:
            raise Inexpressible(node, "users-in-role", "users-in-role stands within another such question")
        role, inner = None, []
        for child in node.elements():
            if child.tag == "role-ref" and role is None:
                role = self.role(child)
            else:
                inner.append(child)
        if role is None or len(inner) != 1:
            raise Inexpressible(node, "expression", "users-in-role holds one role-ref and one expression")
        return {node.tag: {"role": role, "expression": self.read(inner[0], QUANTIFIED)}}

    def complete(self, node: Node, place: Place) -> Json:
        reference = node if "ref" in node.attrs else only(node)
        named = self.context.find(reference.get("ref"), DONE)
        if not isinstance(named, Named):
            raise Inexpressible(reference, "reference", named)
        if place.is_of_run and named.kind in ("activity", "structure"):
            told = "an activity is done for each person, and this is asked for the run as a whole"
            raise Inexpressible(node, "personal", told)
        return {node.tag: named.id}

    def comparison(self, node: Node, place: Place) -> Json:
        sides = node.elements()
        if len(sides) != 2:
            raise Inexpressible(node, "expression", f"{node.tag} compares two operands, not {len(sides)}")
        left, right = (self.terms.read(side, place) for side in sides)
        left, right = self.terms.with_now_alone(node, left, right)
        common = common_type(node, left, right)
        if common == "integer":
            left, right = self.terms.rounded(node, left, True), self.terms.rounded(node, right, False)
        return {node.tag: [self.terms.write(left, common), self.terms.write(right, common)]}


def only(node: Node) -> Node:
    inner = node.elements()
    if len(inner) != 1:
        raise Inexpressible(node, "expression", f"{node.tag} holds {len(inner)} elements instead of one")
    return inner[0]


def common_type(node: Node, left: Term, right: Term) -> str:
    """The type in which two terms are compared."""
    first, second = left.type, right.type
    if first and second and first != second:
        raise Inexpressible(node, "types", f"a value of the type {first} is compared with one of {second}")
    common = first or second
    if common is None:
        guessed = {values.guess(left.text), values.guess(right.text)}
        common = guessed.pop() if len(guessed) == 1 else "text"
    if node.tag in ("greater-than", "less-than") and common in ("text", "boolean"):
        raise Inexpressible(node, "types", f"values of the type {common} have no order")
    return common
