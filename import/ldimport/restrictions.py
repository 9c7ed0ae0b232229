"""Restrictions of a property's values."""

import math
from fractions import Fraction
from typing import Any

from . import values
from .context import Context
from .values import BadValue
from .xmltree import Node

LONGEST_NUMBER = 40


def read_restrictions(context: Context, body: Node, datatype: str) -> dict[str, Any]:
    reader = Restrictions(context, datatype)
    for node in body.all("restriction"):
        kind = node.word("restriction-type", "")
        try:
            reader.read(node, kind, node.text())
        except BadValue as fault:
            context.lost(node, "restriction", f"{kind}: {fault}")
    return reader.found


class Restrictions:
    def __init__(self, context: Context, datatype: str) -> None:
        self.context, self.datatype = context, datatype
        self.found: dict[str, Any] = {}

    def read(self, node: Node, kind: str, text: str) -> None:
        if kind == "enumeration":
            self.enumerate(text)
        elif kind in ("minInclusive", "maxInclusive") and self.datatype in values.ORDERED:
            self.inclusive(node, kind, text)
        elif kind in ("minExclusive", "maxExclusive") and self.datatype == "integer":
            self.exclusive(node, kind, text)
        elif kind in ("minLength", "maxLength", "length") and self.datatype in values.TEXTS:
            self.length(node, kind, text)
        else:
            raise BadValue(f"no restriction of {self.datatype} here" if kind else "it has no restriction-type")

    def enumerate(self, text: str) -> None:
        text, _ = values.value(self.datatype, text)
        entries = self.found.setdefault("enumeration", [])
        if len(entries) == 100:
            raise BadValue("an enumeration has at most 100 texts")
        if text not in entries:
            entries.append(text)

    def inclusive(self, node: Node, kind: str, text: str) -> None:
        if self.datatype == "integer" and len(text) <= LONGEST_NUMBER and values.REAL.match(text):
            number = math.ceil(Fraction(text)) if kind == "minInclusive" else math.floor(Fraction(text))
            if number != Fraction(text):
                self.context.note(node, "restriction", f"{kind} {text} is written as {number}")
            text = str(number)
        text, remark = values.value(self.datatype, text)
        if remark:
            self.context.changed(node, "restriction", remark)
        self.bound(kind, text)

    def exclusive(self, node: Node, kind: str, text: str) -> None:
        number = int(values.integer(text)[0]) + (1 if kind == "minExclusive" else -1)
        inclusive = kind.replace("Ex", "In")
        self.bound(inclusive, values.integer(str(number))[0])
        self.context.note(node, "restriction", f"{kind} {text} is written as {inclusive} {number}")

    def length(self, node: Node, kind: str, text: str) -> None:
        number = int(values.integer(text)[0])
        if number < 0:
            raise BadValue(f"'{text}' is negative")
        if number > values.LONGEST:
            self.context.changed(node, "restriction", f"{kind} {number} becomes {values.LONGEST}")
        for word in ("minLength", "maxLength") if kind == "length" else (kind,):
            self.found[word] = min(number, values.LONGEST)

    def bound(self, kind: str, text: str) -> None:
        """The narrower one of two bounds counts."""
        before = self.found.get(kind)
        if before is None:
            self.found[kind] = text
            return
        ordered = sorted((before, text), key=lambda each: values.order(self.datatype, each))
        self.found[kind] = ordered[-1] if kind == "minInclusive" else ordered[0]


def fits(datatype: str, restrictions: dict[str, Any], text: str) -> bool:
    """Whether a value text in the engine's form meets the restrictions (docs/FORMATS.md, "Values")."""
    if "enumeration" in restrictions and text not in restrictions["enumeration"]:
        return False
    least, most = restrictions.get("minInclusive"), restrictions.get("maxInclusive")
    value: Any = values.order(datatype, text)
    if least is not None and value < values.order(datatype, least):
        return False
    if most is not None and value > values.order(datatype, most):
        return False
    return bool(restrictions.get("minLength", 0) <= len(text) <= restrictions.get("maxLength", values.LONGEST))
