"""Terms: properties, literals and arithmetic. A literal of a package gets the datatype of what stands beside it."""

import math
from dataclasses import dataclass, field
from fractions import Fraction
from typing import Any

from . import values
from .context import Context, Named
from .values import family, guess
from .xmltree import Node

ARITHMETIC = ("sum", "subtract", "multiply", "divide")
MOMENTS = ("current-datetime", "datetime-activity-started", "time-unit-of-learning-started")
LONGEST_NUMBER = 40


class Inexpressible(Exception):
    """What the engine's form can't say."""

    def __init__(self, node: Node, code: str, text: str) -> None:
        super().__init__(text)
        self.node, self.code, self.text = node, code, text


@dataclass(frozen=True)
class Place:
    """Where an expression stands: for the run as a whole; within users-in-role or when-condition-true."""

    is_of_run: bool = False
    is_quantified: bool = False


@dataclass
class Term:
    tag: str  # a member of the engine's Term, or `literal`
    node: Node
    text: str = ""  # of a literal; of datetime-activity-started the activity
    parts: list["Term"] = field(default_factory=list)
    property: Named | None = None

    def __post_init__(self) -> None:
        """Both are worked out once: asked anew at each level, a deep term would take time by its square."""
        self.reads_now: bool = self.tag == "current-datetime" or any(part.reads_now for part in self.parts)
        self.type = self.find_type()

    def find_type(self) -> str | None:
        """None for a literal."""
        if self.tag == "literal":
            return None
        if self.property is not None:
            return family(self.property.datatype)
        if self.tag in MOMENTS:
            return "datetime"
        if self.tag in ("multiply", "divide"):
            return "integer"
        types = [part.likely_type() for part in self.parts]
        if self.tag == "sum":
            return "datetime" if "datetime" in types else "duration" if "duration" in types else "integer"
        if types[0] == "datetime":
            return "duration" if types[1] == "datetime" else "datetime"
        return "duration" if "duration" in types else "integer"

    def likely_type(self) -> str:
        """The type, of a literal the one that its text looks like."""
        return self.type or guess(self.text)


class Terms:
    def __init__(self, context: Context) -> None:
        self.context = context

    # Reading.

    def property(self, node: Node, place: Place) -> Named:
        named = self.context.find(node.get("ref"), ("property",))
        if not isinstance(named, Named):
            raise Inexpressible(node, "reference", named)
        if place.is_of_run and named.personal:
            told = f"'{named.id}' has a value for each person, and this is asked for the run as a whole"
            raise Inexpressible(node, "personal", told)
        return named

    def read(self, node: Node, place: Place) -> Term:
        tag = node.tag
        if tag == "property-ref":
            return Term("property", node, property=self.property(node, place))
        if tag in ("property-value", "calculate", "expression", "langstring"):
            return self.read_wrapped(node, place)
        if tag in ARITHMETIC:
            return self.read_arithmetic(node, place)
        if tag == "current-datetime":
            return Term(tag, node)
        if tag == "time-unit-of-learning-started":
            node.settle()
            return Term(tag, node)
        if tag == "datetime-activity-started":
            return Term(tag, node, self.started_activity(node, place))
        raise Inexpressible(node, "expression", f"there is no term {tag}")

    def read_wrapped(self, node: Node, place: Place) -> Term:
        inner = node.elements()
        if len(inner) > 1:
            raise Inexpressible(node, "expression", f"{node.tag} holds several elements")
        if inner:
            return self.read(inner[0], place)
        if node.tag in ("property-value", "langstring"):
            node.get("xml:lang")
            return Term("literal", node, node.text())
        raise Inexpressible(node, "expression", f"{node.tag} is empty")

    def read_arithmetic(self, node: Node, place: Place) -> Term:
        parts = [self.read(child, place) for child in node.elements()]
        if not parts:
            raise Inexpressible(node, "expression", f"{node.tag} is empty")
        if len(parts) == 1 and node.tag in ("sum", "multiply"):
            return parts[0]
        if node.tag in ("subtract", "divide") and len(parts) != 2:
            raise Inexpressible(node, "expression", f"{node.tag} holds {len(parts)} operands instead of two")
        return Term(node.tag, node, parts=parts)

    def started_activity(self, node: Node, place: Place) -> str:
        reference = next(iter(node.elements()), node)
        named = self.context.find(reference.get("ref"), ("activity",))
        if not isinstance(named, Named):
            raise Inexpressible(node, "reference", named)
        if place.is_of_run:
            told = "an activity starts for each person, and this is asked for the run as a whole"
            raise Inexpressible(node, "personal", told)
        if self.context.options.format == 2 and named.obj.get("supports") and named.obj.get("repeated", True):
            raise Inexpressible(node, "personal", "a support for each person has no one moment when it starts")
        return named.id

    # Writing.

    def literal(self, term: Term, datatype: str) -> dict[str, str]:
        """The literal under the name of its type; `datatype` may be uri, where the text has to be one."""
        try:
            text, remark = values.value(datatype, term.text)
        except values.BadValue as fault:
            raise Inexpressible(term.node, "value", str(fault)) from None
        if remark:
            self.context.changed(term.node, "value", remark)
        return {family(datatype): text}

    def write(self, term: Term, wanted: str) -> dict[str, Any]:
        """The term as JSON; a literal in it is of the wanted type."""
        found = term.type
        if found is None:
            return self.literal(term, wanted)
        if found != wanted:
            told = f"a value of the type {found} stands where one of {wanted} is wanted"
            raise Inexpressible(term.node, "types", told)
        if term.property is not None:
            return {"property": term.property.id}
        if term.tag == "datetime-activity-started":
            return {term.tag: term.text}
        if term.tag in MOMENTS:
            return {term.tag: True}
        if term.tag == "divide":
            self.context.changed(term.node, "divide", "the quotient is whole: 7 divided by 2 is 3")
        return {term.tag: [self.write(part, each) for part, each in self.operands(term, found)]}

    def operands(self, term: Term, found: str) -> list[tuple[Term, str]]:
        """The parts of an arithmetic in the engine's order, each with its type."""
        parts = term.parts
        if found == "integer":
            return [(part, "integer") for part in parts]
        if term.tag == "sum":
            moments = [part for part in parts if part.likely_type() == "datetime"]
            if len(moments) > 1:
                raise Inexpressible(term.node, "types", "two moments can't be added")
            spans = [part for part in parts if part not in moments]
            return [(part, "datetime") for part in moments] + [(part, "duration") for part in spans]
        is_moment = found == "datetime" or parts[0].likely_type() == "datetime"
        second = "datetime" if is_moment and found == "duration" else "duration"
        return [(parts[0], "datetime" if is_moment else "duration"), (parts[1], second)]

    # Comparisons.

    def rounded(self, node: Node, term: Term, is_left: bool) -> Term:
        """A literal with a fraction, compared with whole numbers: `n > 2.5` says the same as `n > 2`."""
        if term.tag != "literal" or not values.REAL.match(term.text) or values.WHOLE.match(term.text):
            return term
        if len(term.text) > LONGEST_NUMBER:
            raise Inexpressible(term.node, "value", "the number is too long")
        number = Fraction(term.text)
        if node.tag not in ("greater-than", "less-than"):
            raise Inexpressible(term.node, "value", f"no whole number is '{term.text}'")
        goes_down = (node.tag == "greater-than") != is_left
        whole = math.floor(number) if goes_down else math.ceil(number)
        told = f"'{term.text}' is written as {whole}, which says the same of whole numbers"
        self.context.note(term.node, "value", told)
        return Term("literal", term.node, str(whole))

    def with_now_alone(self, node: Node, left: Term, right: Term) -> tuple[Term, Term]:
        """The engine has current-datetime as a side of a comparison alone: what stands around it goes to the other."""
        if left.reads_now and right.reads_now:
            raise Inexpressible(node, "current-datetime", "both sides read the present moment")
        if left.reads_now:
            return self.turned(node, left, right)
        if right.reads_now:
            here, there = self.turned(node, right, left)
            return there, here
        return left, right

    def turned(self, node: Node, here: Term, there: Term) -> tuple[Term, Term]:
        """`here` reads the present moment; afterwards one of both is the present moment."""
        if here.tag == "current-datetime":
            return here, there
        while here.tag in ("sum", "subtract"):
            if len(here.parts) != 2:
                told = "the present moment stands in a sum of three or more"
                raise Inexpressible(node, "current-datetime", told)
            first, second = here.parts
            if here.tag == "sum":  # now + d ? x  is  now ? x - d
                inner, other = (first, second) if first.reads_now else (second, first)
                here, there = inner, Term("subtract", here.node, parts=[there, other])
            elif first.reads_now:  # now - x ? y  is  now ? x + y
                here, there = first, Term("sum", here.node, parts=[second, there])
            elif second.tag == "current-datetime":  # x - now ? d  is  x - d ? now
                here, there = Term("subtract", here.node, parts=[first, there]), second
                break
            else:
                raise Inexpressible(node, "current-datetime", "the present moment stands too deep")
        if "current-datetime" not in (here.tag, there.tag):
            raise Inexpressible(node, "current-datetime", "the present moment stands in a product")
        self.context.note(node, "current-datetime", "the comparison is turned so that the present moment is one side")
        return here, there
