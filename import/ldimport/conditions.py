"""Conditions: rows of `if`, `then`, `else`, also within each other."""

from collections.abc import Sequence
from typing import Any

from .actions import ACTIONS, Actions, tell
from .context import Context, JsonObject
from .expressions import Expressions
from .persons import Json, Persons
from .terms import Inexpressible
from .xmltree import Node

LEAVES = {"property", "text", "integer", "boolean", "datetime", "duration", "complete", "no-value", "is-member-of-role"}
LEAVES |= {"current-datetime", "datetime-activity-started", "time-unit-of-learning-started"}


class Conditions:
    def __init__(self, context: Context) -> None:
        self.context, self.expressions, self.actions = context, Expressions(context), Actions(context)
        self.found: list[JsonObject] = []
        self.properties: list[JsonObject] = []  # that conditions need
        self.persons = Persons(set())

    def read_all(self, method: Node) -> None:
        """Reads all conditions of the method. All to which they refer has to be named before."""
        named = self.context.named.values()
        self.persons = Persons({each.id for each in named if each.personal or each.kind in ("activity", "structure")})
        for node in method.all("conditions"):
            self.context.no_metadata(node)
            for action in self.block(node, [], self.found):
                self.context.leave_out(action, "action", "an action stands outside of then and else")

    def block(self, parent: Node, guard: list[Json], found: list[JsonObject]) -> list[Node]:
        """Reads a row of conditions, each under the tests of the guard; gives the actions beside them."""
        nodes, actions, at = parent.elements(), [], 0
        while at < len(nodes):
            node = nodes[at]
            at += 1
            if node.tag == "if":
                branches: dict[str, Node] = {}
                while at < len(nodes) and nodes[at].tag in ("then", "else") and nodes[at].tag not in branches:
                    branches[nodes[at].tag] = nodes[at]
                    at += 1
                self.condition(node, branches, guard, found)
            elif node.tag == "title":
                node.words()
                self.context.note(node, "title", "a condition has no title here")
            elif node.tag in ACTIONS:
                actions.append(node)
            else:
                node.is_used = False
        return actions

    def condition(self, node: Node, branches: dict[str, Node], guard: list[Json], found: list[JsonObject]) -> None:
        """Without conditions around or within it, one condition; else one for each branch that does something."""
        self.context.count("rules", node)
        try:
            test = self.expressions.read(node)
        except Inexpressible as fault:
            tell(self.context, node, fault, "the condition is left out")
            for branch in branches.values():
                branch.settle()
            return
        sides = {"then": [*guard, test], "else": [*guard, negated(test)]}
        self.context.fits("leaves", node, leaves(sides["then"]))
        done: dict[str, list[JsonObject]] = {"then": [], "else": []}
        inner: list[JsonObject] = []
        for word, branch in branches.items():
            actions = [action for each in self.block(branch, sides[word], inner) if (action := self.actions.read(each))]
            done[word] = self.once(node, sides[word], actions, found)
        if inner:
            told = "conditions within its branches become conditions of their own"
            self.context.note(node, "nested-condition", told)
        if not guard and done["then"]:
            self.add(found, node, test, done["then"], done["else"])
        else:
            for word, side in sides.items():
                if done[word]:
                    self.add(found, node, all_of(side), done[word])
        found += inner

    def once(
        self, node: Node, tests: list[Json], actions: list[JsonObject], found: list[JsonObject]
    ) -> list[JsonObject]:
        """Writes what is to be done one time for the run; gives the actions that are done for each person."""
        shared = self.persons.repeated(tests, actions)
        if not shared:
            return actions
        name = self.context.fresh("once")
        self.properties.append(JsonObject(node, identifier=name, kind="loc", datatype="boolean", initial="false"))
        told = f"what it asks is the same for all persons; a property '{name}' keeps what follows to one time"
        self.context.note(node, "once", told)
        not_yet = {"is": [{"property": name}, {"boolean": "false"}]}
        self.add(found, node, {"and": [*tests, not_yet]}, [*shared, becomes(name, "true")])
        self.add(found, node, negated(all_of(tests)), [becomes(name, "false")])
        return [action for action in actions if action not in shared]

    def add(
        self, found: list[JsonObject], node: Node, test: Json, then: Sequence[Json], otherwise: Sequence[Json] = ()
    ) -> None:
        """Adds a condition. Its tests may stand in many others, so their leaves are counted."""
        condition = JsonObject(node, **{"if": test, "then": list(then), "else": list(otherwise)})
        self.context.count("leaves", node, leaves(condition))
        found.append(condition)


def becomes(name: str, value: str) -> Json:
    return {"change": {"property": name, "value": {"boolean": value}}}


def negated(test: Json) -> Json:
    inner: Json = test.get("not", {})
    return inner or {"not": test}


def leaves(value: Any) -> int:
    """How many leaves (docs/FORMATS.md, "Limits") stand in a test, a term or an action."""
    if isinstance(value, list):
        return sum(map(leaves, value))
    if not isinstance(value, dict):
        return 0
    here = sum(name in LEAVES for name in value)
    if "value" in value:  # the property that a change writes is no leaf
        here -= 1
    return here + sum(map(leaves, value.values()))


def all_of(tests: list[Json]) -> Json:
    return tests[0] if len(tests) == 1 else {"and": tests}
