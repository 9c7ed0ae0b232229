"""Rules of completion, and what follows it.

A rule that can't be said is never dropped, since its owner would then be done at once, or never. It is replaced by
what comes next to it, and that is told.
"""

from . import values
from .actions import Actions, tell
from .context import Context, JsonObject
from .expressions import QUANTIFIED, Expressions
from .items import Items
from .terms import Inexpressible, Place
from .values import family
from .xmltree import Node

RULES = {
    "activity": ("user-choice", "time-limit", "when-property-value-is-set"),
    "act": ("when-role-part-completed", "time-limit", "when-property-value-is-set", "when-condition-true"),
    "play": ("when-last-act-completed", "time-limit", "when-property-value-is-set"),
    "unit": ("when-play-completed", "time-limit", "when-property-value-is-set"),
}
ELEMENTS = {
    "activity": "complete-activity",
    "act": "complete-act",
    "play": "complete-play",
    "unit": "complete-unit-of-learning",
}

# One when-property-value-is-set as the engine has it (None where it has no such), and the same as a test.
Asked = tuple[JsonObject | None, JsonObject]


class Completion:
    def __init__(self, context: Context, plays: list[JsonObject]) -> None:
        self.context, self.plays = context, plays
        self.expressions, self.actions, self.items = Expressions(context), Actions(context), Items(context)
        self.properties: list[JsonObject] = []  # that rules need
        self.conditions: list[JsonObject] = []  # that set those properties

    def read_all(self, activities: list[JsonObject], method: Node) -> JsonObject:
        """Adds its rule to each activity, play and act; gives the unit's. All has to be named before."""
        for activity in activities:
            self.read(activity, "activity")
        for play in self.plays:
            for act in play["acts"]:
                self.read(act, "act")
                if "complete" not in act and act is not play["acts"][-1]:
                    told = "it is not said when the act is completed: it never is, and the acts behind it never open"
                    self.context.note(act.node, "act-ends", told)
            self.read(play, "play")
        unit = JsonObject(method)
        self.read(unit, "unit")
        return unit

    def read(self, obj: JsonObject, owner: str) -> None:
        context, node = self.context, obj.node
        element = node.one(ELEMENTS[owner])
        if element is not None:
            self.rule(obj, element, owner)
        follows = node.one("on-completion")
        if follows is None:
            return
        if "complete" in obj:
            self.on_completion(obj, follows, owner)
        else:
            told = f"what follows is left out, since it is not said when the {owner} is completed"
            context.leave_out(follows, "on-completion", told)

    def rule(self, obj: JsonObject, element: Node, owner: str) -> None:
        rules = element.all(*RULES[owner])
        for child in element.children:
            if child.tag not in RULES[owner]:
                self.context.leave_out(child, "rule", f"{owner} has no such rule")
        try:
            obj["complete"] = self.complete(obj, element, rules, owner)
        except Inexpressible as fault:
            obj["complete"] = self.replacement(obj, owner)
            tell(self.context, element, fault, f"instead it completes by {next(iter(obj['complete']))}")

    def replacement(self, obj: JsonObject, owner: str) -> dict[str, object]:
        if owner == "activity":
            return {"user-choice": True}
        if owner == "act":
            return {"when-role-part-completed": [part["identifier"] for part in obj["role-parts"]]}
        if owner == "play":
            return {"when-last-act-completed": True}
        return {"when-play-completed": [play["identifier"] for play in self.plays]}

    def complete(self, obj: JsonObject, element: Node, rules: list[Node], owner: str) -> dict[str, object]:
        if not rules:
            raise Inexpressible(element, "rule", "it holds no rule that is known")
        word = rules[0].tag
        for other in rules:
            if other.tag != word:
                self.context.leave_out(other, "several-rules", f"of several rules {word} counts alone")
        same = [rule for rule in rules if rule.tag == word]
        if word == "when-property-value-is-set":
            return self.value_set(obj, same, owner)
        if word == "time-limit":
            return {word: self.limit(same[0])}
        if word == "when-condition-true":
            return {word: self.condition_true(same[0])}
        if word in ("when-role-part-completed", "when-play-completed"):
            return {word: self.completed(obj, same, owner)}
        return {word: True}

    def completed(self, obj: JsonObject, rules: list[Node], owner: str) -> list[str]:
        """The role-parts of the act, or the plays, that are waited for."""
        kind = "role-part" if owner == "act" else "play"
        own = {part["identifier"] for part in obj.get("role-parts", [])}
        names: dict[str, None] = {}
        for rule in rules:
            for reference in [rule] if "ref" in rule.attrs else rule.elements():
                named = self.context.refer(reference, (kind,), "it is not waited for")
                if named and owner == "act" and named.id not in own:
                    told = "the role-part is of another act; it is not waited for"
                    self.context.lost(reference, "reference", told)
                elif named:
                    names[named.id] = None
        if not names:
            raise Inexpressible(rules[0], "rule", f"no {kind} is left to wait for")
        return list(names)

    def limit(self, node: Node) -> str:
        if node.get("property-ref"):
            raise Inexpressible(node, "time-limit", "a limit that a property holds is left out")
        try:
            text, remark = values.value("duration", node.text())
        except values.BadValue as fault:
            raise Inexpressible(node, "time-limit", str(fault)) from None
        if remark:
            self.context.changed(node, "time-limit", remark)
        return text

    def condition_true(self, node: Node) -> dict[str, object]:
        role = node.one("role-ref")
        expression = node.one("expression") or next((child for child in node.elements() if child is not role), None)
        if role is None or expression is None:
            raise Inexpressible(node, "expression", "when-condition-true holds a role-ref and an expression")
        return {"role": self.expressions.role(role), "expression": self.expressions.read(expression, QUANTIFIED)}

    # Rules by values.

    def value_set(self, obj: JsonObject, rules: list[Node], owner: str) -> dict[str, object]:
        asked = [self.value_of(rule, owner) for rule in rules]
        if len(asked) == 1 and asked[0][0] is not None:
            return {"when-property-value-is-set": asked[0][0]}
        tests = [test for _, test in asked]
        test = tests[0] if len(tests) == 1 else JsonObject(rules[0], **{"and": tests})
        if owner == "activity":
            return self.helper(obj, rules[0], test)
        roles = {part["role"] for part in obj.get("role-parts", [])}
        if owner == "act" and len(roles) == 1:
            role = roles.pop()
            self.context.changed(rules[0], "personal", f"it is asked of every member of '{role}'")
            return {"when-condition-true": {"role": role, "expression": test}}
        told = "the values are each person's, or several, and this is asked for the run as a whole"
        raise Inexpressible(rules[0], "personal", told)

    def value_of(self, rule: Node, owner: str) -> Asked:
        reference, value = rule.one("property-ref"), rule.one("property-value")
        if reference is None:
            raise Inexpressible(rule, "expression", "when-property-value-is-set holds a property-ref")
        terms = self.expressions.terms
        named = terms.property(reference, Place())
        is_plain = not named.personal or owner == "activity"
        if value is None:
            plain = JsonObject(rule, property=named.id)
            return plain if is_plain else None, JsonObject(rule, **{"not": {"no-value": named.id}})
        term = terms.read(value, Place())
        property = {"property": named.id}
        if term.tag != "literal":
            return None, JsonObject(rule, **{"is": [property, terms.write(term, family(named.datatype))]})
        literal = terms.literal(term, named.datatype)
        plain = JsonObject(rule, property=named.id, value=next(iter(literal.values())))
        return plain if is_plain else None, JsonObject(rule, **{"is": [property, literal]})

    def helper(self, obj: JsonObject, node: Node, test: JsonObject) -> dict[str, object]:
        """Several values, or one that is worked out: a property of each person, and a condition that sets it."""
        name = self.context.fresh(obj["identifier"] + ".met")
        self.properties.append(JsonObject(node, identifier=name, kind="locpers", datatype="boolean"))
        change = {"change": {"property": name, "value": {"boolean": "true"}}}
        self.conditions.append(JsonObject(node, **{"if": test, "then": [change]}))
        told = f"the rule is written as a condition that sets a property '{name}'"
        self.context.note(node, "helper", told)
        return {"when-property-value-is-set": {"property": name, "value": "true"}}

    def on_completion(self, obj: JsonObject, node: Node, owner: str) -> None:
        name = obj.get("identifier", "unit")
        at = ("activity", name) if owner == "activity" else None
        feedback: list[JsonObject] = []
        for description in node.all("feedback-description"):
            feedback += self.items.within(description, name, "feedback", at)
        is_of_run = owner != "activity"
        changes = [self.actions.change(change, is_of_run) for change in node.all("change-property-value")]
        notices = [self.actions.notice(notice) for notice in node.all("notification")]
        self.context.no_metadata(node)
        follows = JsonObject(
            node,
            feedback=feedback,
            change=[change for change in changes if change],
            notify=[notice for notice in notices if notice],
        )
        if follows:
            obj["on-completion"] = follows
