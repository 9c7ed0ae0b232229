"""The objects of docs/FORMATS.md, "Documents": for each its members in their order, and the form of each.

`documented.py` reads the same tables out of the document, and run.py compares the two.
"""

from dataclasses import dataclass

COMPLETE = "complete"


@dataclass(frozen=True)
class Plain:
    """A member that stands as it was given, and is left out where it has its default, if it has one."""

    default: str | int | bool | None = None


@dataclass(frozen=True)
class Value:
    """A value text of a datatype; without one it is that of the property which the text belongs to."""

    datatype: str | None = None


@dataclass(frozen=True)
class Several:
    """A list of at least so many."""

    of: "Form"
    least: int = 0


@dataclass(frozen=True)
class Part:
    """An object of this name."""

    name: str


Form = Plain | Value | Several | Part
Members = dict[str, Form]

PLAIN, VALUE, DURATION = Plain(), Value(), Value("duration")
NAMES, SOME_NAMES = Several(PLAIN), Several(PLAIN, 1)
ITEMS = Several(Part("Item"))
TERM, TEST, CHANGE, NOTICE = Part("Term"), Part("Test"), Part("Change"), Part("Notice")
TWO_TERMS, TERMS, TESTS = Several(TERM, 2), Several(TERM, 2), Several(TEST, 2)
THING: Members = {"identifier": PLAIN, "title": PLAIN, "visible": Plain(True)}
AIMS: Members = {"learning-objectives": ITEMS, "prerequisites": ITEMS}

# What completes each owner: an object of exactly one of these.
BY_TIME_OR_PROPERTY: Members = {
    "time-limit": DURATION,
    "when-property-value-is-set": Part("when-property-value-is-set"),
}
COMPLETES: dict[str, Members] = {
    "activity": {"user-choice": PLAIN, **BY_TIME_OR_PROPERTY},
    "act": {
        **BY_TIME_OR_PROPERTY,
        "when-role-part-completed": SOME_NAMES,
        "when-condition-true": Part("when-condition-true"),
    },
    "play": {**BY_TIME_OR_PROPERTY, "when-last-act-completed": PLAIN},
    "unit": {**BY_TIME_OR_PROPERTY, "when-play-completed": SOME_NAMES},
}


def completes(owner: str) -> str:
    """The name of the object that completes an owner."""
    return f"{COMPLETE} of {owner}"


def completed(owner: str) -> Members:
    """The two members of what can be completed."""
    return {COMPLETE: Part(completes(owner)), "on-completion": Part("on-completion")}


OBJECTS: dict[str, Members] = {
    "roles.json": {"roles": Several(Part("Role"), 1)},
    "Role": {
        "identifier": PLAIN,
        "kind": PLAIN,
        "title": PLAIN,
        "create-new": Plain("not-allowed"),
        "match-persons": Plain("not-exclusively"),
        "min-persons": Plain(0),
        "max-persons": PLAIN,
        "roles": Several(Part("Role")),
    },
    "properties.json": {"properties": Several(Part("Property"))},
    "Property": {
        "identifier": PLAIN,
        "kind": PLAIN,
        "datatype": PLAIN,
        "title": PLAIN,
        "role": PLAIN,
        "uri": PLAIN,
        "initial": VALUE,
        "restrictions": Part("Restrictions"),
    },
    "Restrictions": {
        "minInclusive": VALUE,
        "maxInclusive": VALUE,
        "minLength": PLAIN,
        "maxLength": PLAIN,
        "enumeration": Several(VALUE, 1),
    },
    "environments.json": {"environments": Several(Part("Environment"))},
    "Environment": {
        **THING,
        "learning-objects": Several(Part("Learning object")),
        "services": Several(Part("Service")),
        "environments": NAMES,
    },
    "Learning object": {**THING, "items": ITEMS},
    "Service": {"identifier": PLAIN, "kind": PLAIN, "title": PLAIN, "visible": Plain(True)},
    "Item": {"identifier": PLAIN, "href": PLAIN, "title": PLAIN, "visible": Plain(True)},
    "activities.json": {"activities": Several(Part("Activity")), "structures": Several(Part("Structure"))},
    "Activity": {
        "identifier": PLAIN,
        "kind": Plain("learning"),
        "title": PLAIN,
        "visible": Plain(True),
        **AIMS,
        "supports": NAMES,
        "environments": NAMES,
        "items": ITEMS,
        **completed("activity"),
    },
    "Structure": {
        "identifier": PLAIN,
        "kind": PLAIN,
        "title": PLAIN,
        "visible": Plain(True),
        "number-to-select": PLAIN,
        "environments": NAMES,
        "children": SOME_NAMES,
    },
    "unit.json": {
        "format": PLAIN,
        "identifier": PLAIN,
        "level": PLAIN,
        "title": PLAIN,
        "turns": Plain(64),
        "metadata": PLAIN,
        **AIMS,
        "method": Part("Method"),
    },
    "Method": {"plays": Several(Part("Play"), 1), **completed("unit")},
    "Play": {**THING, "acts": Several(Part("Act"), 1), **completed("play")},
    "Act": {"identifier": PLAIN, "title": PLAIN, "role-parts": Several(Part("Role-part"), 1), **completed("act")},
    "Role-part": {"identifier": PLAIN, "title": PLAIN, "role": PLAIN, "ref": PLAIN},
    "on-completion": {"feedback": ITEMS, "change": Several(CHANGE), "notify": Several(NOTICE)},
    "Change": {"property": PLAIN, "value": TERM},
    "Notice": {"roles": SOME_NAMES, "subject": PLAIN, "activity": PLAIN},
    "conditions.json": {"conditions": Several(Part("Condition"))},
    "Condition": {"if": TEST, "then": Several(Part("Action"), 1), "else": Several(Part("Action"))},
    **{completes(owner): members for owner, members in COMPLETES.items()},
    "when-property-value-is-set": {"property": PLAIN, "value": VALUE},
    "when-condition-true": {"role": PLAIN, "expression": TEST},
    "users-in-role": {"role": PLAIN, "expression": TEST},
    "Action": {"show": SOME_NAMES, "hide": SOME_NAMES, "change": CHANGE, "notify": NOTICE},
    "Test": {
        **{comparison: TWO_TERMS for comparison in ("is", "is-not", "greater-than", "less-than")},
        "and": TESTS,
        "or": TESTS,
        "not": TEST,
        "no-value": PLAIN,
        "is-member-of-role": PLAIN,
        "users-in-role": Part("users-in-role"),
        "complete": PLAIN,
    },
    "Term": {
        "property": PLAIN,
        **{literal: Value(literal) for literal in ("text", "integer", "boolean", "datetime", "duration")},
        "sum": TERMS,
        "multiply": TERMS,
        "subtract": TWO_TERMS,
        "divide": TWO_TERMS,
        "current-datetime": PLAIN,
        "datetime-activity-started": PLAIN,
        "time-unit-of-learning-started": PLAIN,
    },
}

# The documents in the order of files, and those that are there only where they have something in them.
FILES = [
    "roles.json",
    "properties.json",
    "environments.json",
    "activities.json",
    "unit.json",
    "conditions.json",
]
OPTIONAL = ["properties.json", "environments.json", "conditions.json"]
