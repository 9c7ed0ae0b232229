"""The shapes of docs/FORMATS.md: for each object a walk that gives the faults of a value, in order.

A walk takes a value and its place, and gives pairs of a place and a code.
"""
import re

from reference_values import duration_of, is_printable

IDENTIFIER = re.compile(r"[A-Za-z_][A-Za-z0-9_.-]{0,63}")
DATATYPES = ["string", "text", "uri", "boolean", "integer", "datetime", "duration"]
KINDS = ["loc", "locpers", "locrole", "globpers", "glob"]
COMPARISONS = ["is", "is-not", "greater-than", "less-than"]
LITERALS = ["text", "integer", "boolean", "datetime", "duration"]


def leaf(has_form):
    def walk(value, at):
        return [] if has_form(value) else [(at, "wrong-shape")]
    return walk


def is_whole(value):
    """A number that is written with digits alone and has 64 bits (`reference_json` reads any other as no int)."""
    return isinstance(value, int) and not isinstance(value, bool)


def size(text):
    return len(text.encode())


def text_between(least, most):
    return leaf(lambda value: isinstance(value, str) and least <= size(value) <= most)


def address(most):
    return leaf(lambda value: isinstance(value, str) and is_printable(value, most))


def whole_between(least, most):
    return leaf(lambda value: is_whole(value) and least <= value and (most is None or value <= most))


def word(words, left_out=()):
    def walk(value, at):
        if isinstance(value, str) and value in left_out:
            return [(at, "not-in-profile")]
        return [] if isinstance(value, str) and value in words else [(at, "wrong-shape")]
    return walk


def left_out(_value, at):
    return [(at, "not-in-profile")]


def list_of(walk_element, least=0, most=None):
    def walk(value, at):
        if not isinstance(value, list) or len(value) < least or most is not None and len(value) > most:
            return [(at, "wrong-shape")]
        return [fault for number, each in enumerate(value) for fault in walk_element(each, f"{at}/{number}")]
    return walk


def record(*members):
    """An object with these members: each a name, which ends with `?` where it may be absent, and a walk."""
    table = [(name.removesuffix("?"), name.endswith("?"), walk) for name, walk in members]
    listed = {name for name, _, _ in table}

    def walk(value, at):
        if not isinstance(value, dict):
            return [(at, "wrong-shape")]
        faults = [(at, "unknown-member")] if any(name not in listed for name in value) else []
        for name, may_be_absent, walk_member in table:
            if name in value:
                faults += walk_member(value[name], f"{at}/{name}")
            elif not may_be_absent:
                faults.append((f"{at}/{name}", "missing"))
        return faults
    return walk


def sole(cases):
    """An object of exactly one member, which is one of these."""
    def walk(value, at):
        if not isinstance(value, dict) or len(value) != 1:
            return [(at, "wrong-shape")]
        (name, inner), = value.items()
        return cases[name](inner, f"{at}/{name}") if name in cases else [(at, "unknown-member")]
    return walk


def named(make):
    """A walk that is made from the value, since a member says what others may be."""
    return lambda value, at: make(value if isinstance(value, dict) else {})(value, at)


identifier = leaf(lambda value: isinstance(value, str) and IDENTIFIER.fullmatch(value) is not None)
reference = identifier
references = list_of(reference)
some_references = list_of(reference, 1)
title = text_between(1, 256)
text = leaf(lambda value: isinstance(value, str))
flag = leaf(lambda value: isinstance(value, bool))
true = leaf(lambda value: value is True)
time_limit = leaf(lambda value: isinstance(value, str) and duration_of(value) is not None)
thing = [("identifier", identifier), ("title?", title), ("visible?", flag)]

# ---- roles, properties and environments


def role(top):
    kind = [("kind", word(["learner", "staff"]))] if top else []
    return record(
        ("identifier", identifier), *kind, ("title?", title), ("create-new?", word(["not-allowed"], ["allowed"])),
        ("match-persons?", word(["exclusively-in-roles", "not-exclusively"])),
        ("min-persons?", whole_between(0, 1_000_000)), ("max-persons?", whole_between(0, 1_000_000)),
        ("roles?", list_of(lambda value, at: role(False)(value, at))))


restrictions = record(
    ("minInclusive?", text), ("maxInclusive?", text), ("minLength?", whole_between(0, 4096)),
    ("maxLength?", whole_between(0, 4096)), ("enumeration?", list_of(text, 1, 100)),
    ("pattern?", left_out), ("whiteSpace?", left_out), ("totalDigits?", left_out), ("fractionDigits?", left_out))


def property_of(value):
    kind = value.get("kind")
    uri = ("uri", address(4096))
    more = {"loc": [], "locpers": [], "locrole": [("role", reference)], "glob": [uri], "globpers": [uri]}
    unlisted = [("role?", reference), ("uri?", address(4096))]
    return record(
        ("identifier", identifier), ("kind", word(KINDS)), ("datatype", word(DATATYPES, ["real", "file", "other"])),
        ("title?", title), *(more.get(kind, unlisted) if isinstance(kind, str) else unlisted), ("initial?", text),
        ("restrictions?", restrictions))


item = record(("identifier", identifier), ("href", address(1024)), ("title?", title), ("visible?", flag))
items = list_of(item)
learning_object = record(*thing, ("items?", items))
service = record(
    ("identifier", identifier), ("kind", word(["send-mail", "conference", "monitor", "index-search"])),
    ("title?", title), ("visible?", flag))
environment = record(
    *thing, ("learning-objects?", list_of(learning_object)), ("services?", list_of(service)),
    ("environments?", references))

# ---- terms and tests


def term(value, at):
    return sole(TERMS)(value, at)


def test(value, at):
    return sole(TESTS)(value, at)


each_member = record(("role", reference), ("expression", test))
two_terms = list_of(term, 2, 2)
TERMS = {
    "property": reference, **{literal: text for literal in LITERALS}, "sum": list_of(term, 2),
    "multiply": list_of(term, 2), "subtract": two_terms, "divide": two_terms, "current-datetime": true,
    "datetime-activity-started": reference, "time-unit-of-learning-started": true,
}
TESTS = {
    **{comparison: two_terms for comparison in COMPARISONS}, "and": list_of(test, 2), "or": list_of(test, 2),
    "not": test, "no-value": reference, "is-member-of-role": reference, "users-in-role": each_member,
    "complete": reference,
}
change = record(("property", reference), ("value", term))
notice = record(("roles", some_references), ("subject?", title), ("activity?", reference))
action = sole({"show": some_references, "hide": some_references, "change": change, "notify": notice})
condition = record(("if", test), ("then", list_of(action, 1)), ("else?", list_of(action)))

# ---- activities and the method


def complete(**more):
    """What completes a thing: by time, by a property, and by what this kind of thing has beside."""
    return sole({
        "time-limit": time_limit,
        "when-property-value-is-set": record(("property", reference), ("value?", text)),
        **{name.replace("_", "-"): walk for name, walk in more.items()}})


def completed(walk):
    """The two members that end what is completed."""
    follows = record(("feedback?", items), ("change?", list_of(change)), ("notify?", list_of(notice)))
    return [("complete?", walk), ("on-completion?", follows)]


def activity_of(value):
    kind = value.get("kind", "learning")
    learns = isinstance(kind, str) and kind == "learning"
    return record(
        ("identifier", identifier), ("kind?", word(["learning", "support"])), ("title?", title), ("visible?", flag),
        ("learning-objectives?", items), ("prerequisites?", items), *([] if learns else [("supports?", references)]),
        ("environments?", references), ("items?", items), *completed(complete(user_choice=true)))


def structure_of(value):
    children = value.get("children")
    number = whole_between(1, len(children) if isinstance(children, list) else None)
    if value.get("kind") == "sequence":
        number = left_out
    return record(
        ("identifier", identifier), ("kind", word(["sequence", "selection"])), ("title?", title), ("visible?", flag),
        ("number-to-select?", number), ("environments?", references), ("children", some_references),
        ("sort?", left_out), ("unit-of-learning-href?", left_out))


role_part = record(
    ("identifier", identifier), ("title?", title), ("role", reference), ("ref", reference),
    ("unit-of-learning-href?", left_out))
act = record(
    ("identifier", identifier), ("title?", title), ("role-parts", list_of(role_part, 1)),
    *completed(complete(when_role_part_completed=some_references, when_condition_true=each_member)))
play = record(*thing, ("acts", list_of(act, 1)), *completed(complete(when_last_act_completed=true)))
method = record(("plays", list_of(play, 1)), *completed(complete(when_play_completed=some_references)))


def format_number(value, at):
    if not is_whole(value):
        return [(at, "wrong-shape")]
    return [] if value == 1 else [(at, "not-in-profile")]


DOCUMENTS = {
    "roles.json": record(("roles", list_of(role(True), 1))),
    "properties.json": record(("properties?", list_of(named(property_of)))),
    "environments.json": record(("environments?", list_of(environment))),
    "activities.json": record(
        ("activities?", list_of(named(activity_of))), ("structures?", list_of(named(structure_of)))),
    "unit.json": record(
        ("format", format_number), ("identifier", identifier), ("level", word(["A", "B", "C"])), ("title?", title),
        ("turns?", whole_between(1, 256)), ("metadata?", text_between(0, 4096)), ("learning-objectives?", items),
        ("prerequisites?", items), ("method", method)),
    "conditions.json": record(("conditions?", list_of(condition))),
}
