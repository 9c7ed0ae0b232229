"""Random terms, tests, changes, notices and actions that are well typed for their place.

A place is a person's or the run's: a term at the run's place reads no property that each person has, and not when
somebody opened an activity.
"""
from declarations import some_value
from runs import is_personal
from samples import respelled, sample
from terms import type_of

TYPES = ["boolean", "integer", "integer", "text", "datetime", "duration"]
SUMS = {"integer": ["integer"], "datetime": ["duration"], "duration": ["duration"]}
DIFFERENCES = {"integer": [("integer", "integer")], "datetime": [("datetime", "duration")],
               "duration": [("datetime", "datetime"), ("duration", "duration")]}
# Arithmetic whose result is the least or the greatest of its type, or just beyond.
MOST, LEAST, HALF = str(2**63 - 1), str(-2**63), str(2**62)
FIRST, LAST, LONGEST = "0001-01-01T00:00:00Z", "9999-12-31T23:59:59Z", "PT999999999999S"
EDGES = {
    "integer": [("sum", MOST, "0"), ("sum", MOST, "1"), ("sum", MOST, "1", "-1"), ("sum", LEAST, "-1"),
                ("subtract", LEAST, "0"), ("subtract", LEAST, "1"), ("subtract", "-1", MOST), ("subtract", "-2", MOST),
                ("multiply", HALF, "2"), ("multiply", HALF, "-2"), ("multiply", HALF, "-2", "-1"),
                ("divide", LEAST, "-1"), ("divide", LEAST, "1"), ("divide", MOST, "-1"), ("divide", "7", "-2"),
                ("divide", "-7", "2"), ("divide", "-7", "-2"), ("divide", "1", "0"), ("divide", "0", "-3")],
    "datetime": [("sum", LAST, "PT0S"), ("sum", LAST, "PT1S"), ("sum", LAST, LONGEST), ("subtract", FIRST, "PT0S"),
                 ("subtract", FIRST, "PT1S"), ("sum", FIRST, "P3652058DT23H59M59S"), ("sum", FIRST, "P3652059D")],
    "duration": [("sum", LONGEST, "PT0S"), ("sum", LONGEST, "PT1S"), ("sum", "PT1S", LONGEST, "PT0S"),
                 ("subtract", "PT1S", "PT1S"), ("subtract", "PT0S", "PT1S"), ("subtract", LAST, FIRST),
                 ("subtract", FIRST, LAST), ("subtract", LAST, LAST)],
}


# Terms.

def properties_of(draft, kind, is_run):
    """The properties of a type that a term at this place may read."""
    return [each for each in draft.properties
            if type_of(each["datatype"]) == kind and not (is_run and is_personal(each))]


def literal(draft, kind):
    """A literal of a type."""
    draft.leaf()
    return {kind: sample(draft.draw, kind, draft.era)}


def simple_term(draft, kind, is_run):
    """A property, a literal, or of moments one that the run keeps."""
    properties = properties_of(draft, kind, is_run)
    if properties and draft.happens(0.55):
        draft.leaf()
        return {"property": draft.draw.choice(properties)["identifier"]}
    if kind != "datetime" or draft.happens(0.35):
        return literal(draft, kind)
    draft.leaf()
    if is_run or draft.happens(0.4):
        return {"time-unit-of-learning-started": True}
    return {"datetime-activity-started": draft.draw.choice(draft.activities)}


def edge(draft, kind):
    """An arithmetic of literals near the end of a range."""
    word, *texts = draft.draw.choice(EDGES[kind])
    for _ in texts:
        draft.leaf()
    kinds = ["duration" if text[0] == "P" else "datetime" if text[-1] == "Z" else "integer" for text in texts]
    return {word: [{kind: text} for kind, text in zip(kinds, texts)]}


def arithmetic(draft, kind, is_run, depth):
    """An arithmetic with a result of the type."""
    if draft.happens(0.1):
        return edge(draft, kind)
    words = ["sum", "subtract", "multiply", "divide", "divide"] if kind == "integer" else ["sum", "subtract"]
    word = draft.draw.choice(words)
    if word == "subtract":
        kinds = draft.draw.choice(DIFFERENCES[kind])
    elif word == "divide":
        kinds = ["integer", "integer"]
    else:
        kinds = [kind] + SUMS[kind] * draft.draw.choice([1, 1, 2])
    return {word: [term(draft, each, is_run, depth - 1) for each in kinds]}


def term(draft, kind, is_run, depth=1):
    """A term of a type."""
    if depth > 0 and kind in SUMS and draft.happens(0.35):
        return arithmetic(draft, kind, is_run, depth)
    return simple_term(draft, kind, is_run)


# Tests.

def literal_for(draft, declared):
    """A literal that the property may well equal."""
    kind = type_of(declared["datatype"])
    text = some_value(draft.draw, draft.era, declared)
    draft.leaf()
    if text is None:
        return {kind: sample(draft.draw, kind, draft.era)}
    return {kind: respelled(draft.draw, kind, text, 0.2)}


def comparison(draft):
    """A comparison of a property and a value that it may have, of the present moment and another, or of any two."""
    if draft.happens(0.15):
        draft.leaf()
        terms = [{"current-datetime": True}, term(draft, "datetime", False)]
        kind = "datetime"
        draft.draw.shuffle(terms)
    elif draft.properties and draft.happens(0.75):
        declared = draft.draw.choice(draft.properties)
        kind = type_of(declared["datatype"])
        draft.leaf()
        terms = [{"property": declared["identifier"]}, literal_for(draft, declared)]
        if draft.happens(0.15):
            terms.reverse()
    else:
        kind = draft.draw.choice(TYPES)
        terms = [term(draft, kind, False), term(draft, kind, False)]
    words = ["is", "is", "is-not"] + (["greater-than", "less-than"] * 2 if kind not in ("boolean", "text") else [])
    return {draft.draw.choice(words): terms}


def quantified(draft):
    """A role, and what is to hold for each of its members."""
    draft.is_quantified = True
    made = {"role": draft.draw.choice(draft.roles), "expression": test(draft, 1)}
    draft.is_quantified = False
    return made


def done_test(draft):
    """A test whether something is done."""
    method = draft.plays + draft.acts + draft.parts + [draft.identifier]
    draft.leaf()
    return {"complete": draft.draw.choice(draft.activities + draft.structures if draft.happens(0.7) else method)}


def simple_test(draft):
    """A test without tests in it."""
    way = draft.draw.random()
    if way < 0.6:
        return comparison(draft)
    if way < 0.7 and draft.properties:
        draft.leaf()
        return {"no-value": draft.draw.choice(draft.properties)["identifier"]}
    if way < 0.8:
        draft.leaf()
        return {"is-member-of-role": draft.draw.choice(draft.roles)}
    return done_test(draft)


def test(draft, depth):
    """A test."""
    way = draft.draw.random()
    if way < 0.12 and not draft.is_quantified and draft.left["quantified"] >= 30:
        return {"users-in-role": quantified(draft)}
    if way > (0.3 if depth > 2 else 0.65) and depth > 0:
        if way > 0.9:
            return {"not": test(draft, depth - 1)}
        return {draft.draw.choice(["and", "or"]): [test(draft, depth - 1) for _ in range(draft.draw.choice([2, 2, 3]))]}
    return simple_test(draft)


def value_is_set(draft, properties):
    """That one of these properties is set, mostly to a value."""
    declared = draft.draw.choice(properties)
    made = {"property": declared["identifier"]}
    draft.leaf()
    value = some_value(draft.draw, draft.era, declared)
    if value is not None and draft.happens(0.7):
        made["value"] = value
    return made


# Changes, notices, actions.

def change_to(draft, declared, is_run):
    """A term for a property: a value that fits, the value and something more, an arithmetic, or any."""
    kind = type_of(declared["datatype"])
    way = draft.draw.random()
    if way < 0.4 or kind not in SUMS and way < 0.7:
        return literal_for(draft, declared)
    if kind in SUMS and way < 0.6:
        draft.leaf()
        return {draft.draw.choice(["sum", "sum", "subtract"]): [
            {"property": declared["identifier"]}, term(draft, SUMS[kind][0], is_run, 0)]}
    return arithmetic(draft, kind, is_run, 1) if kind in SUMS and way < 0.9 else term(draft, kind, is_run)


def change(draft, is_run):
    """A change, at the run's place where `is_run` and the property is one of the run, and else at a person's."""
    declared = draft.draw.choice(draft.properties)
    value = change_to(draft, declared, is_run and not is_personal(declared))
    return {"property": declared["identifier"], "value": value}


def notice(draft):
    """A notice to the members of one to three roles."""
    made = {"roles": draft.some(draft.roles)}
    if draft.happens(0.7):
        made["subject"] = draft.draw.choice(["Go", "Look", "1", "é \"quoted\"", "\n", "s" * 256])
    return draft.with_some(made, 0.5, activity=draft.draw.choice(draft.activities))


def action(draft):
    """What a condition does."""
    way = draft.draw.random()
    if way < 0.4 or not draft.is_wordy() or not draft.properties:
        things = draft.chief if draft.happens(0.75) else draft.visible
        return {draft.draw.choice(["show", "hide"]): draft.some(things)}
    if way < 0.65 and draft.has("C"):
        return {"notify": notice(draft)}
    return {"change": change(draft, False)}


def follows(draft, is_run):
    """What follows a completion; it may be nothing."""
    made = {}
    if draft.happens(0.5):
        made["feedback"] = draft.items()
    if draft.has("B") and draft.properties and draft.happens(0.5) and draft.is_wordy():
        made["change"] = [change(draft, is_run) for _ in range(draft.draw.choice([1, 1, 2]))]
    if draft.has("C") and draft.happens(0.4):
        made["notify"] = [notice(draft) for _ in range(draft.draw.choice([1, 1, 2]))]
    return made
