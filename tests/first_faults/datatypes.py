"""Types of terms and values of a unit.

    rows/types.results     OPERATOR TYPE .. RESULT        all arithmetic that there is
    rows/types.tests       TEST | PLACE                   below a condition's test
    rows/types.changes     PROPERTY | TERM | PLACE        below a change in a person's place
    rows/types.run         PROPERTY | TERM | PLACE        below a change that completes an act, a play or the unit
    rows/types.sets        PROPERTY | VALUE | PLACE | PLACE   below `when-property-value-is-set` of an activity, of others
    rows/types.properties  PROPERTY | PLACE               below a property
    rows/values            DATATYPE | yes or no | TEXT    whether the text, written as in JSON, is a value

A place is one of `bad-type`, the place `.` is the object itself, and a dash is no fault.
"""
import itertools
import json

from shapes import rows
from units import act, activity, change, condition, folder, follows, one_act, part, play, prop

DATATYPES = ["string", "text", "uri", "boolean", "integer", "datetime", "duration"]
LITERALS = {"text": "x", "boolean": "true", "integer": "1", "datetime": "2024-01-01T00:00:00Z", "duration": "PT1H"}
LIMIT = {"time-limit": "P1D"}
READ = {"complete": "read"}
CONDITION = "conditions.json /conditions"
RESULTS = {tuple(given): result for line in rows("types.results") for *given, result in [line[1][0].split()]}
# A property of the run and one of a person of each datatype, one of a role, and two that units share.
PROPERTIES = [
    *[prop(each, each) for each in DATATYPES], *[prop(f"own-{each}", each, "locpers") for each in DATATYPES],
    prop("team", kind="locrole"), prop("all", kind="glob"), prop("each", kind="globpers"), prop("due", "datetime")]


def unit(**given):
    return folder(level="C", properties=PROPERTIES, **given)


def told(place, below):
    if below == "-":
        return None
    return f"{place}{'' if below == '.' else below} bad-type"


def literal(kind):
    return {kind: LITERALS[kind]}


def arithmetic():
    """Each operator with two operands of each type, and with three, and the result in a comparison."""
    for operator, count in itertools.product(["sum", "subtract", "multiply", "divide"], [2, 3]):
        if count == 3 and operator in ("subtract", "divide"):
            continue
        for kinds in itertools.product(LITERALS, repeat=count):
            result = RESULTS.get((operator, *kinds))
            term = {operator: [literal(kind) for kind in kinds]}
            place = "-" if result else "/is/0"
            yield f"{operator} of {' and '.join(kinds)}", told(f"{CONDITION}/0/if", place), unit(
                conditions=[condition({"is": [term, literal(result or "text")]})])
            for other in LITERALS if result else []:
                yield f"{operator} of {' and '.join(kinds)} is {other}", (
                    told(f"{CONDITION}/0/if/not", "-" if other == result else ".")), unit(
                    conditions=[condition({"not": {"is-not": [literal(other), term]}})])


def comparisons():
    """Each comparison of two types, as literals and as properties."""
    for word, one, other in itertools.product(["is", "is-not", "greater-than", "less-than"], LITERALS, LITERALS):
        right = one == other and (word.startswith("is") or one not in ("text", "boolean"))
        properties = [{"property": one}, {"property": f"own-{other}"}]
        for name, terms in [("literals", [literal(one), literal(other)]), ("properties", properties)]:
            yield f"{word} of {one} and {other}, {name}", told(f"{CONDITION}/0/if", "-" if right else "."), unit(
                conditions=[condition({word: terms})])


def tests():
    for name, [text, below] in rows("types.tests"):
        test = json.loads(text)
        yield name, told(f"{CONDITION}/0/if", below), unit(conditions=[condition(test)])
        yield f"{name} of users", told(f"{CONDITION}/0/if/users-in-role/expression", below), unit(
            conditions=[condition({"users-in-role": {"role": "learner", "expression": test}})])
        yield f"{name} in an act's test", told(
            "unit.json /method/plays/0/acts/0/complete/when-condition-true/expression/not", below), unit(
            plays=one_act(complete={"when-condition-true": {"role": "learner", "expression": {"not": test}}}))


def changes():
    """Changes in a person's place, and those of a person's property that the run brings."""
    for name, [target, text, below] in rows("types.changes"):
        given = change(target, json.loads(text))
        yield f"{name} in an action", told(f"{CONDITION}/0/then/1/change", below), unit(
            conditions=[condition(READ, {"show": ["read"]}, {"change": given})])
        yield f"{name} in another branch", told(f"{CONDITION}/0/else/0/change", below), unit(
            conditions=[condition(READ, **{"else": [{"change": given}]})])
        yield f"{name} behind an activity", told("activities.json /activities/0/on-completion/change/0", below), unit(
            activities=[activity(on_completion=follows(change=[given]))])


def of_run():
    for name, [target, text, below] in rows("types.run"):
        after = follows(change=[change("boolean", {"boolean": "true"}), change(target, json.loads(text))])
        places = {
            "an act": ("unit.json /method/plays/0/acts/0", {"plays": one_act(complete=LIMIT, on_completion=after)}),
            "a second act": ("unit.json /method/plays/0/acts/1", {"plays": [
                play(acts=[act(), act("b", [part("rp2")], complete=LIMIT, on_completion=after)])]}),
            "a play": ("unit.json /method/plays/0", {"plays": [play(complete=LIMIT, on_completion=after)]}),
            "the unit": ("unit.json /method", {"method": {"complete": LIMIT, "on_completion": after}}),
        }
        for where, (place, given) in places.items():
            yield f"{name} behind {where}", told(f"{place}/on-completion/change/1", below), unit(**given)


def sets():
    for name, [target, value, below, of_run_below] in rows("types.sets"):
        rule = {"property": target} if value == "absent" else {"property": target, "value": value}
        rule = {"when-property-value-is-set": rule}
        places = {
            "an activity": ("activities.json /activities/0", below, {"activities": [activity(complete=rule)]}),
            "an act": ("unit.json /method/plays/0/acts/0", of_run_below, {"plays": one_act(complete=rule)}),
            "a play": ("unit.json /method/plays/0", of_run_below, {"plays": [play(complete=rule)]}),
            "the unit": ("unit.json /method", of_run_below, {"method": {"complete": rule}}),
        }
        for where, (place, wrong, given) in places.items():
            yield f"{name}, {where}", told(f"{place}/complete/when-property-value-is-set", wrong), unit(**given)


def properties():
    for name, [text, below] in rows("types.properties"):
        given = {"identifier": "x", "kind": "loc", **json.loads(text)}
        place = "properties.json /properties"
        yield name, told(f"{place}/0", below), folder(level="B", properties=[given])
        for kind, more in [("glob", {"uri": "urn:x"}), ("locrole", {"role": "learner"})]:
            yield f"{name}, a second one, {kind}", told(f"{place}/1", below), folder(
                level="B", properties=[prop("first"), {**given, "kind": kind, **more}])
    for count, fault in [(100, None), (101, f"{place}/0/restrictions/enumeration wrong-shape")]:
        yield f"{count} texts to choose from", fault, folder(level="B", properties=[
            prop("x", restrictions={"enumeration": [str(number) for number in range(count)]})])


def values():
    """Each text as an initial value, as a restriction, as a value that is waited for and as a literal."""
    long = [(f"{kind} of {size} bytes", [kind, "yes" if size <= 4096 else "no", json.dumps(letter * (size // width))])
            for kind, letter, width in [("string", "x", 1), ("text", "é", 2), ("uri", "u", 1)] for size in (4096, 4098)]
    for name, [datatype, good, text] in [*rows("values"), *long]:
        value = json.loads(text)
        right = good == "yes"
        restricted = [("enumeration", [value], "/enumeration/0")]
        if datatype in ("integer", "datetime", "duration"):
            restricted += [(member, value, f"/{member}") for member in ("minInclusive", "maxInclusive")]
        for member, given, below in [("initial", value, "/initial"), *[
                ("restrictions", {each: inner}, f"/restrictions{at}") for each, inner, at in restricted]]:
            yield f"{name}, {below}", told("properties.json /properties/0", "-" if right else below), folder(
                level="B", properties=[prop("x", datatype, **{member: given})])
        rule = {"when-property-value-is-set": {"property": datatype, "value": value}}
        yield f"{name}, waited for", told("activities.json /activities/0", "-" if right else (
            "/complete/when-property-value-is-set/value")), unit(activities=[activity(complete=rule)])
        if datatype in LITERALS:
            yield f"{name}, a literal", told(f"{CONDITION}/0/if/is/1/{datatype}", "-" if right else "."), unit(
                conditions=[condition({"is": [{"property": datatype}, {datatype: value}]})])


def first_of_two():
    wrong = {"is": [{"integer": "1"}, {"text": "x"}]}
    bad = change("integer", {"text": "x"})
    rule = {"when-property-value-is-set": {"property": "integer", "value": "x"}}
    held = {"when-condition-true": {"role": "learner", "expression": wrong}}
    after = follows(change=[bad, bad])
    yield "a property before a condition", "properties.json /properties/0/initial bad-type", folder(
        level="B", properties=[prop("x", initial="x")], conditions=[condition(wrong)])
    yield "an earlier property", "properties.json /properties/0/restrictions bad-type", folder(level="B", properties=[
        prop("x", restrictions={"minLength": 1}), prop("y", initial="x")])
    yield "what completes before what follows", (
        "activities.json /activities/0/complete/when-property-value-is-set/value bad-type"), unit(
        activities=[activity(complete=rule, on_completion=after)], plays=one_act(complete=held))
    yield "the first change", "activities.json /activities/0/on-completion/change/0 bad-type", unit(
        activities=[activity(on_completion=after)], plays=one_act(complete=held))
    yield "an act before its play", "unit.json /method/plays/0/acts/0/complete/when-condition-true/expression bad-type", (
        unit(plays=[play(acts=[act(complete=held)], complete=rule)]))
    yield "a play before the unit", "unit.json /method/plays/0/complete/when-property-value-is-set/value bad-type", unit(
        plays=[play(complete=rule)], method={"complete": rule})
    yield "the unit before conditions", "unit.json /method/on-completion/change/0 bad-type", unit(
        method={"complete": LIMIT, "on_completion": after}, conditions=[condition(wrong)])
    yield "a test before what is done", f"{CONDITION}/0/if bad-type", unit(
        conditions=[condition(wrong, {"change": bad})])
    yield "what is done before a later condition", f"{CONDITION}/0/then/0/change bad-type", unit(
        conditions=[condition(READ, {"change": bad}), condition(wrong)])


def cases():
    for table in (arithmetic, comparisons, tests, changes, of_run, sets, properties, values, first_of_two):
        for name, fault, documents in table():
            yield f"{table.__name__}: {name}", fault, documents
