"""What is well written and left out: `current-datetime` in most places, and `users-in-role` within its like.

    rows/left_out.tests    TEST | FAULT | FAULT    the place below a condition's test, and below one of an `expression`
    rows/left_out.terms    TERM | FAULT            the place below the value of a change

A dash is no fault; a place is one of this check, where no other code stands behind it.
"""
import json

from shapes import rows
from units import act, activity, change, condition, folder, follows, notice, one_act, part, play, prop

LIMIT = {"time-limit": "P1D"}
READ = {"complete": "read"}
CONDITION = "conditions.json /conditions"
ACT = "unit.json /method/plays/0/acts/0"


def unit(**given):
    """A unit with a property that is a moment, since tests here compare moments."""
    return folder(level="C", properties=[prop("due", "datetime")], **given)


def told(place, fault):
    if fault == "-":
        return None
    below, _, code = fault.partition(" ")
    return f"{place}{'' if below == '.' else below} {code or 'not-in-profile'}"


def tests():
    for name, [text, fault, quantified] in rows("left_out.tests"):
        test = json.loads(text)
        yield name, told(f"{CONDITION}/0/if", fault), unit(conditions=[condition(test)])
        yield f"{name} in a later condition", told(f"{CONDITION}/1/if/and/1", fault), unit(
            conditions=[condition(READ), condition({"and": [READ, test]})])
        yield f"{name} in an act's test", told(f"{ACT}/complete/when-condition-true/expression", quantified), unit(
            plays=one_act(complete={"when-condition-true": {"role": "learner", "expression": test}}))
        inner = {"users-in-role": {"role": "learner", "expression": {"or": [READ, test]}}}
        yield f"{name} of users", told(f"{CONDITION}/0/if/users-in-role/expression/or/1", quantified), unit(
            conditions=[condition(inner)])


def terms():
    for name, [text, fault] in rows("left_out.terms"):
        given = change("due", json.loads(text))
        after = follows(change=[given])
        yield f"{name} in an action", told(f"{CONDITION}/0/then/0/change/value", fault), unit(
            conditions=[condition(READ, {"change": given})])
        yield f"{name} in another branch", told(f"{CONDITION}/0/else/1/change/value", fault), unit(
            conditions=[condition(READ, **{"else": [{"hide": ["read"]}, {"change": given}]})])
        yield f"{name} behind an activity", told("activities.json /activities/0/on-completion/change/0/value", fault), unit(
            activities=[activity(on_completion=after)])
        yield f"{name} behind an act", told(f"{ACT}/on-completion/change/0/value", fault), unit(
            plays=one_act(complete=LIMIT, on_completion=after))
        yield f"{name} behind a play", told("unit.json /method/plays/0/on-completion/change/0/value", fault), unit(
            plays=[play(complete=LIMIT, on_completion=after)])
        yield f"{name} behind the unit", told("unit.json /method/on-completion/change/0/value", fault), unit(
            method={"complete": LIMIT, "on_completion": after})


def first_of_two():
    now = {"current-datetime": True}
    after = follows(change=[change("due", now)], notify=[notice("learner")])
    asked = {"users-in-role": {"role": "learner", "expression": READ}}
    held = {"when-condition-true": {"role": "learner", "expression": asked}}
    alone = {"users-in-role": {"role": "learner", "expression": asked}}
    yield "what follows nothing before its change", "activities.json /activities/0/on-completion not-in-profile", unit(
        activities=[activity(complete=None, on_completion=after)])
    yield "a change before a later activity", (
        "activities.json /activities/0/on-completion/change/0/value not-in-profile"), unit(
        activities=[activity(on_completion=after), activity("x", complete=None, on_completion={})])
    yield "an act's test before what follows", f"{ACT}/complete/when-condition-true/expression not-in-profile", unit(
        plays=one_act(complete=held, on_completion=after))
    yield "a second act's test", "unit.json /method/plays/0/acts/1/complete/when-condition-true/expression not-in-profile", (
        unit(plays=[play(acts=[act(), act("b", [part("rp2")], complete=held)], on_completion={})]))
    yield "the unit before a condition", "unit.json /method/on-completion not-in-profile", unit(
        method={"on_completion": {}}, conditions=[condition(alone)])
    yield "a test before what is done", f"{CONDITION}/0/if/users-in-role/expression not-in-profile", unit(
        conditions=[condition(alone, {"change": change("due", now)})])
    yield "what is done before a later test", f"{CONDITION}/0/then/1/change/value not-in-profile", unit(
        conditions=[condition(READ, {"show": ["read"]}, {"change": change("due", now)}), condition(alone)])


def cases():
    yield from tests()
    yield from terms()
    yield from first_of_two()
