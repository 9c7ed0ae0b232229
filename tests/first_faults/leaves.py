"""Leaves of tests and terms, and those that are asked for each member of a role, at their limits and one beyond."""
from units import act, activity, change, condition, folder, follows, notice, one_act, part, play, prop

METHOD = "unit.json /method too-many"
LIMIT = {"time-limit": "P1D"}
READ = {"complete": "read"}
NOW, DUE = {"current-datetime": True}, {"property": "due"}
# Tests, and how many leaves each has.
TESTS = {
    "complete": (READ, 1),
    "no-value": ({"no-value": "n"}, 1),
    "is-member-of-role": ({"is-member-of-role": "learner"}, 1),
    "not": ({"not": {"not": READ}}, 1),
    "a property and a literal": ({"is": [{"property": "n"}, {"integer": "1"}]}, 2),
    "two literals": ({"less-than": [{"duration": "PT1H"}, {"duration": "PT2H"}]}, 2),
    "two texts": ({"is-not": [{"text": ""}, {"text": ""}]}, 2),
    "two truth values": ({"is": [{"boolean": "true"}, {"boolean": "true"}]}, 2),
    "two moments": ({"is": [{"datetime": "2024-01-01T00:00:00Z"}, {"time-unit-of-learning-started": True}]}, 2),
    "the present moment": ({"greater-than": [NOW, DUE]}, 2),
    "the start of an activity": ({"greater-than": [{"datetime-activity-started": "read"}, DUE]}, 2),
    "a sum": ({"is": [{"sum": [{"integer": "1"}, {"property": "n"}, {"integer": "1"}]}, {"multiply": [
        {"property": "n"}, {"property": "n"}]}]}, 5),
    "a difference": ({"is": [{"subtract": [DUE, DUE]}, {"duration": "PT1H"}]}, 3),
    "tests in tests": ({"and": [READ, {"or": [READ, READ, {"not": READ}]}]}, 4),
}


def unit(**given):
    return folder(level="C", properties=[prop("n"), prop("due", "datetime")], **given)


def any_of(tests):
    return {"or": tests}


def users(test):
    return {"users-in-role": {"role": "learner", "expression": test}}


def filled(test, size, count):
    """So many leaves: of this test as far as they go, and of the shortest one."""
    whole, rest = divmod(count, size)
    return any_of([test] * whole + [READ] * rest)


def numbers(limit):
    """A number of leaves and what is told of it."""
    return [(limit, None), (limit + 1, METHOD)]


def in_tests():
    for name, (test, size) in TESTS.items():
        for count, fault in numbers(4_000):
            yield f"{count} leaves, {name}", fault, unit(conditions=[condition(filled(test, size, count))])
        for count, fault in numbers(100):
            yield f"{count} leaves of users, {name}", fault, unit(conditions=[condition(users(filled(test, size, count)))])
            held = {"when-condition-true": {"role": "learner", "expression": filled(test, size, count)}}
            yield f"{count} leaves of members, {name}", fault, unit(plays=one_act(complete=held))


def terms(count):
    return {"sum": [{"integer": "1"}, *[{"property": "n"}] * (count - 1)]}


def in_changes():
    """Leaves of terms; the property that is written is none, nor is what is shown or told."""
    for count, fault in numbers(4_000):
        given = change("n", terms(count))
        after = follows(change=[given], notify=[notice("learner", activity="read")])
        yield f"{count} behind an activity", fault, unit(activities=[activity(on_completion=after)])
        yield f"{count} behind an act", fault, unit(plays=one_act(complete=LIMIT, on_completion=after))
        yield f"{count} behind a play", fault, unit(plays=[play(complete=LIMIT, on_completion=after)])
        yield f"{count} behind the unit", fault, unit(method={"complete": LIMIT, "on_completion": after})
        less = change("n", terms(count - 1))
        yield f"{count} of a test and an action", fault, unit(conditions=[
            condition(READ, {"show": ["read", "p"]}, {"change": less}, {"notify": notice("learner", activity="read")})])
        yield f"{count} of a test and the other branch", fault, unit(conditions=[
            condition(READ, **{"else": [{"change": less}]})])


def of_values():
    """What is waited for is one leaf, with and without a value."""
    bare = {"when-property-value-is-set": {"property": "n"}}
    given = {"when-property-value-is-set": {"property": "n", "value": "1"}}
    for count, fault in numbers(4_000):
        yield f"{count} with four that are waited for", fault, unit(
            activities=[activity(complete=bare)], plays=[play(acts=[act(complete=given)], complete=bare)],
            method={"complete": given}, conditions=[condition(any_of([READ] * (count - 4)))])
    for count, fault in numbers(100):
        yield f"{count} of users beside those that are waited for", fault, unit(
            activities=[activity(complete=bare)], plays=[play(complete=given)],
            conditions=[condition(users(any_of([READ] * count)))])


def spread():
    """Leaves in many places count together."""
    for count, fault in numbers(4_000):
        shown = [condition(any_of([READ] * 10)) for _ in range(399)]
        yield f"{count} in 400 conditions", fault, unit(conditions=[*shown, condition(any_of([READ] * (count - 3_990)))])
        yield f"{count} of which 100 of users", fault, unit(conditions=[
            condition({"and": [users(any_of([READ] * 100)), any_of([READ] * (count - 100))]})])
    for count, fault in numbers(100):
        held = {"when-condition-true": {"role": "learner", "expression": any_of([READ] * 50)}}
        asked = condition({"and": [READ, users(any_of([READ] * (count - 50)))]})
        yield f"{count} of users and of an act", fault, unit(plays=one_act(complete=held), conditions=[asked])
        yield f"{count} of two acts", fault, unit(plays=[play(acts=[
            act(complete=held), act("b", [part("rp2")], complete={"when-condition-true": {
                "role": "learner", "expression": any_of([READ] * (count - 50))}})])])
        yield f"{count} of users in {count} conditions", fault, unit(conditions=[condition(users(READ))] * count)
        yield f"{count} of users and many beside", fault, unit(conditions=[
            condition({"and": [users(any_of([READ] * count)), any_of([READ] * 3_000)]})])


def cases():
    yield from in_tests()
    yield from in_changes()
    yield from of_values()
    yield from spread()
