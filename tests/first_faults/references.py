"""References name what they should."""
import json

from units import (act, activity, change, condition, folder, follows, item, named, notice, one_act, part, play, prop, role,
                   service, structure)

COMPLETED = {"activity", "structure", "role-part", "role-part of another act", "role-part of another play", "act", "play",
             "unit"}
VISIBLE = {"play", "activity", "structure", "environment", "object", "service", "item of an object", "objective",
           "prerequisite", "item", "feedback", "objective of the unit", "feedback of the act"}
ROLE = {"role", "inner role"}
FIRST, ACT = "activities.json /activities/0", "unit.json /method/plays/0/acts/0"
CONDITION = "conditions.json /conditions/0"

# Which kinds of things each reference may name.
ALLOWED = {
    "properties.json /properties/1/role": ROLE,
    "environments.json /environments/0/environments/0": {"environment"},
    f"{FIRST}/supports/0": ROLE,
    f"{FIRST}/environments/0": {"environment"},
    f"{FIRST}/on-completion/change/0/property": {"property"},
    f"{FIRST}/on-completion/change/0/value/sum/1/property": {"property"},
    f"{FIRST}/on-completion/notify/0/roles/0": ROLE,
    f"{FIRST}/on-completion/notify/0/activity": {"activity"},
    "activities.json /activities/1/complete/when-property-value-is-set/property": {"property"},
    "activities.json /structures/0/environments/0": {"environment"},
    "activities.json /structures/0/children/0": {"activity", "structure"},
    f"{ACT}/role-parts/0/role": ROLE,
    f"{ACT}/role-parts/0/ref": {"activity", "structure", "environment"},
    f"{ACT}/complete/when-role-part-completed/0": {"role-part"},
    "unit.json /method/plays/0/acts/1/complete/when-condition-true/role": ROLE,
    "unit.json /method/plays/0/acts/1/complete/when-condition-true/expression/not/no-value": {"property"},
    "unit.json /method/plays/0/complete/when-property-value-is-set/property": {"property"},
    "unit.json /method/plays/0/on-completion/change/0/property": {"property"},
    "unit.json /method/complete/when-play-completed/0": {"play"},
    "unit.json /method/on-completion/notify/0/roles/0": ROLE,
    f"{CONDITION}/if/and/0/users-in-role/role": ROLE,
    f"{CONDITION}/if/and/0/users-in-role/expression/complete": COMPLETED,
    f"{CONDITION}/if/and/1/is/0/datetime-activity-started": {"activity"},
    f"{CONDITION}/if/and/2/no-value": {"property"},
    f"{CONDITION}/if/and/3/is-member-of-role": ROLE,
    f"{CONDITION}/if/and/4/complete": COMPLETED,
    f"{CONDITION}/if/and/5/or/0/greater-than/1/property": {"property"},
    f"{CONDITION}/then/0/show/0": VISIBLE,
    f"{CONDITION}/then/1/change/property": {"property"},
    f"{CONDITION}/then/1/change/value/property": {"property"},
    f"{CONDITION}/then/2/notify/roles/0": ROLE,
    f"{CONDITION}/then/2/notify/activity": {"activity"},
    f"{CONDITION}/else/0/hide/0": VISIBLE,
}

# One thing of each kind, by its identifier in the unit below.
THINGS = {
    "role": "tutor", "inner role": "chair", "property": "score", "environment": "e2", "object": "o",
    "item of an object": "oi", "service": "v", "activity": "write", "objective": "ao", "prerequisite": "aq", "item": "ai",
    "feedback": "af", "structure": "s2", "unit": "u", "objective of the unit": "uo", "play": "q", "act": "b",
    "role-part": "rp2", "role-part of another act": "rp3", "role-part of another play": "rq", "feedback of the act": "tf",
    "same act": "a", "same play": "p", "same activity": "read",
}
LIKE = {"same activity": "activity", "same play": "play", "same act": "act"}


def conditions():
    score = {"property": "score"}
    test = {"and": [
        {"users-in-role": {"role": "tutor", "expression": {"complete": "read"}}},
        {"is": [{"datetime-activity-started": "read"}, {"time-unit-of-learning-started": True}]}, {"no-value": "score"},
        {"is-member-of-role": "tutor"}, {"complete": "read"},
        {"or": [{"greater-than": [{"integer": "1"}, score]}, {"complete": "u"}]}]}
    return [condition(
        test, {"show": ["read"]}, {"change": change("score", score)}, {"notify": notice("tutor", activity="read")},
        **{"else": [{"hide": ["read"]}]})]


def whole():
    """A unit of level C with one thing of each kind, and each reference."""
    raised = change("score", {"sum": [{"integer": "1"}, {"property": "score"}]})
    value = {"when-property-value-is-set": {"property": "score", "value": "1"}}
    held = {"when-condition-true": {"role": "tutor", "expression": {"not": {"no-value": "score"}}}}
    first = activity(
        kind="support", learning_objectives=[item("ao")], prerequisites=[item("aq")], items=[item("ai")],
        supports=["tutor"], environments=["e2"],
        on_completion=follows(item("af"), change=[raised], notify=[notice("tutor", activity="read")]))
    opening = act(
        role_parts=[part(role="tutor", ref="read"), part("rp2")], complete={"when-role-part-completed": ["rp"]},
        on_completion=follows(item("tf")))
    first_play = play(acts=[opening, act("b", [part("rp3")], complete=held)], complete=value,
                      on_completion=follows(change=[change("score", {"integer": "1"})]))
    return folder(
        roles=[role("learner"), role("tutor", kind="staff", roles=[named("chair")])],
        properties=[prop("score"), prop("team", kind="locrole")],
        environments=[
            named("e1", learning_objects=[named("o", items=[item("oi")])], services=[service("v")], environments=["e2"]),
            named("e2")],
        activities=[first, activity("write", complete=value)],
        structures=[structure("s1", "write", environments=["e2"]), structure("s2", "write")],
        plays=[first_play, play("q", [act("c", [part("rq")])])],
        method={"complete": {"when-play-completed": ["p"]}, "on_completion": follows(notify=[notice("tutor")])},
        learning_objectives=[item("uo")], conditions=conditions(), level="C")


def with_target(documents, place, target):
    """The documents with this reference at the place."""
    file, pointer = place.split()
    changed = json.loads(json.dumps(documents))
    *steps, last = [int(step) if step.isdigit() else step for step in pointer.split("/")[1:]]
    inner = changed[file]
    for step in steps:
        inner = inner[step]
    assert isinstance(inner[last], str)
    inner[last] = target
    return changed


def matrix():
    """Each reference with a thing of each kind, and with nothing."""
    documents = whole()
    for place, allowed in ALLOWED.items():
        for kind, target in THINGS.items():
            fault = None if LIKE.get(kind, kind) in allowed else f"{place} wrong-kind-of-ref"
            yield f"{kind} at {place}", fault, with_target(documents, place, target)
        for target in ["none", "Tutor", "rp22", "e"]:
            yield f"{target} at {place}", f"{place} unknown-ref", with_target(documents, place, target)


def later_elements():
    """A fault behind references in order."""
    act_place = "unit.json /method/plays/0/acts/0/complete/when-role-part-completed"
    rooms = [named("x"), named("y")]
    yield "third environment of an environment", "environments.json /environments/2/environments/2 unknown-ref", folder(
        environments=rooms + [named("z", environments=["x", "y", "w"])])
    yield "second environment of an activity", "activities.json /activities/1/environments/1 wrong-kind-of-ref", folder(
        environments=rooms, activities=[activity(), activity("a2", environments=["x", "read"])])
    yield "second environment of a structure", "activities.json /structures/1/environments/1 unknown-ref", folder(
        environments=rooms, structures=[structure("s", "read"), structure("t", "s", environments=["x", "z"])])
    yield "second supported role", "activities.json /activities/0/supports/1 wrong-kind-of-ref", folder(
        activities=[activity(kind="support", supports=["learner", "read"])])
    yield "second child", "activities.json /structures/0/children/1 wrong-kind-of-ref", folder(
        environments=rooms, structures=[structure("s", "read", "x", "none")])
    yield "eleventh child", "activities.json /structures/0/children/10 unknown-ref", folder(
        activities=[activity()] + [activity(f"x{n}") for n in range(9)],
        structures=[structure("s", "read", *[f"x{n}" for n in range(10)])])
    yield "second role-part", f"{act_place}/1 unknown-ref", folder(
        plays=one_act(complete={"when-role-part-completed": ["rp", "rp2"]}))
    yield "the same numbers in another play", f"{act_place}/0 wrong-kind-of-ref", folder(
        plays=[*one_act(complete={"when-role-part-completed": ["rq"]}), play("q", [act("b", [part("rq")])])])
    yield "an earlier act's role-part", (
        "unit.json /method/plays/0/acts/1/complete/when-role-part-completed/0 wrong-kind-of-ref"), folder(
        plays=[play(acts=[act(), act("b", [part("rp2")], complete={"when-role-part-completed": ["rp"]})])])
    yield "an earlier play's role-part", (
        "unit.json /method/plays/1/acts/0/complete/when-role-part-completed/1 wrong-kind-of-ref"), folder(
        plays=[play(), play("q", [act("b", [part("rq")], complete={"when-role-part-completed": ["rq", "rp"]})])])
    yield "second play", "unit.json /method/complete/when-play-completed/1 wrong-kind-of-ref", folder(
        method={"complete": {"when-play-completed": ["p", "a"]}})
    yield "role of the second role-part", "unit.json /method/plays/0/acts/0/role-parts/1/role unknown-ref", folder(
        plays=one_act([part(), part("rp2", role="lerner")]))
    yield "the role is misspelt", "unit.json /method/plays/0/acts/0/role-parts/0/role unknown-ref", folder(
        plays=one_act([part(role="lerner")]))


def later_elements_of_conditions():
    both = [{"no-value": "n"}, {"no-value": "none"}]
    place = "conditions.json /conditions"
    properties = [prop("n")]

    def shown(*conditions):
        return folder(properties=properties, conditions=list(conditions))

    yield "a later test", f"{place}/0/if/or/1/no-value unknown-ref", shown(condition({"or": both}))
    yield "a test far within", f"{place}/0/if/not/and/1/not/or/1/no-value unknown-ref", shown(
        condition({"not": {"and": [{"no-value": "n"}, {"not": {"or": both}}]}}))
    yield "a term far within", f"{place}/0/if/is/1/sum/2/multiply/1/property wrong-kind-of-ref", shown(condition(
        {"is": [{"property": "n"}, {"sum": [{"integer": "1"}, {"property": "n"}, {
            "multiply": [{"property": "n"}, {"property": "read"}]}]}]}))
    yield "a later thing that is shown", f"{place}/0/then/1/show/2 wrong-kind-of-ref", shown(
        condition({"complete": "read"}, {"hide": ["read"]}, {"show": ["read", "p", "a"]}))
    yield "a later role of a notice", f"{place}/1/else/0/notify/roles/1 unknown-ref", shown(
        condition({"complete": "read"}), condition({"complete": "read"}, **{
            "else": [{"notify": notice("learner", "none", activity="none")}]}))
    yield "a later notice", f"{FIRST}/on-completion/notify/1/activity wrong-kind-of-ref", folder(
        activities=[activity(on_completion=follows(notify=[notice("learner"), notice("learner", activity="p")]))])
    yield "a later change", f"{FIRST}/on-completion/change/1/value/datetime-activity-started unknown-ref", folder(
        properties=[prop("n", "datetime")], activities=[activity(on_completion=follows(change=[
            change("n", {"current-datetime": True}), change("n", {"datetime-activity-started": "none"})]))])


def first_of_two_in_conditions():
    place = "conditions.json /conditions/0"
    unknown = {"property": "none"}
    yield "roles of properties before environments", "properties.json /properties/0/role unknown-ref", folder(
        properties=[prop("n", kind="locrole", role="none")], environments=[named("e", environments=["none"])])
    yield "a role of who is asked before the test", f"{place}/if/users-in-role/role unknown-ref", folder(
        conditions=[condition({"users-in-role": {"role": "none", "expression": {"complete": "none"}}})])
    yield "the test before what is done", f"{place}/if/complete wrong-kind-of-ref", folder(
        conditions=[condition({"complete": "learner"}, {"show": ["none"]})])
    yield "what is done before what is done else", f"{place}/then/0/hide/0 unknown-ref", folder(
        conditions=[condition({"complete": "read"}, {"hide": ["none"]}, **{"else": [{"hide": ["none"]}]})])
    yield "the first operand before the second", f"{place}/if/is/0/sum/1/property unknown-ref", folder(conditions=[
        condition({"is": [{"sum": [{"integer": "1"}, unknown]}, unknown]})])
    yield "the property before its value", f"{place}/then/0/change/property wrong-kind-of-ref", folder(
        conditions=[condition({"complete": "read"}, {"change": change("read", unknown)})])
    yield "roles of a notice before its activity", f"{place}/then/0/notify/roles/0 unknown-ref", folder(
        conditions=[condition({"complete": "read"}, {"notify": notice("none", activity="none")})])
    yield "changes before notices", f"{FIRST}/on-completion/change/0/property unknown-ref", folder(
        activities=[activity(on_completion=follows(change=[change("none", unknown)], notify=[notice("none")]))])
    yield "what completes before what follows", f"{FIRST}/complete/when-property-value-is-set/property unknown-ref", folder(
        activities=[activity(complete={"when-property-value-is-set": {"property": "none"}},
                             on_completion=follows(notify=[notice("none")]))])
    yield "the unit before conditions", "unit.json /method/on-completion/notify/0/roles/0 unknown-ref", folder(
        method={"complete": {"time-limit": "P1D"}, "on_completion": follows(notify=[notice("none")])},
        conditions=[condition({"complete": "none"})])


def first_of_two():
    part_place = "unit.json /method/plays/0/acts/0/role-parts/0"
    yield "a wrong kind before nothing", f"{part_place}/role wrong-kind-of-ref", folder(
        plays=one_act([part(role="read", ref="none")]))
    yield "nothing before a wrong kind", f"{part_place}/role unknown-ref", folder(
        plays=one_act([part(role="none", ref="learner")]))
    yield "activities before the method", "activities.json /activities/0/environments/0 unknown-ref", folder(
        activities=[activity(environments=["e"])], plays=one_act([part(role="u")]))
    yield "environments before activities", (
        "environments.json /environments/0/environments/0 wrong-kind-of-ref"), folder(
        environments=[named("e", environments=["read"])], activities=[activity(environments=["none"])])
    yield "supported roles before environments", "activities.json /activities/0/supports/0 wrong-kind-of-ref", folder(
        activities=[activity(kind="support", environments=["none"], supports=["u"])])
    yield "activities before structures", "activities.json /activities/1/environments/0 unknown-ref", folder(
        activities=[activity(), activity("x", environments=["none"])], structures=[structure("s", "none")])
    yield "environments before children", "activities.json /structures/0/environments/0 wrong-kind-of-ref", folder(
        structures=[structure("s", "none", environments=["s"])])
    yield "role-parts before what completes the act", f"{part_place}/ref unknown-ref", folder(
        plays=one_act([part(ref="none")], complete={"when-role-part-completed": ["p"]}))
    yield "acts before what completes the unit", (
        "unit.json /method/plays/0/acts/0/complete/when-role-part-completed/0 unknown-ref"), folder(
        plays=one_act(complete={"when-role-part-completed": ["none"]}),
        method={"complete": {"when-play-completed": ["none"]}})


def cases():
    yield from matrix()
    yield from later_elements()
    yield from later_elements_of_conditions()
    yield from first_of_two()
    yield from first_of_two_in_conditions()
