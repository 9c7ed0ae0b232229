"""Limits of numbers, at their ends and one beyond."""
from units import (act, activities, activity, condition, environments_of, folder, follows, item, items, named, one_act, part,
                   parts, play, prop, role, services, structure, structures_of)

METHOD = "unit.json /method too-many"
DONE = {"when-role-part-completed": ["rp0"]}
LAST = {"when-last-act-completed": True}
PLAYED = {"when-play-completed": ["p"]}


def nested_chain(depth):
    """A role with so many others, each in the one before it."""
    inner = named(f"n{depth}")
    for n in reversed(range(1, depth)):
        inner = named(f"n{n}", roles=[inner])
    return role("learner", roles=[inner])


def roles():
    sixty = [role("learner")] + [role(f"r{n}") for n in range(59)]
    pairs = [role(f"r{n}", roles=[named(f"x{n}")]) for n in range(29)]
    wide = [named(f"x{n}") for n in range(59)]
    yield "60 roles", None, sixty
    yield "61 roles", "/roles/60 too-many", sixty + [role("more")]
    yield "70 roles", "/roles/60 too-many", sixty + [role(f"m{n}") for n in range(10)]
    yield "60 roles in pairs", None, [role("learner"), *pairs, role("last")]
    yield "61 roles in pairs", "/roles/31 too-many", [role("learner"), *pairs, role("last"), role("more")]
    yield "62 roles in pairs", "/roles/30/roles/0 too-many", [
        role("learner"), *pairs, role("m", roles=[named("a1"), named("a2")])]
    yield "60 roles in one", None, [role("learner", roles=wide)]
    yield "61 roles in one", "/roles/0/roles/59 too-many", [role("learner", roles=wide + [named("more")])]
    yield "61 roles with a late top", "/roles/1 too-many", [role("learner", roles=wide), role("more")]
    yield "60 roles each in the last", None, [nested_chain(59)]
    yield "61 roles each in the last", "/roles/0" + "/roles/0" * 60 + " too-many", [nested_chain(60)]


def properties():
    yield "300 properties", None, [prop(f"n{n}") for n in range(300)]
    yield "301 properties", "/properties/300 too-many", [prop(f"n{n}") for n in range(301)]
    yield "310 properties of all kinds", "/properties/300 too-many", [
        prop(f"{kind}{n}", kind=kind) for n in range(62) for kind in ("loc", "locpers", "locrole", "glob", "globpers")]


def objects_in(*counts):
    """Environments with so many objects and services each."""
    return [named(f"e{n}", learning_objects=[named(f"o{n}.{m}") for m in range(objects)],
                  services=services(f"v{n}.", others)) for n, (objects, others) in enumerate(counts)]


def environments():
    yield "400 environments", None, environments_of([[]] * 400)
    yield "401 environments", "environments.json /environments/400 too-many", environments_of([[]] * 401)
    place = "environments.json /environments"
    yield "1,000 objects", None, objects_in((1000, 0))
    yield "1,001 objects", f"{place}/0/learning-objects/1000 too-many", objects_in((1001, 0))
    yield "1,000 services", None, objects_in((0, 1000))
    yield "1,001 services", f"{place}/0/services/1000 too-many", objects_in((0, 1001))
    yield "1,000 of both", None, objects_in((250, 250), (250, 250))
    yield "objects and a service beyond", f"{place}/0/services/0 too-many", objects_in((1000, 1))
    yield "both and an object beyond", f"{place}/2/learning-objects/0 too-many", objects_in(
        (400, 100), (100, 400), (1, 1))
    yield "both and a service beyond", f"{place}/1/services/399 too-many", objects_in((400, 100), (101, 400))
    many = [named("e", learning_objects=[named("o", items=items("i", 4001))])]
    yield "4,001 items of an object", f"{place}/0/learning-objects/0/items/4000 too-many", many


def spread(extra):
    """A unit with 4,000 items of every kind and, at one of its lists, one more."""
    lists = ["object", "objectives", "prerequisites", "items", "feedback", "unit objectives", "unit prerequisites",
             "act", "play", "unit"]
    counts = {name: 400 + (name == extra) for name in lists}
    of = {name: items(f"i{number}.", counts[name]) for number, name in enumerate(lists)}
    return folder(
        environments=[named("e", learning_objects=[named("o", items=of["object"])])],
        activities=[activity(learning_objectives=of["objectives"], prerequisites=of["prerequisites"],
                             items=of["items"], on_completion=follows(*of["feedback"]))],
        plays=[play(acts=[act(role_parts=parts("rp", 1), complete=DONE, on_completion=follows(*of["act"]))],
                    complete=LAST, on_completion=follows(*of["play"]))],
        method={"complete": PLAYED, "on_completion": follows(*of["unit"])},
        learning_objectives=of["unit objectives"], prerequisites=of["unit prerequisites"])


def every_item():
    yield "4,000 items of every kind", None, spread("")
    for name in ["object", "feedback", "unit objectives", "act", "play", "unit"]:
        # The last list in document order is the unit's feedback.
        yield f"4,001 items, one more of {name}", (
            f"unit.json /method/on-completion/feedback/{400 if name == 'unit' else 399} too-many"), spread(name)
    for name in ["learning_objectives", "prerequisites", "items"]:
        place = f"activities.json /activities/0/{name.replace('_', '-')}"
        yield f"4,000 {name}", None, folder(activities=[activity(**{name: items("i", 4000)})])
        yield f"4,001 {name}", f"{place}/4000 too-many", folder(activities=[activity(**{name: items("i", 4001)})])
    for name in ["learning_objectives", "prerequisites"]:
        place = f"unit.json /{name.replace('_', '-')}"
        yield f"4,000 {name} of the unit", None, folder(**{name: items("i", 4000)})
        yield f"4,001 {name} of the unit", f"{place}/4000 too-many", folder(**{name: items("i", 4001)})
    yield "items of activities before those of the unit", "unit.json /learning-objectives/0 too-many", folder(
        activities=[activity(items=items("i", 4000))], learning_objectives=[item("o")])
    yield "4,001 items in two activities", "activities.json /activities/1/items/0 too-many", folder(
        activities=[activity(items=items("i", 3999), on_completion=follows(item("f"))),
                    activity("x", items=[item("j")])])


def activities_and_structures():
    yield "400 activities", None, folder(activities=[activity(), *activities("x", 399)])
    yield "401 activities", "activities.json /activities/400 too-many", folder(
        activities=[activity(), *activities("x", 400)])
    yield "400 of both", None, folder(structures=structures_of([[]] * 399))
    yield "a structure beyond", "activities.json /structures/399 too-many", folder(structures=structures_of([[]] * 400))
    yield "one structure beyond", "activities.json /structures/0 too-many", folder(
        activities=[activity(), *activities("x", 399)], structures=[structure("s", "read")])


def acts(count, last):
    """So many acts with one role-part each, the last one with so many."""
    return [act(f"a{n}", [part(f"rp{n}")]) for n in range(count - 1)] + [act("a", parts("y", last))]


def rules():
    """The activities, the structures, for each act its opening, its role-parts and its completion, for each
    play and the unit its completion: at most 600."""
    yield "598 role-parts", None, folder(plays=one_act(parts("rp", 598)))
    yield "599 role-parts", METHOD, folder(plays=one_act(parts("rp", 599)))
    whole = {"activities": [activity(), *activities("x", 399)]}
    yield "199 role-parts of 400 activities", None, folder(plays=one_act(parts("rp", 199)), **whole)
    yield "200 role-parts of 400 activities", METHOD, folder(plays=one_act(parts("rp", 200)), **whole)
    tops = {"structures": structures_of([[]] * 399)}
    yield "199 role-parts of 399 structures", None, folder(plays=one_act(parts("rp", 199)), **tops)
    yield "200 role-parts of 399 structures", METHOD, folder(plays=one_act(parts("rp", 200)), **tops)
    for count, fault in [(595, None), (596, METHOD)]:
        yield f"{count} role-parts and all completions", fault, folder(
            plays=[play(acts=[act(role_parts=parts("rp", count), complete=DONE)], complete=LAST)],
            method={"complete": PLAYED})
    yield "299 acts with 300 role-parts", None, folder(plays=[play(acts=acts(299, 2))])
    yield "299 acts with 301 role-parts", METHOD, folder(plays=[play(acts=acts(299, 3))])
    yield "300 acts with 300 role-parts", METHOD, folder(plays=[play(acts=acts(300, 1))])
    plays = [play(f"p{n}", [act(f"a{n}", [part(f"rp{n}")])], complete=LAST) for n in range(200)]
    yield "199 completed plays", None, folder(plays=plays[:199])
    yield "200 completed plays", METHOD, folder(plays=plays)
    yield "199 completed plays in a completed unit", None, folder(
        plays=plays[:199], method={"complete": {"time-limit": "PT1S"}})
    yield "199 completed plays and two more activities", None, folder(
        plays=plays[:199], activities=[activity(), *activities("x", 2)])
    yield "199 completed plays and three more activities", METHOD, folder(
        plays=plays[:199], activities=[activity(), *activities("x", 3)])
    yield from rules_with_conditions()


def rules_with_conditions():
    """The least unit has three rules: the activity, the act's opening and its role-part."""
    for count, fault in [(597, None), (598, METHOD)]:
        shown = {"conditions": [condition({"complete": "read"})] * count, "level": "B"}
        yield f"{count} conditions", fault, folder(**shown)
        yield f"{count} conditions with two branches", fault, folder(level="B", conditions=[
            condition({"complete": "read"}, {"show": ["read"]}, {"hide": ["read"]}, **{"else": [{"show": ["read"]}] * 3})
        ] * count)
        yield f"{count - 1} conditions and an act that is completed", fault, folder(
            plays=one_act(complete={"time-limit": "P1D"}), level="B", conditions=shown["conditions"][1:])
    half = [condition({"complete": "read"})] * 200
    yield "199 role-parts, 198 activities and 200 conditions", None, folder(
        activities=[activity(), *activities("x", 197)], plays=one_act(parts("rp", 199)), conditions=half, level="B")
    yield "199 role-parts, 201 activities and 200 conditions", METHOD, folder(
        activities=[activity(), *activities("x", 200)], plays=one_act(parts("rp", 199)), conditions=half, level="B")


def cases():
    for name, fault, given in roles():
        yield name, fault and f"roles.json {fault}", folder(roles=given)
    for name, fault, given in properties():
        yield name, fault and f"properties.json {fault}", folder(properties=given, level="B")
    for name, fault, given in environments():
        yield name, fault, folder(environments=given)
    yield from every_item()
    yield from activities_and_structures()
    yield from rules()
