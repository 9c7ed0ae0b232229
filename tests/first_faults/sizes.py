"""Sizes of role-parts, at most 20,000, and of units, at most 200,000."""
from units import (act, activities, activity, environments_of, folder, follows, item, items, named, one_act, part,
                   parts, play, service, services, sized, structure)

PART = "unit.json /method/plays/0/acts/0/role-parts/0 too-big"
UNIT = "unit.json /method too-big"
DONE = {"when-role-part-completed": ["rp0"]}
LAST = {"when-last-act-completed": True}
PLAYED = {"when-play-completed": ["p"]}


def reaching(target, environments, **given):
    """A unit with one role-part, which refers to the target."""
    return folder(environments=environments, plays=one_act([part(ref=target)]), **given)


def of_environment(size, **more):
    """A role-part of an environment `top`, with more members, that leads to one of this size."""
    return reaching("top", sized("big", size) + [named("top", environments=["big"], **more)])


def of_activity(size, **more):
    """A role-part of an activity, with more members, that has an environment of this size."""
    return reaching("read", sized("big", size), activities=[activity(environments=["big"], **more)])


def of_structure(size, *children, environments=(), structures=(), **more):
    """A role-part of a structure that has an environment of this size."""
    top = structure("top", *children, environments=["big", *environments])
    return reaching("top", sized("big", size), structures=[top, *structures], **more)


def environment_parts():
    """By name, the rest of a role-part's size beside that of the environment, and the unit."""
    objects = [named("o1", items=items("i", 20)), named("o2", visible=False, items=[item("h", visible=False)])]
    yield "an environment alone", 1, lambda size: reaching("big", sized("big", size))
    yield "an environment of an environment", 2, of_environment
    yield "services", 10, lambda size: of_environment(
        size, services=services("v", 7) + [service("w", visible=False)])
    yield "objects and their items", 25, lambda size: of_environment(size, learning_objects=objects)
    yield "objects without items", 102, lambda size: of_environment(
        size, learning_objects=[named(f"o{n}") for n in range(100)])
    yield "a hidden environment", 2, lambda size: of_environment(size, visible=False)


def activity_parts():
    more = items("m", 10)
    yield "an activity", 2, of_activity
    yield "items of an activity", 12, lambda size: of_activity(size, items=more)
    yield "hidden items of an activity", 3, lambda size: of_activity(size, items=[item("m", visible=False)])
    yield "feedback of an activity", 12, lambda size: of_activity(size, on_completion=follows(*more))
    yield "items and feedback of an activity", 15, lambda size: of_activity(
        size, items=more, on_completion=follows(*items("f", 3)))
    yield "objectives and prerequisites of an activity", 2, lambda size: of_activity(
        size, learning_objectives=more, prerequisites=items("q", 10))
    yield "many items of an activity", 3902, lambda size: of_activity(size, items=items("m", 3900))
    yield "a second environment of an activity", 8, lambda size: reaching(
        "read", sized("big", size) + [named("e", services=services("v", 5))],
        activities=[activity(environments=["e", "big"])])


def structure_parts():
    yield "a structure", 3, lambda size: of_structure(size, "read")
    yield "children of a structure", 9, lambda size: of_structure(
        size, "read", "x0", activities=[activity(items=items("i", 5)), *activities("x", 1)])
    yield "a structure of a structure", 4, lambda size: of_structure(
        size, "inner", structures=[structure("inner", "read")])
    yield "a structure by two ways", 13, lambda size: of_structure(
        size, "left", "right", structures=[structure("left", "shared"), structure("right", "shared", "read"),
                                           structure("shared", "read", "x")],
        activities=[activity(), activity("x", items=items("i", 1))])
    yield "an activity by two ways", 13, lambda size: of_structure(
        size, "read", "inner", structures=[structure("inner", "read")],
        activities=[activity(items=items("i", 4))])
    yield "a selection", 4, lambda size: reaching(
        "s", sized("big", size), structures=[
            structure("s", "read", "x", kind="selection", number_to_select=1, environments=["big"])],
        activities=[activity(), activity("x")])


def ends():
    """Each at the limit and one beyond."""
    for name, rest, make in [*environment_parts(), *activity_parts(), *structure_parts()]:
        yield f"{name} of 20,000", None, make(20_000 - rest)
        yield f"{name} of 20,001", PART, make(20_001 - rest)


def twice():
    """An environment that a role-part reaches by several ways counts as often."""
    for size, fault in [(9_998, None), (9_999, PART)]:
        # The role-part, the structure, the activity and its item, and twice the environment.
        yield f"twice an environment of {size}", fault, reaching(
            "s", sized("big", size), structures=[structure("s", "read", environments=["big"])],
            activities=[activity(environments=["big"], items=[item("i")])])
    for size, fault in [(6_665, None), (6_666, PART)]:
        # The role-part, `top` and its service, the two that lead to the third, and thrice the third.
        yield f"thrice an environment of {size}", fault, reaching("top", [
            named("top", environments=["left", "big", "right"], services=services("v", 1)),
            named("left", environments=["big"]), named("right", environments=["big"]), *sized("big", size)])


def which():
    """Which role-part is told, and that what no role-part reaches does not count."""
    big, small = part("x", ref="big"), part("y")
    huge = sized("big", 20_000)
    place = "unit.json /method/plays"
    yield "the third role-part", f"{place}/0/acts/0/role-parts/2 too-big", folder(
        environments=huge, plays=one_act([small, part("z"), big, part("w", ref="big")]))
    yield "a later act", f"{place}/0/acts/1/role-parts/0 too-big", folder(
        environments=huge, plays=[play(acts=[act("b", [small]), act("c", [big])])])
    yield "a later play", f"{place}/1/acts/0/role-parts/0 too-big", folder(
        environments=huge, plays=[play(), play("q", [act("c", [big])])])
    yield "no role-part", None, folder(environments=sized("big", 1_000_000))
    yield "an activity in no role-part", None, folder(
        environments=sized("big", 1_000_000), activities=[activity(), activity("x", environments=["big"])])
    yield "a role-part before the unit", f"{place}/0/acts/0/role-parts/11 too-big", folder(
        environments=sized("big", 19_999) + sized("more", 20_000),
        plays=one_act(parts("rp", 11, ref="big") + [part("last", ref="more")]))


def whole(last, fed=(), **given):
    """A unit with nine role-parts of 20,000 and one of a size, and with feedback of act, play and unit."""
    after = {"on_completion": follows(item("f1"))} if "act" in fed else {}
    play_after = {"on_completion": follows(*items("f2", 2))} if "play" in fed else {}
    unit_after = {"on_completion": follows(*items("f3", 3))} if "unit" in fed else {}
    ten = parts("rp", 9, ref="big") + [part("last", ref="rest")]
    return folder(
        environments=sized("big", 19_999) + sized("rest", last - 1),
        plays=[play(acts=[act(role_parts=ten, complete=DONE, **after)], complete=LAST, **play_after)],
        method={"complete": PLAYED, **unit_after}, **given)


def units():
    for name, rest in [("role-parts", 0), ("act", 1), ("play", 2), ("unit", 3), ("act play unit", 6)]:
        fed = name.split() if rest else ()
        yield f"a unit of 200,000 with {name}", None, whole(20_000 - rest, fed)
        beyond = 20_001 - rest
        if beyond <= 20_000:
            yield f"a unit of 200,001 with {name}", UNIT, whole(beyond, fed)
    yield "objectives of the unit", None, whole(
        20_000, learning_objectives=items("o", 50), prerequisites=items("q", 50))
    over = parts("rp", 10, ref="big") + [part("small")]
    yield "eleven role-parts", UNIT, folder(environments=sized("big", 19_999), plays=one_act(over))
    spread_out = [play(f"p{n}", [act(f"a{n}", [part(f"rp{n}", ref="big")])]) for n in range(11)]
    yield "ten plays", None, folder(environments=sized("big", 19_999), plays=spread_out[:10])
    yield "eleven plays", UNIT, folder(environments=sized("big", 19_999), plays=spread_out)
    many_acts = [play(acts=[act(f"a{n}", [part(f"rp{n}", ref="big")]) for n in range(11)])]
    yield "eleven acts", UNIT, folder(environments=sized("big", 19_999), plays=many_acts)


def levels(count):
    """Two nodes for each level, each of which leads to both of the next one."""
    return [[2 * (n // 2) + 2, 2 * (n // 2) + 3] for n in range(2 * count - 2)] + [[], []]


def all_behind(count):
    return [list(range(n + 1, count)) for n in range(count)]


def quick():
    """Sizes far beyond what a number of 64 bits holds."""
    for title, ways in [("60 levels", levels(60)), ("64 levels", levels(64)), ("199 levels", levels(199)),
                        ("all to all behind", all_behind(390)), ("65 to all behind", all_behind(65))]:
        turned = [[len(ways) - 1 - to for to in leads] for leads in reversed(ways)]
        for way, graph, top in [("", ways, 0), (" turned round", turned, len(ways) - 1)]:
            yield f"environments, {title}{way}", PART, reaching(f"e{top}", environments_of(graph))
            tops = [structure(f"s{n}", *[f"s{to}" for to in leads] or ["read"]) for n, leads in enumerate(graph)]
            yield f"structures, {title}{way}", PART, reaching(f"s{top}", None, structures=tops)
    deep = levels(60)
    rooms = environments_of(deep)
    tops = [structure(f"s{n}", *[f"s{to}" for to in leads] or ["read"], environments=["e0"])
            for n, leads in enumerate(deep)]
    yield "structures over environments", PART, reaching("s0", rooms, structures=tops)
    yield "many role-parts", PART, folder(environments=rooms, plays=one_act(parts("rp", 500, ref="e0")))
    yield "a chain of all structures", None, reaching("s0", None, structures=[
        structure(f"s{n}", f"s{n + 1}" if n < 398 else "read") for n in range(399)])


def cases():
    yield from ends()
    yield from twice()
    yield from which()
    yield from units()
    yield from quick()
