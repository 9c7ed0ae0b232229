"""Levels, and what follows a completion that is not said."""
from units import (act, activity, change, condition, folder, follows, item, named, notice, one_act, part, play, prop,
                   service, structure)

ROOM = "environments.json /environments/0"
LAST = {"when-last-act-completed": True}
PLAYED = {"when-play-completed": ["p"]}
DONE = {"when-role-part-completed": ["rp"]}
LIMIT = {"time-limit": "P1D"}


def room(*kinds, **more):
    return named("e", services=[service(f"v{n}", kind, **more) for n, kind in enumerate(kinds)])


def levels():
    yield "a monitor", f"{ROOM}/services/0 above-level", folder(environments=[room("monitor")])
    yield "a hidden monitor", f"{ROOM}/services/0 above-level", folder(environments=[room("monitor", visible=False)])
    yield "the third service", f"{ROOM}/services/2 above-level", folder(
        environments=[room("send-mail", "conference", "monitor", "monitor")])
    yield "a later environment", "environments.json /environments/1/services/0 above-level", folder(
        environments=[named("x"), room("monitor")])
    yield "an inner environment first", "environments.json /environments/0/services/1 above-level", folder(
        environments=[named("x", services=[service("w"), service("m", "monitor")], environments=["e"]),
                      room("monitor")])
    for level in "BC":
        yield f"a monitor at level {level}", None, folder(environments=[room("monitor")], level=level)
    yield "other services", None, folder(
        environments=[room("send-mail", "conference", "index-search")])


VALUE = {"when-property-value-is-set": {"property": "n"}}
TRUE = {"when-condition-true": {"role": "learner", "expression": {"complete": "read"}}}
CHANGES = [change("n", {"integer": "1"})]
NOTICES = [notice("learner")]
SHOWN = condition({"complete": "read"})
TOLD = condition({"complete": "read"}, {"notify": notice("learner")})
ACT, METHOD = "unit.json /method/plays/0/acts/0", "unit.json /method"


def of_level_b():
    """What is above level A: its place, and a folder but for its level."""
    yield "a property", "properties.json /properties/0", {"properties": [prop("n")]}
    yield "a condition", "conditions.json /conditions/0", {"conditions": [SHOWN]}
    yield "two conditions", "conditions.json /conditions/0", {"conditions": [SHOWN, TOLD]}
    yield "an act's test", f"{ACT}/complete", {"plays": one_act(complete=TRUE)}
    yield "a second act's test", "unit.json /method/plays/0/acts/1/complete", {
        "plays": [play(acts=[act(), act("b", [part("rp2")], complete=TRUE)])]}
    yield "a condition with a notice", "conditions.json /conditions/0", {"conditions": [TOLD]}


def with_a_property():
    """What names a property, which itself is the first above level A."""
    for where, given in [
            ("an activity's property", {"activities": [activity(complete=VALUE)]}),
            ("an act's property", {"plays": one_act(complete=VALUE)}),
            ("a play's property", {"plays": [play(complete=VALUE)]}),
            ("the unit's property", {"method": {"complete": VALUE}}),
            ("an activity's change", {"activities": [activity(on_completion=follows(change=CHANGES))]}),
            ("an act's change", {"plays": one_act(complete=LIMIT, on_completion=follows(change=CHANGES))}),
            ("a play's change", {"plays": [play(complete=LIMIT, on_completion=follows(change=CHANGES))]}),
            ("the unit's change", {"method": {"complete": LIMIT, "on_completion": follows(change=CHANGES)}})]:
        yield where, {"properties": [prop("n")], **given}


def empty_lists():
    """Empty lists are absent ones: no level is broken."""
    empty = follows(change=[], notify=[])
    yield "an activity's empty lists", {"activities": [activity(on_completion=empty)]}
    yield "an act's empty lists", {"plays": one_act(complete=LIMIT, on_completion=empty)}
    yield "a play's empty lists", {"plays": [play(complete=LIMIT, on_completion=empty)]}
    yield "the unit's empty lists", {"method": {"complete": LIMIT, "on_completion": empty}}


def of_level_c():
    """What is above levels A and B."""
    after = follows(notify=NOTICES)
    yield "an activity's notice", "activities.json /activities/0/on-completion/notify", {
        "activities": [activity(on_completion=after)]}
    yield "an act's notice", f"{ACT}/on-completion/notify", {"plays": one_act(complete=LIMIT, on_completion=after)}
    yield "a play's notice", "unit.json /method/plays/0/on-completion/notify", {
        "plays": [play(complete=LIMIT, on_completion=after)]}
    yield "the unit's notice", f"{METHOD}/on-completion/notify", {"method": {"complete": LIMIT, "on_completion": after}}
    yield "feedback and a notice", "activities.json /activities/0/on-completion/notify", {
        "activities": [activity(on_completion=follows(item("f"), change=[], notify=NOTICES * 2))]}


def notices_of_conditions():
    """At level B a condition may stand, and its notice is told at the action."""
    place = "conditions.json /conditions"
    yield "a condition's notice", f"{place}/0/then/0", [TOLD]
    yield "a second action", f"{place}/0/then/1", [condition(
        {"complete": "read"}, {"show": ["read"]}, {"notify": notice("learner")}, {"notify": notice("learner")})]
    yield "a notice of the other branch", f"{place}/0/else/0", [
        condition({"complete": "read"}, **{"else": [{"notify": notice("learner")}]})]
    yield "a notice of a later condition", f"{place}/1/then/0", [SHOWN, TOLD]


def levels_of_more():
    for name, place, given in of_level_b():
        yield f"{name} at level A", f"{place} above-level", folder(**given)
    for name, given in with_a_property():
        yield f"{name} at level A", "properties.json /properties/0 above-level", folder(**given)
        yield f"{name} at level B", None, folder(level="B", **given)
    for name, given in empty_lists():
        yield f"{name} at level A", None, folder(**given)
    for name, place, given in of_level_c():
        for level in "AB":
            yield f"{name} at level {level}", f"{place} above-level", folder(level=level, **given)
        yield f"{name} at level C", None, folder(level="C", **given)
    for name, place, given in notices_of_conditions():
        yield f"{name} at level A", "conditions.json /conditions/0 above-level", folder(conditions=given)
        yield f"{name} at level B", f"{place} above-level", folder(level="B", conditions=given)
        yield f"{name} at level C", None, folder(level="C", conditions=given)


def first_levels():
    """Which of two is first."""
    monitor = [named("e", services=[service("m", "monitor")])]
    after = follows(notify=NOTICES)
    yield "a property before a monitor", "properties.json /properties/0 above-level", folder(
        properties=[prop("n")], environments=monitor)
    yield "a monitor before a notice", f"{ROOM}/services/0 above-level", folder(
        environments=monitor, activities=[activity(on_completion=after)])
    yield "a notice before an act's test", "activities.json /activities/0/on-completion/notify above-level", folder(
        activities=[activity(on_completion=after)], plays=one_act(complete=TRUE))
    yield "an act's test before its notice", f"{ACT}/complete above-level", folder(
        plays=one_act(complete=TRUE, on_completion=after))
    yield "an act's test before a play's notice", f"{ACT}/complete above-level", folder(
        plays=[play(acts=[act(complete=TRUE)], complete=LIMIT, on_completion=after)])
    yield "a notice of the unit before a condition", f"{METHOD}/on-completion/notify above-level", folder(
        method={"complete": LIMIT, "on_completion": after}, conditions=[SHOWN])
    yield "a notice of the unit before one of a condition", f"{METHOD}/on-completion/notify above-level", folder(
        level="B", method={"complete": LIMIT, "on_completion": after}, conditions=[TOLD])


def lone(where, feedback):
    """A unit where something follows what is completed nowhere: an activity, an act, a play or the unit."""
    after = {"on_completion": follows(*feedback) if feedback else {}}
    return {
        "an activity": ("activities.json /activities/0/on-completion",
                        {"activities": [activity(complete=None, **after)]}),
        "a second activity": ("activities.json /activities/1/on-completion",
                              {"activities": [activity(complete=None), activity("x", complete=None, **after)]}),
        "a support activity": ("activities.json /activities/0/on-completion",
                               {"activities": [activity(kind="support", complete=None, **after)]}),
        "an act": ("unit.json /method/plays/0/acts/0/on-completion", {"plays": one_act(**after)}),
        "a second act": ("unit.json /method/plays/0/acts/1/on-completion", {
            "plays": [play(acts=[act(), act("b", [part("rp2")], **after)])]}),
        "a play": ("unit.json /method/plays/0/on-completion", {"plays": [play(**after)]}),
        "a second play": ("unit.json /method/plays/1/on-completion", {
            "plays": [play(), play("q", [act("b", [part("rp2")])], **after)]}),
        "the unit": ("unit.json /method/on-completion", {"method": after}),
    }[where]


WHERE = ["an activity", "a second activity", "a support activity", "an act", "a second act", "a play",
         "a second play", "the unit"]


def completions():
    for where in WHERE:
        for name, feedback in [("nothing", []), ("feedback", [item("f1"), item("f2")])]:
            place, given = lone(where, feedback)
            yield f"{name} behind {where}", f"{place} not-in-profile", folder(**given)
            yield f"{name} behind {where} at level C", f"{place} not-in-profile", folder(level="C", **given)


def first_completions():
    after = {"on_completion": follows()}
    lone_act, lone_play, lone_unit = one_act(**after), [play(**after)], after
    place = "unit.json /method"
    yield "an activity before an act", "activities.json /activities/0/on-completion not-in-profile", folder(
        activities=[activity(complete=None, **after)], plays=lone_act)
    yield "an act before its play", f"{place}/plays/0/acts/0/on-completion not-in-profile", folder(
        plays=[play(acts=[act(**after)], **after)])
    yield "a play before the act of a later one", f"{place}/plays/0/on-completion not-in-profile", folder(
        plays=[play(**after), play("q", [act("b", [part("rp2")], **after)])])
    yield "a play before the unit", f"{place}/plays/0/on-completion not-in-profile", folder(
        plays=lone_play, method=lone_unit)
    yield "a second act before its play", f"{place}/plays/0/acts/1/on-completion not-in-profile", folder(
        plays=[play(acts=[act(complete=DONE, **after), act("b", [part("rp2")], **after)], complete=LAST, **after)])
    yield "the unit behind those that are completed", f"{place}/on-completion not-in-profile", folder(
        activities=[activity(**after)], plays=[play(acts=[act(complete=DONE, **after)], complete=LAST, **after)],
        method=after)
    yield "a second activity", "activities.json /activities/1/on-completion not-in-profile", folder(
        activities=[activity(complete=None), activity("x", complete=None, **after)])
    yield "before a structure", f"{place}/on-completion not-in-profile", folder(
        structures=[structure("s", "read")], method=after)


def completed():
    """Something follows what is completed."""
    for name, limit in [("by time", LIMIT), ("as it can", None)]:
        after = {"on_completion": follows(item("f"))}
        yield f"an activity, {name}", None, folder(
            activities=[activity(complete=limit or {"user-choice": True}, **after)])
        yield f"an act, {name}", None, folder(
            plays=one_act(complete=limit or DONE, **after))
        yield f"a play, {name}", None, folder(
            plays=[play(complete=limit or LAST, **after)])
        yield f"the unit, {name}", None, folder(
            method={"complete": limit or PLAYED, **after})


def cases():
    yield from levels()
    yield from levels_of_more()
    yield from first_levels()
    yield from completions()
    yield from first_completions()
    yield from completed()
