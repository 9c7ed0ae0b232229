"""Units with one element after another and with several, of which none is a fault: a run may be made of each."""
from units import (act, activity, change, condition, folder, follows, item, items, named, notice, one_act, part, parts, play,
                   prop, role, service, structure)

DONE = {"when-role-part-completed": ["rp"]}
LAST = {"when-last-act-completed": True}
PLAYED = {"when-play-completed": ["p"]}
LIMIT = {"time-limit": "PT1H"}
READ = {"complete": "read"}
SHOWN = condition(READ)
HIDDEN_ITEMS = [item("i"), item("j", visible=False)]
DATATYPES = ["string", "text", "uri", "boolean", "integer", "datetime", "duration"]


def roles():
    yield "a role within a role", [role("learner", roles=[named("x")])]
    yield "a role within a later role", [role("learner"), role("y", roles=[named("x")])]
    yield "a role twice within", [role("learner", roles=[named("x", roles=[named("y")])])]
    yield "least persons", [role("learner", min_persons=1)]
    yield "least persons of a later role", [role("learner"), role("x", min_persons=1_000_000)]
    yield "most persons", [role("learner", max_persons=1)]
    yield "no persons", [role("learner", max_persons=0)]
    yield "most persons of all", [role("learner", max_persons=1_000_000)]
    yield "more persons needed than allowed", [role("learner", min_persons=2, max_persons=1)]
    yield "exclusive members", [role("learner"), role("x", match_persons="exclusively-in-roles")]
    yield "an outer role with bounds", [role("learner", min_persons=1, roles=[named("x")])]
    yield "an inner role with bounds", [role("learner", roles=[named("x", min_persons=1)])]
    yield "exclusive inner roles", [
        role("learner", match_persons="exclusively-in-roles", roles=[named("x"), named("y", max_persons=3)])]


def environments():
    yield "an environment", [named("e")]
    yield "an environment with all", [
        named("e", title="Room", visible=True, learning_objects=[named("o", items=[item("i", visible=False)])],
              services=[service("v", visible=False)], environments=["f"]), named("f")]
    yield "a hidden object", [named("e", learning_objects=[named("o", visible=False)])]
    yield "a hidden service", [named("e", services=[service("v", visible=False)])]
    yield "a hidden environment", [named("e", visible=False)]


def activities():
    yield "a support activity", [activity(kind="support")]
    yield "a support activity with roles", [activity(kind="support", supports=["learner"])]
    yield "no completion", [activity(complete=None)]
    yield "a time limit", [activity(complete=LIMIT)]
    yield "a hidden activity", [activity(visible=False)]
    yield "a second activity", [activity(), activity("x", complete=None)]
    yield "feedback of an activity", [activity(on_completion=follows(*HIDDEN_ITEMS))]
    yield "nothing follows an activity", [activity(on_completion=follows())]
    for name in ["learning_objectives", "prerequisites", "items"]:
        yield f"a hidden one of {name.replace('_', '-')}", [activity(**{name: HIDDEN_ITEMS})]
    yield "many items, the last one hidden", [activity(items=items("i", 500) + [item("h", visible=False)])]


def structures():
    yield "a sequence", {"structures": [structure("s", "read")]}
    yield "a selection", {"structures": [structure("s", "read", kind="selection", number_to_select=1)]}
    yield "a selection of all", {"structures": [structure("s", "read", kind="selection")]}
    yield "a hidden structure", {"structures": [structure("s", "read", visible=False)]}
    yield "a structure of a role-part", {"structures": [structure("s", "read")], "plays": one_act([part(ref="s")])}
    yield "an environment of a role-part", {"environments": [named("e")], "plays": one_act([part(ref="e")])}


def methods():
    second = act("b", [part("rp2")])
    after = {"on_completion": follows(*HIDDEN_ITEMS)}
    yield "a hidden play", {"plays": [play(visible=False)]}
    yield "three plays", {"plays": [play(), play("q", [second]), play("r", [act("c", [part("rp3")])])]}
    yield "two acts", {"plays": [play(acts=[act(), second])]}
    yield "three role-parts", {"plays": one_act(parts("rp", 3))}
    for name, rule in [("by role-parts", DONE), ("by time", LIMIT)]:
        yield f"an act completed {name}", {"plays": one_act(complete=rule)}
    for name, rule in [("by its acts", LAST), ("by time", LIMIT)]:
        yield f"a play completed {name}", {"plays": [play(complete=rule)]}
    for name, rule in [("by plays", PLAYED), ("by time", LIMIT)]:
        yield f"the unit completed {name}", {"method": {"complete": rule}}
    for name, given in [("nothing follows", {"on_completion": {}}), ("feedback of", after)]:
        yield f"{name} an act", {"plays": one_act(complete=DONE, **given)}
        yield f"{name} a play", {"plays": [play(complete=LAST, **given)]}
        yield f"{name} the unit", {"method": {"complete": PLAYED, **given}}
    yield "hidden objectives of the unit", {"learning_objectives": HIDDEN_ITEMS}
    yield "hidden prerequisites of the unit", {"prerequisites": HIDDEN_ITEMS}


def properties():
    """Properties of each kind and datatype; those that all runs share have a uri."""
    for kind in ["loc", "locpers", "locrole", "glob", "globpers"]:
        yield f"a property of the kind {kind}", {"properties": [prop("n", kind=kind)]}
        yield f"all datatypes of the kind {kind}", {"properties": [prop(each, each, kind) for each in DATATYPES]}
    yield "one property for all and one for each person", {
        "properties": [prop("n", kind="glob", initial="1"), prop("m", "text", "globpers", initial="")]}
    for where, given in value_is_set({"when-property-value-is-set": {"property": "n", "value": "1"}}):
        for kind in ["loc", "glob"]:
            yield f"the value of a {kind} property completes {where}", {"properties": [prop("n", kind=kind)], **given}


def value_is_set(rule):
    yield "an activity", {"activities": [activity(complete=rule)]}
    yield "an act", {"plays": one_act(complete=rule)}
    yield "a play", {"plays": [play(complete=rule)]}
    yield "the unit", {"method": {"complete": rule}}


def conditions():
    """What levels B and C add beside properties."""
    held = {"when-condition-true": {"role": "learner", "expression": READ}}
    changes = {"properties": [prop("n"), prop("m", kind="globpers")]}
    both = follows(change=[change("n", {"integer": "1"}), change("m", {"property": "n"})], notify=[notice("learner")])
    yield "a monitor", {"environments": [named("e", services=[service("v", "monitor")])]}
    yield "a condition", {"conditions": [SHOWN]}
    yield "two conditions", {"conditions": [SHOWN, condition({"not": READ}, {"hide": ["p"]}, **{"else": [{"show": ["p"]}]})]}
    yield "an act completed by a test", {"plays": one_act(complete=held)}
    yield "an act completed by a test, and a condition", {"plays": one_act(complete=held), "conditions": [SHOWN]}
    for where, given in [
            ("an activity", {"activities": [activity(on_completion=both)]}),
            ("an act", {"plays": one_act(complete=LIMIT, on_completion=both)}),
            ("a play", {"plays": [play(complete=LAST, on_completion=both)]}),
            ("the unit", {"method": {"complete": PLAYED, "on_completion": both}}),
            ("a condition", {"conditions": [
                condition(READ, {"change": both["change"][0]}, {"notify": both["notify"][0]})]})]:
        yield f"changes and a notice behind {where}", {**changes, **given}


def all_together():
    """Each element at once."""
    set_rule = {"when-property-value-is-set": {"property": "n"}}
    held = {"when-condition-true": {"role": "learner", "expression": READ}}
    both = follows(*HIDDEN_ITEMS, change=[change("n", {"integer": "1"})], notify=[notice("learner", activity="read")])
    return {
        "roles": [role("learner", max_persons=5, roles=[named("x", min_persons=1)])],
        "properties": [prop("n", kind="glob"), prop("m", kind="locpers"), prop("t", kind="locrole")],
        "environments": [named("e", visible=False, services=[service("v", "monitor")])],
        "activities": [activity(on_completion=both), activity("y", kind="support", complete=set_rule)],
        "structures": [structure("s", "read", "y", environments=["e"])],
        "plays": [play(acts=[act(role_parts=[part(ref="s")], complete=DONE), act("b", [part("rp2")], complete=held)],
                       complete=LAST), play("q", [act("c", [part("rp3", ref="e")])], visible=False)],
        "method": {"complete": PLAYED}, "conditions": [SHOWN], "level": "C"}


def cases():
    for name, given in roles():
        yield name, None, folder(roles=given)
    for name, given in environments():
        yield name, None, folder(environments=given)
    for name, given in activities():
        yield name, None, folder(activities=given)
    for name, given in [*structures(), *methods()]:
        yield name, None, folder(**given)
    for name, given in [*properties(), *conditions()]:
        yield name, None, folder(level="C", **given)
    yield "all together", None, folder(**all_together())
