"""Identifiers differ, and a list names each thing once."""
from units import (act, activity, condition, folder, follows, item, named, notice, one_act, part, play, prop, role, service,
                   structure)

ACT = "unit.json /method/plays/0/acts/0"
FIRST = "activities.json /activities/0"
ROLES = [role("learner"), role("x"), role("y"), role("z")]
ROOM = [named("x"), named("y"), named("z")]
PLAYS = [play(identifier, [act(f"a{identifier}", [part(f"r{identifier}")])]) for identifier in "xyz"]


def roles():
    yield "two roles", "/roles/1", [role("learner"), role("learner", kind="staff")]
    yield "a role in its like", "/roles/0/roles/0", [role("learner", roles=[named("learner")])]
    yield "a role and an earlier inner one", "/roles/1", [role("learner", roles=[named("x")]), role("x")]
    yield "two inner roles", "/roles/0/roles/1", [role("learner", roles=[named("x"), named("x")])]
    yield "a role and one far within", "/roles/0/roles/0/roles/0/roles/1", [
        role("learner", roles=[named("x", roles=[named("y", roles=[named("z"), named("x")])])])]
    yield "a role behind one far within", "/roles/0/roles/1/roles/0", [
        role("learner", roles=[named("x", roles=[named("y")]), named("z", roles=[named("y")])])]
    yield "three equal roles", "/roles/1", [role("learner")] * 3
    yield "two pairs of roles", "/roles/2", [role("learner"), role("x"), role("x"), role("learner")]
    yield "an inner pair behind an outer one", "/roles/1", [
        role("learner"), role("learner", roles=[named("x"), named("x")])]


def environments():
    yield "two environments", "/environments/1", [named("x"), named("x")]
    yield "a role and an environment", "/environments/0", [named("learner")]
    yield "a role and an object", "/environments/0/learning-objects/0", [
        named("x", learning_objects=[named("learner")])]
    yield "an environment and its object", "/environments/0/learning-objects/0", [
        named("x", learning_objects=[named("x")])]
    yield "an environment and its service", "/environments/0/services/0", [named("x", services=[service("x")])]
    yield "an object and a service", "/environments/0/services/0", [
        named("x", learning_objects=[named("y")], services=[service("y")])]
    yield "an object and its item", "/environments/0/learning-objects/0/items/0", [
        named("x", learning_objects=[named("y", items=[item("y")])])]
    yield "two items of an object", "/environments/0/learning-objects/0/items/1", [
        named("x", learning_objects=[named("y", items=[item("i"), item("i")])])]
    yield "an item and an environment", "/environments/1", [
        named("x", learning_objects=[named("y", items=[item("i")])]), named("i")]


def properties():
    """Faults of identifiers in and around properties."""
    yield "two properties", "properties.json /properties/1", {"properties": [prop("n"), prop("n", "text", "locpers")]}
    yield "a role and a property", "properties.json /properties/0", {"properties": [prop("learner"), prop("learner")]}
    yield "a property and the role that has it", "properties.json /properties/1", {
        "properties": [prop("n"), prop("learner", kind="locrole")]}
    yield "an inner role and a property", "properties.json /properties/0", {
        "roles": [role("learner", roles=[named("n")])], "properties": [prop("n")]}
    yield "a property and an environment", "environments.json /environments/0", {
        "properties": [prop("n")], "environments": [named("n")]}
    yield "a property and an item of an object", "environments.json /environments/0/learning-objects/0/items/0", {
        "properties": [prop("n")], "environments": [named("e", learning_objects=[named("o", items=[item("n")])])]}
    yield "a property and an activity", "activities.json /activities/0", {"properties": [prop("read")]}
    yield "a property and a structure", "activities.json /structures/0", {
        "properties": [prop("s")], "structures": [structure("s", "read")]}
    yield "a property and the unit", "unit.json .", {"properties": [prop("u")]}
    yield "a property and a play", "unit.json /method/plays/0", {"properties": [prop("p")]}
    yield "a property and a role-part", "unit.json /method/plays/0/acts/0/role-parts/0", {"properties": [prop("rp")]}


def of_activity(**more):
    return [activity(**more)]


def activity_identifiers():
    i, read = item("i"), item("read")
    completed = {"complete": {"user-choice": True}}
    yield "an activity and a role", "/activities/0", {"activities": [activity("learner")]}
    yield "two activities", "/activities/1", {"activities": [activity(), activity()]}
    yield "an activity and its objective", "/activities/0/learning-objectives/0", {
        "activities": of_activity(learning_objectives=[read])}
    yield "an objective and a prerequisite", "/activities/0/prerequisites/0", {
        "activities": of_activity(learning_objectives=[i], prerequisites=[i])}
    yield "a prerequisite and an item", "/activities/0/items/1", {
        "activities": of_activity(prerequisites=[i], items=[item("j"), i])}
    yield "an item and feedback", "/activities/0/on-completion/feedback/1", {
        "activities": of_activity(items=[i], on_completion=follows(item("j"), i), **completed)}
    yield "feedback and a later activity", "/activities/1", {
        "activities": [activity(on_completion=follows(i)), activity("i")]}
    yield "an activity and a structure", "/structures/0", {"structures": [structure("read", "read")]}
    yield "two structures", "/structures/1", {"structures": [structure("s", "read"), structure("s", "read")]}
    yield "a role and a structure", "/structures/1", {
        "structures": [structure("s", "read"), structure("learner", "s")]}
    yield "an inner role and an item", "/activities/0/items/0", {
        "roles": [role("learner", roles=[named("x")])], "activities": of_activity(items=[item("x")])}


def unit_identifiers():
    i = item("i")
    last = {"when-last-act-completed": True}
    played = {"when-play-completed": ["p"]}
    done = {"when-role-part-completed": ["rp"]}
    yield "a role and the unit", ".", {"identifier": "learner"}
    yield "an inner role and the unit", ".", {"roles": [role("learner", roles=[named("x")])], "identifier": "x"}
    yield "an activity and the unit", ".", {"identifier": "read"}
    yield "an item and the unit", ".", {"activities": of_activity(items=[i]), "identifier": "i"}
    yield "the unit and its objective", "/learning-objectives/0", {"learning_objectives": [item("u")]}
    yield "an objective and a prerequisite of the unit", "/prerequisites/0", {
        "learning_objectives": [i], "prerequisites": [i]}
    yield "the unit and a play", "/method/plays/0", {"identifier": "p"}
    yield "the unit and an act", "/method/plays/0/acts/0", {"identifier": "a"}
    yield "the unit and a role-part", "/method/plays/0/acts/0/role-parts/0", {"identifier": "rp"}
    yield "a play and an act", "/method/plays/0/acts/0", {"plays": [play(acts=[act("p")])]}
    yield "an act and a role-part", "/method/plays/0/acts/0/role-parts/0", {"plays": one_act([part("a")])}
    yield "two role-parts", "/method/plays/0/acts/0/role-parts/1", {"plays": one_act([part(), part()])}
    yield "two plays", "/method/plays/1", {"plays": [play(), play()]}
    yield "two acts", "/method/plays/0/acts/1", {"plays": [play(acts=[act(), act()])]}
    yield "acts of two plays", "/method/plays/1/acts/0", {"plays": [play(), play("q")]}
    yield "role-parts of two acts", "/method/plays/0/acts/1/role-parts/0", {"plays": [play(acts=[act(), act("b")])]}
    yield "an activity and a role-part", "/method/plays/0/acts/0/role-parts/0", {"plays": one_act([part("read")])}
    yield "an objective and an act's feedback", "/method/plays/0/acts/0/on-completion/feedback/0", {
        "learning_objectives": [i], "plays": one_act(complete=done, on_completion=follows(i))}
    yield "feedback of an act and a play", "/method/plays/0/on-completion/feedback/0", {"plays": [
        play(acts=[act(complete=done, on_completion=follows(i))], complete=last, on_completion=follows(i))]}
    yield "feedback of a play and the unit", "/method/on-completion/feedback/0", {
        "plays": [play(complete=last, on_completion=follows(i))],
        "method": {"complete": played, "on_completion": follows(i)}}


LISTS = [("two", ["x", "x"], 1), ("behind others", ["x", "y", "z", "x"], 3), ("inner ones", ["x", "y", "y", "x"], 2),
         ("three", ["x", "x", "x"], 1), ("to nothing", ["none", "x", "none"], 2)]


def lists():
    """A list in which a reference comes twice, in each of its places."""
    for name, ids, at in LISTS:
        yield f"environments of an environment, {name}", f"environments.json /environments/0/environments/{at}", folder(
            environments=[named("w", environments=ids)] + ROOM)
        yield f"environments of an activity, {name}", f"{FIRST}/environments/{at}", folder(
            environments=ROOM, activities=of_activity(environments=ids))
        yield f"environments of a structure, {name}", f"activities.json /structures/0/environments/{at}", folder(
            environments=ROOM, structures=[structure("s", "read", environments=ids)])
        yield f"supported roles, {name}", f"{FIRST}/supports/{at}", folder(
            roles=ROLES, activities=of_activity(kind="support", supports=ids))
        yield f"children, {name}", f"activities.json /structures/0/children/{at}", folder(
            activities=[activity(), activity("x"), activity("y")],
            structures=[structure("s", *ids), structure("z", "x")])
        yield f"role-parts of an act, {name}", f"{ACT}/complete/when-role-part-completed/{at}", folder(
            plays=one_act([part(each) for each in "xyz"], complete={"when-role-part-completed": ids}))
        yield f"plays of the unit, {name}", f"unit.json /method/complete/when-play-completed/{at}", folder(
            plays=PLAYS, method={"complete": {"when-play-completed": ids}})


def lists_of_conditions():
    """The same for what conditions and notices name."""
    shows = {"complete": "read"}
    for name, ids, at in LISTS:
        told = notice(*ids)
        yield f"roles of an activity's notice, {name}", f"{FIRST}/on-completion/notify/0/roles/{at}", folder(
            roles=ROLES, activities=of_activity(on_completion=follows(notify=[told])))
        yield f"roles of the unit's second notice, {name}", f"unit.json /method/on-completion/notify/1/roles/{at}", folder(
            roles=ROLES, method={"complete": {"when-play-completed": ["p"]},
                                 "on_completion": follows(notify=[notice("learner"), told])})
        for number, (word, value) in enumerate([("show", ids), ("hide", ids), ("notify", told)]):
            place = f"conditions.json /conditions/0/then/{number}/{word}{'/roles' if word == 'notify' else ''}/{at}"
            yield f"what is done, {word}, {name}", place, folder(
                conditions=[condition(shows, *[{"show": ["read"]}] * number, {word: value})])
            yield f"what is done else, {word}, {name}", place.replace("then", "else"), folder(
                conditions=[condition(shows, **{"else": [{"hide": ["read"]}] * number + [{word: value}]})])


def places_of_conditions():
    twice = ["x", "x"]
    place = "conditions.json /conditions"
    yield "the first branch before the other", f"{place}/0/then/0/show/1", folder(
        conditions=[condition({"complete": "read"}, {"show": twice}, **{"else": [{"hide": twice}]})])
    yield "one reference in both branches", None, folder(
        conditions=[condition({"complete": "read"}, **{"else": [{"hide": ["read"]}, {"show": ["read"]}]})], level="B")
    yield "an earlier condition before a later one", f"{place}/1/else/0/hide/1", folder(conditions=[
        condition({"complete": "read"}), condition({"complete": "read"}, **{"else": [{"hide": twice}]}),
        condition({"complete": "read"}, {"show": twice})])
    yield "feedback before a notice", f"{FIRST}/on-completion/feedback/0", folder(
        roles=ROLES, activities=of_activity(on_completion=follows(item("read"), notify=[notice(*twice)])))
    yield "a notice before a later activity", f"{FIRST}/on-completion/notify/0/roles/1", folder(
        roles=ROLES, activities=[activity(on_completion=follows(notify=[notice(*twice)])), activity()])
    yield "a property before an environment's list", "properties.json /properties/0", folder(
        properties=[prop("learner")], environments=[named("w", environments=twice), named("x")])
    yield "a play before the list of a condition", "unit.json /method/plays/0", folder(
        plays=[play("u")], conditions=[condition({"complete": "read"}, {"show": twice})])


def places():
    """Which of two repetitions is first, and what is none."""
    twice = ["x", "x"]
    yield "an environment before its list", "environments.json /environments/0", folder(
        environments=[named("learner", environments=twice), named("x")])
    yield "a list before a later environment", "environments.json /environments/0/environments/1", folder(
        environments=[named("w", environments=twice), named("x"), named("w")])
    yield "a service before the list of environments", "environments.json /environments/0/services/0", folder(
        environments=[named("w", environments=twice, services=[service("w")]), named("x")])
    yield "a prerequisite before supported roles", f"{FIRST}/prerequisites/0", folder(
        roles=ROLES, activities=of_activity(kind="support", supports=twice, prerequisites=[item("read")]))
    yield "supported roles before environments", f"{FIRST}/supports/1", folder(
        roles=ROLES, environments=[named("e")],
        activities=of_activity(kind="support", environments=["e", "e"], supports=twice))
    yield "environments before items", f"{FIRST}/environments/1", folder(
        environments=ROOM, activities=of_activity(items=[item("read")], environments=twice))
    yield "environments before children", "activities.json /structures/0/environments/1", folder(
        environments=ROOM, structures=[structure("s", "read", "read", environments=twice)])
    yield "role-parts before what completes the act", f"{ACT}/role-parts/1", folder(
        plays=one_act([part(), part()], complete={"when-role-part-completed": ["rp", "rp"]}))
    yield "one reference in two lists", None, folder(
        environments=ROOM, activities=of_activity(environments=["x", "y"]),
        structures=[structure("s", "read", environments=["y", "x"])])


def cases():
    for name, place, given in roles():
        yield name, f"roles.json {place} repeated-id", folder(roles=given)
    for name, place, given in environments():
        yield name, f"environments.json {place} repeated-id", folder(environments=given)
    for name, place, given in activity_identifiers():
        yield name, f"activities.json {place} repeated-id", folder(**given)
    for name, place, given in unit_identifiers():
        yield name, f"unit.json {place} repeated-id", folder(**given)
    for name, place, given in properties():
        yield name, f"{place} repeated-id", folder(**given)
    for name, place, documents in [*lists(), *lists_of_conditions(), *places(), *places_of_conditions()]:
        yield name, place and f"{place} repeated-id", documents
