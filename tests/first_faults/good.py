"""Units without a fault, and the ends of the forms of their members."""
import json

from units import activity, act, folder, item, one_act, part, play, role

LIMIT = 4_194_304


def padded(length, name="unit.json"):
    """The documents of the least unit, whose file of this name has so many bytes."""
    documents = folder()
    text = json.dumps(documents[name]).encode()
    documents[name] = text + b" " * (length - len(text))
    return documents


def titled():
    return folder(
        roles=[role("learner", title="Learners")],
        activities=[activity(title="Read", items=[item("i1", title="Text")])],
        plays=[play(title="Play", acts=[act(title="Act", role_parts=[part(title="Part")])])],
        title="First")


def emptied():
    """A unit with every list that may be empty."""
    return folder(
        roles=[role("learner", roles=[])],
        environments=[],
        activities=[activity(learning_objectives=[], prerequisites=[], environments=[], items=[])],
        structures=[],
        files={"properties.json": {"properties": []}, "conditions.json": {"conditions": []}},
        learning_objectives=[], prerequisites=[])


def renamed(identifier):
    """The least unit with this identifier for its activity."""
    return folder(activities=[activity(identifier)], plays=one_act([part(ref=identifier)]))


def crowd():
    """Several roles and activities."""
    return folder(
        roles=[role("learner"), role("tutor", kind="staff"), role("guest")],
        activities=[activity("x"), activity("y"), activity("z")],
        plays=one_act([part(role="tutor", ref="z")]))


def members_twice():
    """An activity with two identifiers, of which the last counts."""
    text = b'{"activities":[{"identifier":"p","identifier":"read","complete":{"user-choice":true}}]}'
    return folder(files={"activities.json": text})


def backwards():
    """The least unit with the members of its objects turned round."""
    def turned(value):
        if isinstance(value, dict):
            return {name: turned(value[name]) for name in reversed(value)}
        return [turned(each) for each in value] if isinstance(value, list) else value
    return {name: turned(document) for name, document in folder(title="First").items()}


def goods():
    objectives = {"learning_objectives": [item("o1"), item("o2")], "prerequisites": [item("q1")]}
    yield "the least unit", folder()
    yield "titles", titled()
    yield "an item", folder(activities=[activity(title="Read", items=[item("i1", href="text.html")])])
    yield "level B", folder(level="B")
    yield "level C", folder(level="C")
    yield "metadata", folder(metadata="by nobody")
    yield "empty metadata", folder(metadata="")
    yield "long metadata", folder(metadata="m" * 4096)
    yield "one turn", folder(turns=1)
    yield "most turns", folder(turns=256)
    yield "objectives of the unit", folder(**objectives)
    yield "objectives of an activity", folder(activities=[activity(**objectives)])
    yield "empty lists", emptied()
    names = ["properties.json", "environments.json", "conditions.json"]
    yield "empty documents", folder(files={name: {} for name in names})
    yield "visible things", folder(
        activities=[activity(visible=True, items=[item("i", visible=True)])], plays=[play(visible=True)])
    yield "several roles and activities", crowd()
    yield "a role with its defaults", folder(roles=[
        role("learner", match_persons="not-exclusively", min_persons=0, create_new="not-allowed")])
    yield "a learning activity by name", folder(activities=[activity(kind="learning")])
    yield "a long identifier", renamed("a" * 64)
    yield "every character of identifiers", renamed("_Az09-.")
    yield "identifiers with one beginning", folder(activities=[activity(), activity("rea"), activity("read1")])
    yield "identifiers that differ in their case", folder(activities=[activity(), activity("Read"), activity("U")])
    yield "a long title", folder(title="t" * 256)
    yield "a title of wide characters", folder(title="é" * 128)
    yield "the ends of addresses", folder(activities=[activity(items=[
        item("i", href="!"), item("j", href="~" * 1024)])])
    yield "a member twice", members_twice()
    yield "members in another order", backwards()
    yield "a file of the greatest size", padded(LIMIT)
    yield "another file of the greatest size", padded(LIMIT, "activities.json")


def shapes():
    """One beyond each end: faults of shape."""
    yield "a file that is too big", "unit.json . too-big", padded(LIMIT + 1)
    yield "another file that is too big", "activities.json . too-big", padded(LIMIT + 1, "activities.json")
    yield "a file that is too big behind one that is cut", "activities.json . too-big", {
        **padded(LIMIT + 1, "activities.json"), "roles.json": b"["}
    yield "too long an identifier", "activities.json /activities/0/identifier wrong-shape", renamed("a" * 65)
    yield "an empty title", "unit.json /title wrong-shape", folder(title="")
    yield "too long a title", "unit.json /title wrong-shape", folder(title="t" * 257)
    yield "a title of too many bytes", "unit.json /title wrong-shape", folder(title="é" * 128 + "t")
    yield "too long metadata", "unit.json /metadata wrong-shape", folder(metadata="m" * 4097)
    yield "no turn", "unit.json /turns wrong-shape", folder(turns=0)
    yield "too many turns", "unit.json /turns wrong-shape", folder(turns=257)
    yield "an address with a space", "activities.json /activities/0/items/0/href wrong-shape", folder(
        activities=[activity(items=[item("i", href="a b")])])
    yield "too long an address", "activities.json /activities/0/items/0/href wrong-shape", folder(
        activities=[activity(items=[item("i", href="~" * 1025)])])
    yield "no role", "roles.json /roles wrong-shape", folder(files={"roles.json": {"roles": []}})
    yield "roles that a learning activity supports", "activities.json /activities/0 unknown-member", folder(
        activities=[activity(supports=["learner"])])


def cases():
    for name, documents in goods():
        yield name, None, documents
    yield from shapes()
