"""Random valid units of all levels: the documents of folders, and the bytes of their files."""
import json

from declarations import add_properties
from drafts import Draft
from methods import conditions, method, name_method
from names import Names, happens, shuffled
from plans import some_plan
from things import activities, environments, roles, structures

MOST_FOLDERS = 64


def unit_document(draft, made):
    """The unit's own document, with this method."""
    document = draft.thing(draft.identifier, format=1, level=draft.plan.level, method=made)
    if draft.happens(0.2):
        document["learning-objectives"], document["prerequisites"] = draft.items(), draft.items()
    if draft.plan.turns is not None:
        document["turns"] = draft.plan.turns
    return draft.with_some(document, 0.2, metadata=draft.draw.choice(["", "by nobody"]))


def list_document(draft, name, things):
    """A document that is one list; where it is empty it or its list may be absent."""
    if things:
        return {f"{name}.json": {name: things}}
    return draft.draw.choice([{}, {}, {}, {f"{name}.json": {}}, {f"{name}.json": {name: []}}])


def documents(draft, units, shared):
    """The documents of a random unit; it is named as none of those units is, and shares these global properties."""
    counts = draft.plan.counts
    draft.identifier = draft.names.new_unit(units)
    draft.activities = [draft.names.new() for _ in range(counts["activities"])]
    draft.structures = [draft.names.new() for _ in range(counts["structures"])]
    name_method(draft)
    made = {"roles.json": {"roles": roles(draft)}}
    made.update(list_document(draft, "properties", add_properties(draft, shared) if draft.has("B") else []))
    made.update(list_document(draft, "environments", environments(draft)))
    made["activities.json"] = {"activities": activities(draft)}
    if draft.structures or draft.happens(0.1):
        made["activities.json"]["structures"] = structures(draft)
    made["unit.json"] = unit_document(draft, method(draft))
    made.update(list_document(draft, "conditions", conditions(draft)))
    return shuffled(draft.draw, made)


def spoiled(draw, folders):
    """The folders with one or several faults: a unit that is there once more, or a folder without its roles."""
    made = list(folders)
    for _ in range(draw.choice([1, 1, 2, 3])):
        place = draw.randrange(len(made))
        if happens(draw, 0.6) and len(made) < MOST_FOLDERS:
            made.insert(place + 1, draw.choice(made[:place + 1]))
        else:
            made[place] = {name: each for name, each in made[place].items() if name != "roles.json"}
    return made


def folders_of(draw, era, is_vast, is_crowd):
    """The documents of one to 64 folders, whose units differ and have identifiers and global properties in common.

    A vast unit stands alone, and so does one whose run is to be filled, which is a tiny one.
    """
    made, before, units, shared = [], [], [], []
    count = MOST_FOLDERS if happens(draw, 1 / 200) else draw.choice([1, 1, 1, 1, 1, 2, 2, 3])
    for _ in range(1 if is_vast or is_crowd else count):
        draft = Draft(draw, Names(draw, before), some_plan(draw, is_vast, is_crowd), era)
        made.append(documents(draft, units, shared))
        units.append(draft.identifier)
        before = sorted({*before, *draft.names.used})
    return made


def file_of(draw, document):
    """The bytes of a document's file: close or spread out, its characters escaped or as they are."""
    spread = draw.choice([None, None, 1, "\t"])
    return json.dumps(document, ensure_ascii=happens(draw, 0.5), indent=spread).encode()
