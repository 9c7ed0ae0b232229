"""Random declarations of properties. Those of global ones are shared by the units of a call."""
from names import happens
from samples import respelled, sample
from values import TEXTS, value_for

ORDERED = ["integer", "datetime", "duration"]
DATATYPES = {"boolean": 4, "integer": 5, "string": 1.2, "text": 1.2, "uri": 0.8, "datetime": 1.6, "duration": 1.6}
KINDS = {"loc": 3, "locpers": 3, "locrole": 1.3, "glob": 1, "globpers": 1}


def restrictions(draft, datatype):
    """Restrictions that many values meet, and seldom none does."""
    draw, era = draft.draw, draft.era
    made = {}
    if datatype in ORDERED:
        least, greatest = sample(draw, datatype, era), sample(draw, datatype, era)
        draft.with_some(made, 0.6, minInclusive=least, maxInclusive=greatest)
    if datatype in TEXTS:
        least, greatest = draw.choice([0, 1, 1, 2, 3]), draw.choice([0, 1, 2, 3, 3, 4_096])
        draft.with_some(made, 0.6, minLength=least, maxLength=greatest)
    if draft.happens(0.4 if made else 0.8):
        made["enumeration"] = [sample(draw, datatype, era) for _ in range(draw.choice([1, 2, 2, 3, 3, 5, 8]))]
    return made


def some_value(draw, era, declared, tries=6):
    """A text that is a value of the property, or None where none was found by chance."""
    datatype, limits = declared["datatype"], declared.get("restrictions", {})
    near = limits.get("enumeration", []) + [limits[name] for name in ("minInclusive", "maxInclusive") if name in limits]
    for _ in range(tries):
        is_near = near and happens(draw, 0.5)
        text = respelled(draw, datatype, draw.choice(near)) if is_near else sample(draw, datatype, era)
        if value_for(declared, text) is not None:
            return text
    return None


def contents(draft, datatype):
    """The datatype of a property, often its initial value, and sometimes its restrictions."""
    made = {"datatype": datatype}
    if draft.happens(0.3):
        made["restrictions"] = restrictions(draft, datatype)
    initial = some_value(draft.draw, draft.era, made)
    if initial is not None and draft.happens(0.6):
        made["initial"] = initial
    return made


def rewritten(draft, declared):
    """A global declaration with the same values, perhaps in other writing."""
    draw, datatype = draft.draw, declared["datatype"]
    made = dict(declared)
    if "initial" in made:
        made["initial"] = respelled(draw, datatype, made["initial"])
    limits = dict(made.pop("restrictions", {}))
    for name in ("minInclusive", "maxInclusive"):
        if name in limits:
            limits[name] = respelled(draw, datatype, limits[name])
    if "enumeration" in limits:
        limits["enumeration"] = [respelled(draw, datatype, text) for text in limits["enumeration"]]
    if limits or draft.happens(0.1):
        made["restrictions"] = limits
    return made


def global_property(draft, kind, datatype, shared):
    """A global property: one that another unit of the call declares, or a new one; None where it is declared here."""
    others = [each for each in shared if each["uri"] not in [own.get("uri") for own in draft.properties]]
    if others and draft.happens(0.75):
        return draft.thing(**rewritten(draft, draft.draw.choice(others)))
    uri = f"urn:{len(shared)}" if draft.happens(0.9) else str(len(shared)).rjust(4_096, "u")
    declared = {"kind": kind, "uri": uri, **contents(draft, datatype)}
    shared.append(declared)
    return draft.thing(**declared)


def some_property(draft, shared):
    """A property of any kind and datatype."""
    datatype = draft.draw.choices(list(DATATYPES), list(DATATYPES.values()))[0]
    kind = draft.draw.choices(list(KINDS), list(KINDS.values()))[0]
    if kind in ("glob", "globpers"):
        return global_property(draft, kind, datatype, shared)
    made = draft.thing(kind=kind, **contents(draft, datatype))
    return {**made, "role": draft.draw.choice(draft.roles)} if kind == "locrole" else made


def chained(draft, shared):
    """The properties of a chain: numbers that are changed one after the other, all of one kind."""
    kind = draft.draw.choice(["loc", "loc", "locpers", "glob"])
    return [own(draft, shared, kind=kind, datatype="integer") for _ in range(draft.plan.chain)]


def looped(draft, shared):
    """The properties of a loop: one sets it going, two undo each other, one counts; of each person or of the run."""
    if not draft.plan.loop:
        return []
    kind = draft.draw.choice(["loc", "locpers", "locpers"])
    go = own(draft, shared, kind=draft.draw.choice(["loc", "loc", "glob"]), datatype="boolean", initial="false")
    flags = [own(draft, shared, kind=kind, datatype="boolean", initial="false") for _ in range(2)]
    return [go, *flags, own(draft, shared, kind=kind, datatype="integer", initial="0")]


def own(draft, shared, **declared):
    """A property with these members, and a uri that no unit has declared before, if it is a global one."""
    if declared["kind"] == "glob":
        declared["uri"] = f"urn:{len(shared)}"
        shared.append(declared)
    return draft.thing(**declared)


def add_properties(draft, shared):
    """Properties by the plan and those of its chain, loop and workings; `shared` are the global ones of the call."""
    for _ in range(draft.plan.counts["properties"]):
        draft.properties.append(some_property(draft, shared))
    kinds = draft.draw.choices(["integer", "integer", "datetime", "duration", "duration"], k=draft.plan.workings)
    draft.workings = [draft.thing(kind=draft.draw.choice(["loc", "locpers"]), datatype=kind) for kind in kinds]
    draft.chain, draft.loop = chained(draft, shared), looped(draft, shared)
    draft.properties += draft.chain + draft.loop + draft.workings
    draft.draw.shuffle(draft.properties)
    return draft.properties
