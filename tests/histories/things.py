"""Random roles, environments, activities and structures."""
from expressions import follows, value_is_set
from samples import SPANS

SERVICES = ["send-mail", "conference", "index-search", "monitor"]
# Limits of time: of activities and acts, and of plays and the unit, behind which nothing is open any more.
SHORT_SPANS = SPANS + ["P1D", "PT60S", "PT1H", "P9999999D"]
LONG_SPANS = ["P1D", "P31D", "P31D", "P60D", "P90D", "P9999999D"]


# Roles.

def role(draft):
    """A role without those within it."""
    made = draft.thing()
    draft.roles.append(made["identifier"])
    draft.with_some(made, 0.1, create_new="not-allowed")
    draft.with_some(made, 0.4, match_persons=draft.draw.choice(["exclusively-in-roles"] * 4 + ["not-exclusively"]))
    if draft.happens(0.2) and not draft.plan.is_vast:
        made["min-persons"] = draft.draw.choice([0, 0, 1, 1, 1, 2])
    if draft.happens(0.25):
        made["max-persons"] = draft.draw.choice([1, 1, 2, 2, 3, 8, 1_000_000] + [0] * draft.happens(0.1))
    return made


def roles(draft):
    """Roles, each at the top or within one of those before it; they stand in the order of the document then."""
    count = draft.plan.counts["roles"]
    top, made, chance = [], [], draft.draw.choice([0, 0.3, 0.5, 0.8, 0.97])
    for _ in range(count):
        new = role(draft)
        if made and draft.happens(chance):
            draft.draw.choice(made[-2:]).setdefault("roles", []).append(new)
        else:
            top.append({**new, "kind": draft.draw.choice(["learner", "learner", "staff"])})
            new = top[-1]
        made.append(new)
    return top


# Environments.

def learning_object(draft):
    """A learning object with a few items."""
    made = draft.visible_thing(is_chief=False)
    return {**made, "items": draft.items()} if draft.happens(0.8) else made


def service(draft):
    """A service; one that monitors from level B on."""
    return draft.visible_thing(is_chief=False, kind=draft.draw.choice(SERVICES if draft.has("B") else SERVICES[:3]))


def some_before(draft, known, counts):
    """Some of the environments or structures that are there, in a deep unit the last of them."""
    if draft.plan.is_deep:
        return known[-1:]
    return draft.draw.sample(known, min(draft.draw.choice(counts), len(known)))


def environment(draft, name):
    """An environment that refers to some of those that are there."""
    made = draft.visible_thing(name)
    things = [learning_object(draft) for _ in range(draft.take("inner things", draft.draw.choice([0, 1, 1, 2])))]
    services = [service(draft) for _ in range(draft.take("inner things", draft.draw.choice([0, 0, 1, 1, 2])))]
    size = 1 + len(services) + sum(1 + len(each.get("items", [])) for each in things)
    wanted = some_before(draft, list(draft.sizes), [0, 1, 1, 2])
    references, draft.sizes[name] = draft.within("environment", size, wanted)
    for word, value in [("learning-objects", things), ("services", services), ("environments", references)]:
        if value or draft.happens(0.1):
            made[word] = value
    return made


def environments(draft):
    """Environments of which none reaches itself."""
    draft.environments = [draft.names.new() for _ in range(draft.plan.counts["environments"])]
    made = [environment(draft, name) for name in draft.environments]
    draft.draw.shuffle(made)
    return made


def some_environments(draft):
    """One to three environments."""
    return draft.some(draft.environments) if draft.environments else []


# Activities.

def completion(draft):
    """What completes an activity, or None: mostly its person's choice."""
    way = draft.draw.random()
    if way < 0.1:
        return None
    if way < 0.2:
        return {"time-limit": draft.draw.choice(SHORT_SPANS)}
    if way < 0.3 and draft.properties and draft.is_wordy():
        return {"when-property-value-is-set": value_is_set(draft, draft.properties)}
    return {"user-choice": True}


def activity(draft, name):
    """An activity of any kind."""
    made = draft.visible_thing(name)
    if draft.happens(0.25):
        made["kind"] = draft.draw.choice(["support", "support", "learning"])
        if made["kind"] == "support":
            draft.with_some(made, 0.7, supports=draft.some(draft.roles))
    if draft.happens(0.1):
        made["learning-objectives"], made["prerequisites"] = draft.items(), draft.items()
    if draft.happens(0.7):
        made["items"] = draft.items()
    complete = completion(draft)
    if complete is not None:
        made["complete"] = complete
        if draft.happens(0.35):
            made["on-completion"] = follows(draft, False)
    feedback = made.get("on-completion", {}).get("feedback", [])
    size = 1 + len(made.get("items", [])) + len(feedback)
    wanted = some_environments(draft) if draft.happens(0.4) else []
    references, draft.sizes[name] = draft.within("activity", size, wanted)
    return {**made, "environments": references} if references or draft.happens(0.1) else made


def activities(draft):
    """Activities, whose names are there already."""
    return [activity(draft, name) for name in draft.activities]


# Structures.

def children_of(draft, known):
    """Activities, and structures that are there."""
    names = draft.draw.sample(draft.activities, min(draft.draw.choice([1, 2, 2, 3, 4, 6]), len(draft.activities)))
    names += some_before(draft, known, [0, 0, 1, 1, 2])
    draft.draw.shuffle(names)
    return names


def structure(draft, name, known):
    """A sequence or a selection."""
    made = draft.visible_thing(name, kind=draft.draw.choice(["sequence", "selection"]))
    references, size = draft.within("structure", 1, some_environments(draft) if draft.happens(0.25) else [])
    names, draft.sizes[name] = draft.within("structure", size, children_of(draft, known))
    made["children"] = names or [draft.draw.choice(draft.activities)]
    if not names:
        draft.sizes[name] = size + draft.sizes[made["children"][0]]
    if made["kind"] == "selection" and draft.happens(0.7):
        made["number-to-select"] = draft.draw.randint(1, len(made["children"]))
    return {**made, "environments": references} if references or draft.happens(0.1) else made


def structures(draft):
    """Structures of which none reaches itself."""
    made = [structure(draft, name, draft.structures[:place]) for place, name in enumerate(draft.structures)]
    draft.draw.shuffle(made)
    return made
