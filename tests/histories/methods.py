"""Random methods: plays, acts and role-parts; and conditions."""
from expressions import action, arithmetic, follows, quantified, simple_test, test, value_is_set
from runs import is_personal
from samples import moment
from things import LONG_SPANS, SHORT_SPANS


def name_method(draft):
    """Draws how many plays, acts and role-parts there are, and names them."""
    counts, draw = draft.plan.counts, draft.draw
    draft.method = []
    for _ in range(counts["plays"]):
        acts = []
        for _ in range(draw.randint(1, counts["acts"])):
            parts = [draft.names.new() for _ in range(draw.randint(1, counts["parts"]))]
            acts.append((draft.names.new(), parts))
        draft.method.append((draft.names.new(), acts))
    draft.plays = [play for play, _ in draft.method]
    draft.acts = [act for _, acts in draft.method for act, _ in acts]
    draft.parts = [part for _, acts in draft.method for _, parts in acts for part in parts]


# Completions.

def timed(draft, spans):
    """A limit of time."""
    return {"time-limit": draft.draw.choice(spans)}


def by_property(draft):
    """That a property of the run is set, or a limit of time where there is none."""
    properties = [each for each in draft.properties if not is_personal(each)]
    return {"when-property-value-is-set": value_is_set(draft, properties)} if properties else timed(draft, LONG_SPANS)


def completion(draft, chief, spans):
    """What completes an act, a play or the unit, or None: mostly what is given."""
    way = draft.draw.random()
    if way < 0.12:
        return None
    if way < 0.2:
        return timed(draft, spans)
    return by_property(draft) if way < 0.27 and draft.has("B") else chief


def completion_of_act(draft, parts):
    """What completes an act, or None."""
    if draft.happens(0.15) and draft.has("B") and draft.is_wordy() and draft.left["quantified"] >= 30:
        return {"when-condition-true": quantified(draft)}
    return completion(draft, {"when-role-part-completed": draft.some(parts)}, SHORT_SPANS)


def completed(draft, made, complete):
    """The object with what completes it and, then, perhaps with what follows."""
    if complete is None:
        return made
    made["complete"] = complete
    return {**made, "on-completion": follows(draft, True)} if draft.happens(0.4) else made


# The method.

def part(draft, name, room):
    """A role-part of any role, mostly with an activity or a structure, whose size is at most `room`."""
    tasks = draft.activities + draft.structures * 2
    names = draft.environments if draft.environments and draft.happens(0.08) else tasks
    names = [each for each in names if draft.sizes[each] < room] or [min(draft.activities, key=draft.sizes.get)]
    ref = draft.draw.choice(names)
    if draft.plan.is_vast:
        ref = max(draft.draw.sample(names, min(20, len(names))), key=draft.sizes.get)
    roles = draft.roles[:2] if draft.plan.is_vast or draft.happens(0.6) else draft.roles
    return draft.thing(name, role=draft.draw.choice(roles), ref=ref)


def act(draft, name, parts, used):
    """An act with its role-parts, the sizes of which are counted."""
    made = []
    for each in parts:
        room = min(draft.plan.sizes["part"], draft.plan.sizes["unit"] - sum(used))
        made.append(part(draft, each, room))
        used.append(1 + draft.sizes[made[-1]["ref"]])
    return completed(draft, draft.thing(name, **{"role-parts": made}), completion_of_act(draft, parts))


def method(draft):
    """A method."""
    used, plays = [], []
    for name, acts in draft.method:
        made = draft.visible_thing(name, acts=[act(draft, each, parts, used) for each, parts in acts])
        plays.append(completed(draft, made, completion(draft, {"when-last-act-completed": True}, LONG_SPANS)))
    complete = completion(draft, {"when-play-completed": draft.some(draft.plays, 4)}, LONG_SPANS)
    return completed(draft, {"plays": plays}, complete)


# Conditions.

def boolean_is(declared, text):
    """That a property has a truth value."""
    return {"is": [{"property": declared["identifier"]}, {"boolean": text}]}


def becomes(declared, term):
    """An action that changes a property."""
    return {"change": {"property": declared["identifier"], "value": term}}


def chain(draft):
    """Conditions of which each makes the one before it fire, so that each takes a turn more."""
    one = {"integer": "1"}
    links = list(zip(draft.chain, draft.chain[1:]))
    made = [{"if": {"is": [{"property": first["identifier"]}, one]}, "then": [becomes(second, one)]}
            for first, second in links]
    for each, (_, second) in zip(made, links):
        draft.with_some(each, 0.3, **{"else": [becomes(second, {"integer": "0"})]})
    return made[::-1] if draft.happens(0.8) else made


def loop(draft):
    """Two conditions that undo each other so often, or for ever, once a flag is set; one before them may lag."""
    if not draft.loop:
        return []
    go, first, second, count = draft.loop
    now = {"greater-than": [{"current-datetime": True}, {"datetime": moment(draft.draw, draft.era)}]}
    tests = [now if draft.happens(0.1) else boolean_is(go, "true"), boolean_is(first, "false")]
    is_endless = draft.happens(0.3 if (draft.plan.turns or 64) < 64 else 0.05)
    if not is_endless:
        tests.append({"less-than": [{"property": count["identifier"]}, {"integer": str(draft.plan.loop)}]})
    more = {"sum": [{"property": count["identifier"]}, {"integer": "1"}]}
    echo = [{"if": boolean_is(second, "true"), "then": [{"show": draft.some(draft.chief)}]}] * draft.draw.randrange(2)
    return echo + [
        {"if": {"and": tests}, "then": [becomes(second, {"boolean": "true"}), becomes(count, more)],
         "else": [becomes(second, {"boolean": "false"})]},
        {"if": boolean_is(second, "true"), "then": [becomes(first, {"boolean": "true"})],
         "else": [becomes(first, {"boolean": "false"})]},
    ]


def working(draft, declared):
    """A condition that works something out for a property, and something else where its test does not hold."""
    test = simple_test(draft)
    terms = [arithmetic(draft, declared["datatype"], False, 2) for _ in range(2)]
    return {"if": test, "then": [becomes(declared, terms[0])], "else": [becomes(declared, terms[1])]}


def condition(draft):
    """A condition, most without an `else`."""
    made = {"if": test(draft, draft.plan.depth)}
    made["then"] = [action(draft) for _ in range(draft.draw.choice([1, 1, 2, 3]))]
    if draft.happens(0.45):
        made["else"] = [action(draft) for _ in range(draft.draw.choice([0, 1, 1, 2]))]
    return made


def conditions(draft):
    """The conditions by the plan, with its chain, its loop and its workings among them."""
    made = []
    for _ in range(draft.plan.counts["conditions"]):
        if draft.is_wordy():
            made.append(condition(draft))
    workings = [working(draft, declared) for declared in draft.workings]
    for group in (chain(draft), loop(draft), workings):
        place = draft.draw.randrange(len(made) + 1)
        made[place:place] = group
    return made
