"""What an author of lines chooses for a run as it is: verbs by their weights, and words with which they make sense."""
from causes import MOST_PERSONS
from declarations import some_value
from moments import begun_limits
from names import happens
from samples import no_value, sample
from tree import open_activities


class Wish:
    """How the author of lines treats a run."""

    def __init__(self, draw, interest, pool, wanted):
        self.interest = interest
        self.pool = pool
        # How many persons are enrolled before the start.
        self.wanted = wanted
        self.is_restless = happens(draw, 0.25)
        # How often in a row the run refused for its budget of turns.
        self.stuck = 0


def persons_without(run):
    """The persons who hold no role."""
    return [person for person in run.persons if all(holder != person for holder, _ in run.held)]


def is_ready(run):
    """Whether each role of a role-part has a member, and each has as many as it needs."""
    return (all(run.members(part["role"]) for part in run.unit.parts)
            and all(len(run.members(role["identifier"])) >= role.get("min-persons", 0) for role in run.unit.roles))


def weights_before(run, wish):
    """The weights of verbs before the start."""
    is_growing = len(run.persons) < wish.wanted
    is_crowd = wish.wanted == MOST_PERSONS
    return {
        "enrol": (300 if is_crowd else 8) if is_growing else 5 if is_crowd else 0.3,
        "assign": 0.3 if not run.persons else 8 if persons_without(run) or not is_ready(run) else 3,
        "drop": 0.4 if run.held else 0.1,
        "start": 8 if is_ready(run) and not is_growing else 0.3 if is_growing or persons_without(run) else 1.5,
        **dict.fromkeys(["open", "complete", "set", "clear", "get", "tree", "outbox", "report", "tick", "next"],
                        0.06),
    }


def is_waiting(run, wish):
    """Whether a limit of time may still end, or a moment of which a test asks is still to come."""
    return any(moment > run.now for moment in [*begun_limits(run), *wish.interest.moments])


def weights_after(draw, run, wish):
    """The weights of verbs after the start."""
    complete, look = [len(pairs_to_do(draw, run, verb)) for verb in ("complete", "open")]
    weights = {
        "enrol": 1 if len(run.persons) < wish.wanted else 6 if wish.wanted == MOST_PERSONS else 0.2,
        "assign": 3 if persons_without(run) else 0.8 if len(run.unit.roles) > 1 else 0.2,
        "drop": 3 if wish.is_restless and run.held else 0.5, "start": 0.1,
        "open": 2.5 if look else 0.2, "complete": 9 if complete else 0.2, "set": 0.1, "clear": 0.1, "get": 0.1,
        "tree": 3, "outbox": 1.5 if run.outbox else 0.3, "report": 1, "tick": 1.5,
        "next": 6 if is_waiting(run, wish) else 0.5,
    }
    if run.unit.properties:
        weights.update(set=6, clear=0.8, get=4 if wish.interest.written else 1)
    return weights


def weights_of(draw, run, wish):
    """The weights of the verbs that name the run."""
    return weights_after(draw, run, wish) if run.is_started() else weights_before(run, wish)


# Words.

def some_person(draw, wish, run):
    """Somebody who is enrolled, or anybody where nobody is."""
    return draw.choice(run.persons or wish.pool)


def to_enrol(draw, wish, run):
    """Somebody who is not enrolled yet."""
    return draw.choice([person for person in wish.pool if person not in run.persons] or wish.pool)


def to_assign(draw, wish, run):
    """A person, mostly one without a role, and a role that the person does not hold, mostly one of a role-part."""
    free = persons_without(run)
    person = draw.choice(free) if free and happens(draw, 0.7) else some_person(draw, wish, run)
    empty = [part["role"] for part in run.unit.parts if not run.members(part["role"])]
    roles = [part["role"] for part in run.unit.parts] if happens(draw, 0.6) else list(run.unit.role)
    roles = empty if empty and happens(draw, 0.6) else roles
    others = [role for role in run.unit.role if (person, role) not in run.held]
    return person, draw.choice([role for role in roles if role in others] or others or roles)


def to_drop(draw, wish, run):
    """A person and a role that the person holds."""
    held = sorted(run.held)
    return draw.choice(held) if held else (some_person(draw, wish, run), draw.choice(list(run.unit.role)))


def is_timed(run, name):
    """Whether an activity is completed by a limit of time."""
    return "time-limit" in run.unit.activity[name].get("complete", {})


def is_wanted(draw, run, verb, person, name):
    """Whether the verb makes sense with an activity that is open: it is by choice, or most likely not opened yet."""
    if verb == "complete":
        return run.unit.activity[name].get("complete") == {"user-choice": True}
    return run.cells["Opened", name, person] is None or happens(draw, 0.3 if is_timed(run, name) else 0.1)


def pairs_to_do(draw, run, verb):
    """Persons and activities that are open for them, of two persons at most."""
    persons = draw.sample(run.persons, min(2, len(run.persons)))
    pairs = [(person, name) for person in persons for name in open_activities(run, person)
             if is_wanted(draw, run, verb, person, name)]
    timed = [pair for pair in pairs if verb == "open" and is_timed(run, pair[1])]
    return timed or pairs


def to_do(draw, wish, run, verb):
    """A person and an activity that is open for the person, where two looks find one."""
    pairs = pairs_to_do(draw, run, verb) if run.is_started() else []
    return draw.choice(pairs or [(some_person(draw, wish, run), draw.choice(list(run.unit.activity)))])


def to_set(draw, wish, run, verb):
    """A person and a property that the person may set, mostly one of which a test asks, or that a change writes."""
    chief = wish.interest.written if verb == "get" else wish.interest.triggers
    names = draw.choice([chief, chief, list(wish.interest.texts), []])
    declared = run.unit.property[draw.choice(names or list(run.unit.property))]
    members = run.members(declared["role"]) if "role" in declared and happens(draw, 0.8) else run.persons
    return draw.choice(members or run.persons or wish.pool), declared["identifier"]


def of_some_length(draw, limits):
    """A text of as many characters as there may be at least or at most, or of one more or less."""
    length = draw.choice([limits[name] for name in ("minLength", "maxLength") if name in limits])
    return "".join(draw.choices("aé漢😀e", k=max(0, min(length, 20) + draw.choice([-1, 0, 0, 1]))))


def value_to_set(draw, era, declared, asked):
    """A text for a property: mostly one for which a test asks or that fits, sometimes one that does not."""
    way = draw.random()
    datatype, limits = declared["datatype"], declared.get("restrictions", {})
    if way < 0.5 and ("minLength" in limits or "maxLength" in limits):
        return of_some_length(draw, limits)
    if way < 0.5 and asked:
        return draw.choice(asked)
    if way < 0.85:
        return some_value(draw, era, declared) or sample(draw, datatype, era)
    return sample(draw, datatype, era) if way < 0.92 else no_value(draw, datatype)
