"""The sites of a run and the test of each, after docs/MEANING.md, "Rules and sites"."""
from holding import holds, holds_for_all
from runs import RULES_OF_PERSONS
from values import value_of


def sites_of(run):
    """The sites rule by rule, and those of one rule person by person: a rule, and a person or the run (None)."""
    return [(rule, owner) for rule in run.unit.rules
            for owner in (run.persons if rule[0] in RULES_OF_PERSONS else [None])]


# What completes an activity, an act, a play and the unit.

def has_begun_at(run, kind, thing, owner):
    """When the time of a limit began, or None: the first opening by a person, that of an act, or the start."""
    if kind == "activity":
        return run.cells["Opened", thing["identifier"], owner]
    return run.cells["ActOpened", thing["identifier"]] if kind == "act" else run.cells["Started"]


def limit_has_passed(run, kind, thing, owner, limit):
    """The beginning plus the limit is at most the present moment."""
    begun = has_begun_at(run, kind, thing, owner)
    return begun is not None and begun + value_of("duration", limit) <= run.now


def value_is_set(run, wanted, owner):
    """The property has the value that the text has as one of its datatype; or, where there is no text, any value."""
    value = run.property(wanted["property"], owner)
    if "value" not in wanted:
        return value is not None
    return value is not None and value == value_of(run.unit.property[wanted["property"]]["datatype"], wanted["value"])


def completion_holds(run, kind, thing, owner):
    """Whether the completion rule of a thing holds for the owner of its site."""
    [(word, inner)] = thing["complete"].items()
    if word == "user-choice":
        return run.cells["Chosen", thing["identifier"], owner]
    if word == "time-limit":
        return limit_has_passed(run, kind, thing, owner, inner)
    if word == "when-property-value-is-set":
        return value_is_set(run, inner, owner)
    if word == "when-condition-true":
        return holds_for_all(run, inner)
    if word == "when-last-act-completed":
        return run.is_done(thing["acts"][-1]["identifier"])
    return all(run.is_done(name) for name in inner)


# The test of each kind of rule, of what is not done yet.

def activity_test(run, activity, person):
    """It is the person's, and its completion rule holds, if it has one."""
    is_mine = any(run.is_member(person, role) for role in run.unit.roles_that_reach[activity["identifier"]])
    return is_mine and ("complete" not in activity or completion_holds(run, "activity", activity, person))


def structure_test(run, structure, person):
    """All children are done for the person, or as many as are to be selected."""
    children = structure["children"]
    done = [child for child in children if run.is_done(child, person)]
    return len(done) >= structure.get("number-to-select", len(children))


def opening_test(run, act, _):
    """It is the first act of its play, or the act before it is done."""
    acts = run.unit.play_of[act["identifier"]]["acts"]
    place = acts.index(act)
    return place == 0 or run.is_done(acts[place - 1]["identifier"])


def part_test(run, part, _):
    """Its act is opened, its role has a member, and what it refers to is done for all; of an environment nothing is."""
    if not run.is_opened(run.unit.act_of[part["identifier"]]["identifier"]):
        return False
    members, name = run.members(part["role"]), part["ref"]
    return members != [] and (name in run.unit.environment or all(run.is_done(name, person) for person in members))


def act_test(run, act, _):
    """It is opened, and its completion rule holds."""
    return run.is_opened(act["identifier"]) and completion_holds(run, "act", act, None)


def play_test(run, play, _):
    """Its completion rule holds."""
    return completion_holds(run, "play", play, None)


def unit_test(run, method, _):
    """Its completion rule holds."""
    return completion_holds(run, "unit", method, None)


def condition_test(run, condition, person):
    """Its `if` holds for the person."""
    return holds(run, condition["if"], person)


TESTS = {"activity": activity_test, "structure": structure_test, "opening": opening_test, "part": part_test,
         "act": act_test, "play": play_test, "unit": unit_test, "condition": condition_test}


def site_test(run, site):
    """What the test of a site says; that of every rule but a condition says yes where its mark does."""
    (kind, name, thing), owner = site
    if kind != "condition" and run.is_done(name, owner):
        return True
    return TESTS[kind](run, thing, owner)
