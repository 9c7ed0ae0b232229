"""The causes of refusal and how each is told, after docs/COMMANDS.md, "Refusals".

What is no command is found in commands.py. That no run has the name, 4, and the causes that are found while a
command is done, 30 and 31, stand in model.py. A cause is asked for only where none before it holds.
"""
from runs import is_personal
from values import text_of_moment, value_for

MOST_PERSONS = 200
REFUSALS = {
    1: "bad-line", 2: "unknown-unit", 3: "run-exists", 4: "unknown-run", 5: "moment-back", 6: "not-started",
    7: "started-already", 8: "unknown-person", 9: "person-exists", 10: "run-full", 11: "unknown-role",
    12: "holds-already", 13: "not-held", 14: "role-full", 15: "role-exclusive", 16: "role-short",
    17: "unknown-activity", 18: "not-by-choice", 19: "unknown-property", 20: "unknown-global", 21: "bad-value",
    22: "not-allowed", 30: "turn-budget", 31: "not-open",
}


def told(number, *more):
    """A refusal is told by its number and its word, and some by words more."""
    return " ".join(["no", str(number), REFUSALS[number], *map(str, more)])


# The causes of a command of a run that is there.

def is_back(run, command):
    """The moment is before the run's last one."""
    return command["moment"] < run.now


def is_not_started(run, _):
    """The run is not started."""
    return not run.is_started()


def is_started_already(run, _):
    """The run is started."""
    return run.is_started()


def is_unknown_person(run, command):
    """The person is not enrolled in the run."""
    return command["person"] not in run.persons


def is_known_person(run, command):
    """The person is enrolled in the run."""
    return command["person"] in run.persons


def is_full(run, _):
    """200 persons are enrolled."""
    return len(run.persons) >= MOST_PERSONS


def is_unknown_role(run, command):
    """The unit has no such role."""
    return command["role"] not in run.unit.role


def is_held_already(run, command):
    """The person holds this very role."""
    return (command["person"], command["role"]) in run.held


def is_not_held(run, command):
    """The person does not hold this very role."""
    return not is_held_already(run, command)


def is_role_full(run, command):
    """The person is no member yet of the role, or of one around it, and that one has all members that it may have."""
    around = [role for role in run.unit.outwards(command["role"]) if "max-persons" in role]
    return any(not run.is_member(command["person"], role["identifier"])
               and len(run.members(role["identifier"])) >= role["max-persons"] for role in around)


def is_role_exclusive(run, command):
    """Of the roles right within an exclusive one, the person would be a member of two."""
    around = run.unit.outwards(command["role"])
    for role, outer in zip(around, around[1:]):
        others = [other["identifier"] for other in outer["roles"] if other is not role]
        is_exclusive = outer.get("match-persons") == "exclusively-in-roles"
        if is_exclusive and any(run.is_member(command["person"], other) for other in others):
            return True
    return False


def first_short(run, roles):
    """The first of the roles that has fewer members than it needs, the number of these, and of the members it needs."""
    for role in roles:
        count, least = len(run.members(role["identifier"])), role.get("min-persons", 0)
        if count < least:
            return role["identifier"], count, least
    return None


def short_at_start(run, _):
    """The first role in document order that has fewer members than it needs."""
    return first_short(run, run.unit.roles)


def short_at_drop(run, command):
    """In a run that is started: the first role outwards that would have fewer members than it needs afterwards."""
    afterwards = run.copy()
    afterwards.held.remove((command["person"], command["role"]))
    return first_short(afterwards, run.unit.outwards(command["role"])) if run.is_started() else None


def is_unknown_activity(run, command):
    """The unit has no such activity."""
    return command["activity"] not in run.unit.activity


def is_not_by_choice(run, command):
    """The activity is not completed by its person's choice."""
    return run.unit.activity[command["activity"]].get("complete") != {"user-choice": True}


def is_unknown_property(run, command):
    """The unit has no such property."""
    return command["property"] not in run.unit.property


def is_bad_value(run, command):
    """The text is no value of the property's datatype, or does not meet its restrictions."""
    return value_for(run.unit.property[command["property"]], command["value"]) is None


def is_not_allowed(run, command):
    """The property belongs to a role of which the person is no member."""
    declared = run.unit.property[command["property"]]
    return declared["kind"] == "locrole" and not run.is_member(command["person"], declared["role"])


# The verbs for which each cause may hold, by what the table of refusals says.
OF_PROPERTIES = ["set", "clear", "get"]
OF_STARTED = ["open", "complete", *OF_PROPERTIES, "tree", "outbox", "report", "tick", "next"]
OF_PERSONS = ["assign", "drop", "open", "complete", *OF_PROPERTIES, "tree", "outbox"]
OF_RUNS = ["enrol", "start", *OF_PERSONS, "report", "tick", "next"]
CAUSES = [
    (5, OF_RUNS, is_back),
    (6, OF_STARTED, is_not_started),
    (7, ["start"], is_started_already),
    (8, OF_PERSONS, is_unknown_person),
    (9, ["enrol"], is_known_person),
    (10, ["enrol"], is_full),
    (11, ["assign", "drop"], is_unknown_role),
    (12, ["assign"], is_held_already),
    (13, ["drop"], is_not_held),
    (14, ["assign"], is_role_full),
    (15, ["assign"], is_role_exclusive),
    (16, ["start"], short_at_start),
    (16, ["drop"], short_at_drop),
    (17, ["open", "complete"], is_unknown_activity),
    (18, ["complete"], is_not_by_choice),
    (19, OF_PROPERTIES, is_unknown_property),
    (21, ["set"], is_bad_value),
    (22, ["set", "clear"], is_not_allowed),
]


def refusal(run, command):
    """The refusal that tells the first cause of a command of a run, or None where it has none."""
    for number, verbs, cause in CAUSES:
        found = cause(run, command) if command["verb"] in verbs else None
        if found:
            more = {5: [text_of_moment(run.now)], 16: found}.get(number, [])
            return told(number, *more)
    return None


# The causes of commands of no run, which compare their moment with none.

def refusal_of_create(units, runs, command):
    """The refusal of a run that cannot be made, or None: the unit is not published, or the name is taken."""
    if command["unit"] not in units:
        return told(2)
    return told(3) if command["run"] in runs else None


def declaration_of(units, uri):
    """A declaration of a uri by a published unit, or None; where several declare it they agree."""
    found = [each for unit in units.values() for each in unit.properties if each.get("uri") == uri]
    return found[0] if found else None


def refusal_of_global(units, command):
    """The refusal of a global verb, or None."""
    declared = declaration_of(units, command["uri"])
    if declared is None:
        return told(20)
    if command["verb"] == "global-set" and value_for(declared, command["value"]) is None:
        return told(21)
    return told(22) if is_personal(declared) != (command["owner"] != "") else None
