"""Which rules of a unit feed which, after docs/RANKS.md, "What feeds what".

A rule is one of `Unit.rules` of tests/histories: its kind, its name and what it is about. What is written and looked at is a
tuple: ("done", NAME), ("opened", ACT) or ("property", NAME). The kinds of those are told apart by their first word alone.
"""
COMPARISONS = ["is", "is-not", "greater-than", "less-than"]
ARITHMETIC = ["sum", "subtract", "multiply", "divide"]


# What a rule writes.

def changed(actions):
    """The properties that the changes among some actions of a condition name."""
    return {("property", action["change"]["property"]) for action in actions if "change" in action}


def written(unit, rule):
    """What the mark and the actions of a rule write."""
    kind, name, thing = rule
    cells = {("done", name)}
    if kind == "opening":
        cells.add(("opened", thing["identifier"]))
    elif kind == "condition":
        cells |= changed(thing["then"] + thing.get("else", []))
    elif kind in ("activity", "act", "play", "unit"):
        cells |= {("property", change["property"]) for change in thing.get("on-completion", {}).get("change", [])}
    return cells


# What terms and tests look at.

def looked_at_by_term(term):
    """The properties in a term."""
    [(word, inner)] = term.items()
    if word == "property":
        return {("property", inner)}
    if word in ARITHMETIC:
        return set().union(*map(looked_at_by_term, inner))
    return set()


def looked_at_by_test(test):
    """What a test looks at, in all its parts."""
    [(word, inner)] = test.items()
    if word in COMPARISONS:
        return set().union(*map(looked_at_by_term, inner))
    if word in ("and", "or"):
        return set().union(*map(looked_at_by_test, inner))
    if word == "not":
        return looked_at_by_test(inner)
    if word == "no-value":
        return {("property", inner)}
    if word == "users-in-role":
        return looked_at_by_test(inner["expression"])
    return {("done", inner)} if word == "complete" else set()


# What rules look at.

def looked_at_by_completion(kind, thing):
    """What the completion rule of a thing looks at, if it has one."""
    if "complete" not in thing:
        return set()
    [(word, inner)] = thing["complete"].items()
    if word == "time-limit":
        return {("opened", thing["identifier"])} if kind == "act" else set()
    if word == "when-property-value-is-set":
        return {("property", inner["property"])}
    if word in ("when-role-part-completed", "when-play-completed"):
        return {("done", name) for name in inner}
    if word == "when-last-act-completed":
        return {("done", thing["acts"][-1]["identifier"])}
    return looked_at_by_test(inner["expression"]) if word == "when-condition-true" else set()


def looked_at_by_opening(unit, act):
    """Whether the act before it is done, if there is one."""
    acts = unit.play_of[act["identifier"]]["acts"]
    place = acts.index(act)
    return {("done", acts[place - 1]["identifier"])} if place > 0 else set()


def looked_at_by_part(unit, part):
    """Whether its act is opened, and whether what it refers to is done; of an environment nothing."""
    cells = {("opened", unit.act_of[part["identifier"]]["identifier"])}
    return cells if part["ref"] in unit.environment else cells | {("done", part["ref"])}


def looked_at(unit, rule):
    """What a rule looks at."""
    kind, name, thing = rule
    if kind == "structure":
        return {("done", child) for child in thing["children"]}
    if kind == "opening":
        return looked_at_by_opening(unit, thing)
    if kind == "part":
        return looked_at_by_part(unit, thing)
    if kind == "condition":
        return looked_at_by_test(thing["if"])
    cells = looked_at_by_completion(kind, thing)
    return cells | {("opened", name)} if kind == "act" else cells


# Feeding.

def feeds(unit, first, second):
    """Whether the first rule feeds the second; a rule but a condition does not by its own mark."""
    cells = written(unit, first) & looked_at(unit, second)
    if first is second and first[0] != "condition":
        cells -= {("done", first[1])}
    return cells != set()


def fed_by_each(unit):
    """For each rule the numbers of those that it feeds, in their order."""
    return [[b for b, second in enumerate(unit.rules) if feeds(unit, first, second)] for first in unit.rules]
