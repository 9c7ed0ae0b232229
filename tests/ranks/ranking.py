"""The ranks of the rules of a unit, or their first loop, and how they are printed, after docs/RANKS.md."""
from feeding import fed_by_each


def ranks_of(fed):
    """The least ranks, or None where there is a loop: rules that all their feeders have a rank of are ranked, in rounds."""
    feeders = [[a for a, next_rules in enumerate(fed) if b in next_rules] for b in range(len(fed))]
    ranks = {}
    while len(ranks) < len(fed):
        ready = [b for b in range(len(fed)) if b not in ranks and all(a in ranks for a in feeders[b])]
        if not ready:
            return None
        ranks.update({b: 1 + max([ranks[a] for a in feeders[b]], default=0) for b in ready})
    return [ranks[b] for b in range(len(fed))]


def distances_to(fed, end):
    """How many steps lead at least from each rule to one rule, by one step or more."""
    distances = {a: 1 for a, next_rules in enumerate(fed) if end in next_rules}
    edge = set(distances)
    while edge:
        edge = {a for a, next_rules in enumerate(fed) if a not in distances and edge & set(next_rules)}
        distances.update({a: 1 + min(distances[b] for b in fed[a] if b in distances) for a in edge})
    return distances


def first_loop(fed):
    """The first rule that leads to itself, and the first of the shortest ways from there back to it."""
    start = next(a for a in range(len(fed)) if a in distances_to(fed, a))
    distances = distances_to(fed, start)
    loop = [start]
    while start not in fed[loop[-1]]:
        left = distances[loop[-1]] - 1
        loop.append(min(b for b in fed[loop[-1]] if distances.get(b) == left))
    return loop


def name_of(unit, rule):
    """The name of a rule as it is printed."""
    kind, name, thing = rule
    if kind == "condition":
        return f"condition {name + 1}"
    return f"{kind} {unit.identifier if kind == 'unit' else thing['identifier']}"


def report_of(unit):
    """The ranks, or None where there is a loop, and the lines that are printed."""
    fed = fed_by_each(unit)
    ranks = ranks_of(fed)
    if ranks is None:
        loop = first_loop(fed)
        return None, [f"loop {unit.identifier} length={len(loop)}"] + [name_of(unit, unit.rules[a]) for a in loop]
    depth = max(ranks)
    answer = "never-30" if depth <= unit.turns else "open"
    head = f"ranked {unit.identifier} rules={len(ranks)} depth={depth} turns={unit.turns} {answer}"
    return ranks, [head] + [f"{rank} {name_of(unit, rule)}" for rank, rule in zip(ranks, unit.rules)]
