"""Environments and structures that reach themselves."""
import random

from units import activity, environments_of, folder, named, structure, structures_of

# For each graph, the nodes to which each leads, and the first that reaches itself.
GRAPHS = {
    "of one": ([[0]], 0),
    "of one, behind others": ([[], [0], [0, 2]], 2),
    "of two": ([[1], [0]], 0),
    "of two, behind another": ([[], [2], [1]], 1),
    "of five": ([[1], [2], [3], [4], [0]], 0),
    "of five, turned round": ([[4], [0], [1], [2], [3]], 0),
    "of five, behind what leads there": ([[3], [5], [1], [4], [2], [3]], 1),
    "that the first leads to": ([[2], [], [3], [2]], 2),
    "entered not at its first": ([[3], [2], [3], [1]], 1),
    "two, the later found first": ([[5], [], [3], [2], [], [6], [5]], 2),
    "two, one behind the other": ([[1], [2], [1, 3], [4], [3]], 1),
    "two, the later leads to the earlier": ([[], [2], [1], [4], [3, 1]], 1),
    "two through one node": ([[1], [0, 2], [1]], 0),
    "two of one": ([[1], [1], [2]], 1),
    "behind a diamond": ([[1, 2], [3], [3], [4], [5], [4]], 4),
    "that comes back late": ([[1], [2, 3], [], [1]], 1),
    "of the third alone": ([[1], [2], [2, 3], [4], [5], []], 2),
    "of the last alone": ([[1], [2], [3], [4], [5], [5]], 5),
    "of the first alone": ([[0, 1], [2], [3], [4], [5], []], 0),
    "of the first two": ([[1], [0, 2], [3], [4], [5], []], 0),
    "of two in the middle": ([[1], [2], [3], [2, 4], [5], []], 2),
    "of the last two": ([[1], [2], [3], [4], [5], [4]], 4),
    "of the first five": ([[4], [3], [1], [0, 5], [2], [6], []], 0),
    "of five in the middle": ([[1], [4], [5], [1, 6], [2], [3], []], 1),
    "of the last five": ([[1], [6], [6], [5], [3], [2], [4]], 2),
    "two, a chain between them": ([[1], [2], [6], [4], [3, 0], [6], [5]], 3),
    "none, one node": ([[]], None),
    "none, no ways": ([[], [], []], None),
    "none, two ways to one node": ([[1, 2, 3], [3], [3], []], None),
    "none, a chain": ([[1], [2], [3], []], None),
    "none, a chain turned round": ([[], [0], [1], [2]], None),
    "none, a diamond": ([[1, 2], [3], [3], []], None),
    "none, all to all behind": ([[1, 2, 3], [2, 3], [3], []], None),
}

MANY = 45_000


def first_on_cycle(ways):
    """The first node that reaches itself, by following all ways."""
    for start in range(len(ways)):
        reached, waiting = set(), list(ways[start])
        while waiting:
            node = waiting.pop()
            if node not in reached:
                reached.add(node)
                waiting.extend(ways[node])
        if start in reached:
            return start
    return None


def both(name, ways, first):
    """The graph as environments and as structures."""
    fault = None if first is None else f"environments.json /environments/{first} cycle"
    yield f"environments {name}", fault, folder(environments=environments_of(ways))
    fault = None if first is None else f"activities.json /structures/{first} cycle"
    yield f"structures {name}", fault, folder(structures=structures_of(ways))


def chance():
    """Graphs by chance, of which the first node is found by following all ways."""
    dice = random.Random(20031)
    for number in range(60):
        size = dice.randint(2, 12)
        ways = [dice.sample(range(size), min(size, dice.choice([0, 1, 1, 1, 2]))) for _ in range(size)]
        yield from both(f"by chance, {number}", ways, first_on_cycle(ways))


def mixed():
    one = [[0]]
    yield "of both", "environments.json /environments/0 cycle", folder(
        environments=environments_of(one), structures=structures_of(one))
    yield "a later one of environments", "environments.json /environments/2 cycle", folder(
        environments=environments_of([[], [], [2]]), structures=structures_of(one))
    yield "of structures beside environments", "activities.json /structures/0 cycle", folder(
        environments=environments_of([[1], []]), structures=structures_of([[1], [0]]))
    yield "of environments that no activity names", "environments.json /environments/0 cycle", folder(
        environments=environments_of(one), activities=[activity()])
    yield "s and t", "activities.json /structures/0 cycle", folder(
        structures=[structure("s", "t"), structure("t", "s")])
    yield "through one environment twice", None, folder(
        environments=[named("x")], activities=[activity(environments=["x"])],
        structures=[structure("s", "read", environments=["x"]), structure("t", "s", environments=["x"])])


def long_graphs():
    """Graphs of tens of thousands of nodes, which are to be quick."""
    last = MANY - 1
    ring = [[(n + 1) % MANY] for n in range(MANY)]
    chain = [[n + 1] for n in range(last)]
    return {
        "one ring": (ring, 0),
        "one ring turned round": ([[(n - 1) % MANY] for n in range(MANY)], 0),
        "a chain to a ring of one": (chain + [[last]], last),
        "a chain to a ring of two": (chain + [[last - 1]], last - 1),
        "all to the last ring": ([[last] for _ in range(MANY)], last),
        "rings of two": ([[n ^ 1] for n in range(MANY)], 0),
        "a chain between two rings": (chain[:-2] + [[last - 3], [last, 0], [last - 1]], last - 3),
        "a chain": (chain + [[]], None),
        "a chain turned round": ([[]] + [[n] for n in range(last)], None),
    }


def few(ways, prefix):
    """Many environments or structures with short texts, so that a file holds them."""
    if prefix == "e":
        return [{"identifier": f"e{n}", "environments": [f"e{m}" for m in to]} for n, to in enumerate(ways)]
    return [structure(f"s{n}", *[f"s{m}" for m in to] or ["read"]) for n, to in enumerate(ways)]


def many():
    for title, (ways, first) in long_graphs().items():
        fault = "environments.json /environments/400 too-many"
        if first is not None:
            fault = f"environments.json /environments/{first} cycle"
        yield f"many environments, {title}", fault, folder(environments=few(ways, "e"))
        # The activity is the first of 400.
        fault = "activities.json /structures/399 too-many"
        if first is not None:
            fault = f"activities.json /structures/{first} cycle"
        yield f"many structures, {title}", fault, folder(structures=few(ways, "s"))


def drawn():
    """Graphs by chance of tens of thousands of nodes, with few ways and with many."""
    dice = random.Random(700_000)
    for nodes, count in [(MANY, 20_000), (MANY, 60_000), (20_000, 280_000)]:
        ways = [set() for _ in range(nodes)]
        for _ in range(count):
            ways[dice.randrange(nodes)].add(dice.randrange(nodes))
        ways = [sorted(leads) for leads in ways]
        first = first_on_cycle(ways)
        fault = "environments.json /environments/400 too-many"
        if first is not None:
            fault = f"environments.json /environments/{first} cycle"
        yield f"{count} ways among {nodes}", fault, folder(environments=few(ways, "e"))


def dense():
    """Hundreds of nodes with ways to all others."""
    forward = [list(range(n + 1, 380)) for n in range(380)]
    yield from both("all to all of sixty behind", [list(range(n + 1, 60)) for n in range(60)], None)
    yield "hundreds to all behind and back", "activities.json /structures/0 cycle", folder(
        structures=few(forward[:-1] + [[0]], "s"))
    yield "hundreds to all", "environments.json /environments/0 cycle", folder(
        environments=few([list(range(600)) for _ in range(600)], "e"))
    backward = [list(range(n)) for n in range(380)]
    yield "hundreds to all before", None, folder(environments=few(backward, "e"))
    yield "hundreds to all before and one way back", "environments.json /environments/220 cycle", folder(
        environments=few([*backward[:220], backward[220] + [350], *backward[221:]], "e"))
    yield "hundreds to all behind and a ring of one", "environments.json /environments/379 cycle", folder(
        environments=few(forward[:-1] + [[379]], "e"))


def long_lists():
    """One list of hundreds of thousands of references."""
    ids = [f"x{n}" for n in range(300_000)]
    place = "activities.json /structures/0/children"
    yield "many children to nothing", f"{place}/0 unknown-ref", folder(structures=[structure("s", *ids)])
    yield "many children, the first once more", f"{place}/300000 repeated-id", folder(
        structures=[structure("s", *ids, "x0")])
    yield "many children, the last once more", f"{place}/300000 repeated-id", folder(
        structures=[structure("s", *ids, "x299999")])


def cases():
    for name, (ways, first) in GRAPHS.items():
        yield from both(name, ways, first)
    yield from chance()
    yield from mixed()
    yield from many()
    yield from drawn()
    yield from dense()
    yield from long_lists()
