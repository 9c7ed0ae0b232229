"""The checks of docs/FORMATS.md over the parts of a unit: each gives its faults in document order.

A fault is a file, a place and a code.
"""
from reference_parts import only
from reference_sizes import size_faults
from reference_types import leaves_of, type_faults

OBJECTS = {"role", "property", "environment", "object", "service", "item", "activity", "structure", "unit", "play", "act",
           "role-part"}
BOUNDS = [({"role"}, 60), ({"property"}, 300), ({"environment"}, 400), ({"object", "service"}, 1_000),
          ({"item"}, 4_000), ({"activity", "structure"}, 400)]
RULES = {"activity", "structure", "act", "role-part", "condition"}


def fault(part, code, below=""):
    return part.file, part.at + below or ".", code


def things_of(parts):
    """What each identifier names: the first part that has it."""
    things = {}
    for part in parts:
        if part.what in OBJECTS:
            things.setdefault(part.value["identifier"], part)
    return things


def repeated_ids(parts):
    seen = set()
    for part in parts:
        if part.what in OBJECTS:
            if part.value["identifier"] in seen:
                yield fault(part, "repeated-id")
            seen.add(part.value["identifier"])
        elif part.what == "references":
            earlier = set()
            for number, each in enumerate(part.value):
                if each in earlier:
                    yield fault(part, "repeated-id", f"/{number}")
                earlier.add(each)


def repeated_uris(parts):
    seen = set()
    for part in parts:
        if part.what == "property" and "uri" in part.value:
            if part.value["uri"] in seen:
                yield fault(part, "repeated-uri")
            seen.add(part.value["uri"])


def wrong_references(parts, things):
    for part in parts:
        if part.what == "reference":
            named = things.get(part.value)
            if named is None:
                yield fault(part, "unknown-ref")
            elif named.what not in part.more["wants"] or part.value not in part.more.get("own", [part.value]):
                yield fault(part, "wrong-kind-of-ref")


def cycles(parts):
    for what, member in [("environment", "environments"), ("structure", "children")]:
        nodes = {part.value["identifier"]: part for part in parts if part.what == what}
        ways = {name: [each for each in part.value.get(member, []) if each in nodes] for name, part in nodes.items()}
        turning = reaching_themselves(ways)
        first = next((part for name, part in nodes.items() if name in turning), None)
        if first is not None:
            yield fault(first, "cycle")


def reaching_themselves(ways):
    """The nodes that reach themselves: those of a component of several, or with a way to themselves."""
    number, low, stack, on_stack, found = {}, {}, [], set(), set()
    for root in ways:
        if root in number:
            continue
        work = [(root, iter(ways[root]))]
        number[root] = low[root] = len(number)
        stack.append(root)
        on_stack.add(root)
        while work:
            node, left = work[-1]
            for to in left:
                if to not in number:
                    number[to] = low[to] = len(number)
                    stack.append(to)
                    on_stack.add(to)
                    work.append((to, iter(ways[to])))
                    break
                if to in on_stack:
                    low[node] = min(low[node], number[to])
            else:
                work.pop()
                if work:
                    low[work[-1][0]] = min(low[work[-1][0]], low[node])
                if low[node] == number[node]:
                    component = stack[number_on(stack, node):]
                    del stack[-len(component):]
                    on_stack.difference_update(component)
                    if len(component) > 1 or node in ways[node]:
                        found.update(component)
    return found


def number_on(stack, node):
    """Where the node stands on the stack, looked for from its top."""
    return next(at for at in reversed(range(len(stack))) if stack[at] == node)


def above_level(parts, level):
    for part in parts:
        if level == "A" and (
                part.what in ("property", "condition") or part.what == "changes" and part.value
                or part.what == "service" and part.value["kind"] == "monitor"
                or part.what == "complete" and only(part.value)[0] in (
                    "when-property-value-is-set", "when-condition-true")):
            yield fault(part, "above-level")
        elif level != "C" and (
                part.what == "notices" and part.value or part.what == "action" and "notify" in part.value):
            yield fault(part, "above-level")


def left_out(parts):
    for part in parts:
        if (part.what == "on-completion" and not part.more["completes"]
                or part.what == "test" and "users-in-role" in part.value and part.more["quantified"]
                or part.what == "term" and "current-datetime" in part.value and not part.more["now"]):
            yield fault(part, "not-in-profile")


def too_many(parts):
    """The first part beyond each limit, and numbers of rules and leaves."""
    for kinds, bound in BOUNDS:
        counted = [part for part in parts if part.what in kinds]
        if len(counted) > bound:
            yield fault(counted[bound], "too-many")
    rules = sum(part.what in RULES or part.what == "complete" and part.more["of"] != "activity" for part in parts)
    leaves, quantified = leaves_of(parts)
    for number, bound in [(rules, 600), (leaves, 4_000), (quantified, 100)]:
        if number > bound:
            yield "unit.json", "/method", "too-many"


def check_faults(parts):
    """The names and faults of all checks, in order; sizes are asked where nothing before is wrong."""
    things = things_of(parts)
    level = next(part.value["level"] for part in parts if part.what == "unit")
    checks = [
        ("identifiers", repeated_ids(parts)), ("uris", repeated_uris(parts)),
        ("references", wrong_references(parts, things)), ("cycles", cycles(parts)),
        ("levels", above_level(parts, level)), ("profile", left_out(parts)), ("types", type_faults(parts, things)),
        ("limits", too_many(parts))]
    found = [(name, each) for name, faults in checks for each in faults]
    if not found:
        found += [("sizes", each) for each in size_faults(parts, things)]
    return found
