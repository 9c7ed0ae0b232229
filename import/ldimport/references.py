"""References between components, once all of them are read."""

from dataclasses import dataclass

from .context import Context, JsonObject
from .xmltree import Node


@dataclass
class Reference:
    """The elements that refer for one member of an object."""

    obj: JsonObject
    member: str
    kinds: tuple[str, ...]
    nodes: list[Node]


def link(context: Context, references: list[Reference]) -> None:
    """Fills the members; each thing stands once in a list."""
    for reference in references:
        member = reference.member
        names = dict.fromkeys(reference.obj.get(member, []))
        for node in reference.nodes:
            named = context.refer(node, reference.kinds, f"it is left out of {member}")
            if named is None:
                continue
            if named.id in names:
                context.note(node, "repeated-reference", f"it stands once in {member}")
            names[named.id] = None
        if names:
            reference.obj[member] = list(names)


def without_empty(context: Context, listed: list[JsonObject], member: str, code: str, why: str) -> list[JsonObject]:
    """What is left once all that have no such member, or none any more, are taken out."""
    above: dict[str, list[JsonObject]] = {}
    for obj in listed:
        for name in obj.get(member, []):
            above.setdefault(name, []).append(obj)
    empty = [obj for obj in listed if not obj.get(member)]
    gone = set()
    while empty:
        obj = empty.pop()
        gone.add(obj["identifier"])
        context.leave_out(obj.node, code, f"it is left out: {why}")
        context.remove(obj.node, why)
        for other in above.get(obj["identifier"], []):
            other[member].remove(obj["identifier"])
            if not other[member]:
                empty.append(other)
    return [obj for obj in listed if obj["identifier"] not in gone]
