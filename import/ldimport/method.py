"""Plays, acts and role-parts."""

from .context import Context, JsonObject, Named
from .xmltree import Node

TARGETS = {
    "learning-activity-ref": ("activity",),
    "support-activity-ref": ("activity",),
    "activity-structure-ref": ("structure",),
    "environment-ref": ("environment",),
}


def read_plays(context: Context, method: Node, unit: str) -> list[JsonObject]:
    """The plays of the method, but for those of which nothing is left."""
    context.no_metadata(method)
    plays = [read_play(context, play, f"{unit}.play{number}") for number, play in enumerate(method.all("play"), 1)]
    return [play for play in plays if play]


def read_play(context: Context, node: Node, otherwise: str) -> JsonObject | None:
    context.count("rules", node)
    name = context.name(node, otherwise)
    acts = [read_act(context, act, f"{name}.act{number}") for number, act in enumerate(node.all("act"), 1)]
    obj = JsonObject(node, identifier=name, title=context.title(node), visible=context.visible(node))
    return with_parts(context, Named("play", name, node, obj), "acts", acts)


def read_act(context: Context, node: Node, otherwise: str) -> JsonObject | None:
    context.count("rules", node)
    name = context.name(node, otherwise)
    parts = [read_part(context, part, f"{name}.part{number}") for number, part in enumerate(node.all("role-part"), 1)]
    obj = JsonObject(node, identifier=name, title=context.title(node))
    return with_parts(context, Named("act", name, node, obj), "role-parts", parts)


def with_parts(context: Context, named: Named, member: str, parts: list[JsonObject | None]) -> JsonObject | None:
    """The object with what is left of its parts; without any it is left out."""
    context.no_metadata(named.node)
    context.declare(named)
    named.obj[member] = [part for part in parts if part]
    if named.obj[member]:
        return named.obj
    why = f"it has no {member}"
    context.leave_out(named.node, f"empty-{named.kind}", f"the {named.kind} is left out: {why}")
    context.remove(named.node, why)
    return None


def read_part(context: Context, node: Node, otherwise: str) -> JsonObject | None:
    context.count("rules", node)
    name = context.name(node, otherwise)
    role_ref, target_ref = node.one("role-ref"), node.one(*TARGETS)
    title = context.title(node)
    context.no_metadata(node)
    outside = node.one("unit-of-learning-href")
    if outside is not None:
        context.leave_out(outside, "unit-of-learning-href", "other units within a unit are left out")
    role = target = None
    if role_ref is not None:
        role = context.refer(role_ref, ("role",), "the role-part is left out")
    if target_ref is not None:
        target = context.refer(target_ref, TARGETS[target_ref.tag], "the role-part is left out")
    if role is None or target is None:
        why = "it has no role or nothing to do"
        context.leave_out(node, "role-part", f"the role-part is left out: {why}")
        context.remove(node, why)
        return None
    obj = JsonObject(node, identifier=name, title=title, role=role.id, ref=target.id)
    context.declare(Named("role-part", name, node, obj))
    return obj
