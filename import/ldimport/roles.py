"""Roles, and roles within them."""

from .context import Context, JsonObject, Named
from .xmltree import Node

SEATS = 200


def read_roles(context: Context, components: Node) -> list[JsonObject]:
    roles = components.one("roles")
    if roles is None:
        return []
    roles.get("identifier")
    context.no_metadata(roles)
    return [read_role(context, node, node.tag, None) for node in roles.all("learner", "staff")]


def read_role(context: Context, node: Node, kind: str, above: str | None) -> JsonObject:
    context.count("roles", node)
    name = context.name(node, f"{above or 'role'}.{kind}")
    obj = JsonObject(node, identifier=name, kind=None if above else kind, title=context.title(node))
    context.declare(Named("role", name, node, obj))
    nested = node.all("learner", "staff")
    creation(context, node, obj, bool(nested))
    bounds(context, node, obj)
    if node.get("href"):
        context.note(node, "role-href", "the address that describes a role is not carried")
    information = node.one("information")
    if information is not None:
        context.leave_out(information, "role-information", "a role has no information here")
    context.no_metadata(node)
    for child in nested:
        if child.tag != kind:
            context.changed(child, "role-kind", f"a role within a {kind} role is one of {kind}")
        obj.setdefault("roles", []).append(read_role(context, child, kind, name))
    return obj


def creation(context: Context, node: Node, obj: JsonObject, has_roles: bool) -> None:
    word = node.word("create-new", "not-allowed")
    if word == "not-allowed":
        return
    if word != "allowed":
        context.changed(node, "create-new", f"'{word}' is taken as not-allowed")
    elif context.options.format == 1:
        context.changed(node, "create-new", "format 1 has no occurrences of roles; there is one for all")
    elif has_roles:
        context.changed(node, "create-new", "a role with roles in it has no occurrences here; there is one for all")
    else:
        obj["create-new"] = word


def bounds(context: Context, node: Node, obj: JsonObject) -> None:
    matching = node.word("match-persons", "not-exclusively")
    if matching == "exclusively-in-roles":
        obj["match-persons"] = matching
    elif matching != "not-exclusively":
        context.changed(node, "match-persons", f"'{matching}' is taken as not-exclusively")
    least, most = context.whole(node, "min-persons"), context.whole(node, "max-persons")
    if least:
        obj["min-persons"] = least
    if most is not None:
        obj["max-persons"] = most
    if least and least > SEATS:
        context.changed(node, "min-persons", f"a run has at most {SEATS} persons: it could never start")
