"""Environments with their learning objects and services."""

from typing import Any

from .context import Context, JsonObject, Named
from .items import Items
from .references import Reference
from .xmltree import Node

SERVICES = ("send-mail", "conference", "monitor", "index-search")
PARTS = ("learning-object", "service", "environment-ref")
COUNTED = "learning objects and services"


class Environments:
    def __init__(self, context: Context) -> None:
        self.context, self.items = context, Items(context)
        self.environments: list[JsonObject] = []
        self.references: list[Reference] = []

    def read(self, components: Node) -> None:
        environments = components.one("environments")
        if environments is None:
            return
        self.context.no_metadata(environments)
        for node in environments.all("environment"):
            self.environment(node)

    def environment(self, node: Node) -> None:
        context = self.context
        context.count("environments", node)
        name = context.name(node, "environment")
        obj = JsonObject(node, identifier=name, title=context.title(node), visible=context.visible(node))
        objects: list[JsonObject] = []
        services: list[JsonObject] = []
        for number, part in enumerate(node.all("learning-object", "service"), 1):
            if part.tag == "learning-object":
                objects.append(self.learning_object(part, name, number))
            else:
                self.service(part, name, number, objects, services)
        order = [PARTS.index(child.tag) for child in node.children if child.tag in PARTS]
        if order != sorted(order):
            context.note(node, "order", "learning objects stand first, then services, then environments")
        obj.update(JsonObject(node, learning_objects=objects, services=services))
        context.no_metadata(node)
        context.declare(Named("environment", name, node, obj))
        self.environments.append(obj)
        self.references.append(Reference(obj, "environments", ("environment",), node.all("environment-ref")))

    def in_classes(self, node: Node, names: list[str]) -> None:
        for word in dict.fromkeys(node.word("class", "").split()):
            self.context.classes.setdefault(word, []).extend(names)

    def learning_object(self, node: Node, environment: str, number: int) -> JsonObject:
        context = self.context
        context.count(COUNTED, node)
        name = context.name(node, f"{environment}.object{number}")
        obj = JsonObject(node, identifier=name, title=context.title(node), visible=context.visible(node))
        items = self.items.of(node, name, "item", ("environment", environment))
        if items:
            obj["items"] = items
        if node.get("type"):
            context.note(node, "object-type", f"the type {node.get('type')} is not carried")
        context.no_parameters(node)
        context.no_metadata(node)
        self.in_classes(node, [name])
        context.declare(Named("object", name, node, obj))
        return obj

    def service(
        self, node: Node, environment: str, number: int, objects: list[JsonObject], services: list[JsonObject]
    ) -> None:
        """A service of the engine has no items: those of the package stand in a learning object beside it."""
        context = self.context
        inner = node.one(*SERVICES)
        if inner is None:
            context.leave_out(node, "service", "the service is of no known kind")
            context.left_out[node.raw_id()] = "it is of no known kind"
            return
        context.count(COUNTED, node)
        name = context.name(node, f"{environment}.service{number}")
        visible = context.visible(node)
        title = context.title(inner) or context.title(node)
        obj = JsonObject(node, identifier=name, kind=inner.tag, title=title, visible=visible)
        services.append(obj)
        covers = [name]
        items = self.items.of(inner, name, "item", ("environment", environment))
        if items:
            beside = context.fresh(f"{name}.items")
            objects.append(JsonObject(node, identifier=beside, title=title, visible=visible, items=items))
            covers.append(beside)
            told = f"the service's items stand in a learning object '{beside}' beside it"
            context.note(inner, "service-items", told)
        self.settings(inner, name)
        context.no_parameters(node)
        context.no_metadata(node)
        self.in_classes(node, covers)
        context.declare(Named("service", name, node, obj, covers=covers))

    def settings(self, inner: Node, name: str) -> None:
        found = as_json(inner)
        if inner.attrs or any(child.tag not in ("title", "item") for child in inner.children):
            told = "the engine shows the service alone; who takes part, and how, stands in import.json"
            self.context.changed(inner, "service-settings", told)
            self.context.services[name] = found
        inner.settle()


def as_json(node: Node) -> dict[str, Any]:
    """An element as plain JSON, for whoever runs the service."""
    words = " ".join("".join(node.pieces).split())
    found: dict[str, Any] = {"element": node.tag}
    if node.attrs:
        found["attributes"] = dict(node.attrs)
    if words:
        found["text"] = words
    if node.children:
        found["children"] = [as_json(child) for child in node.children]
    return found
