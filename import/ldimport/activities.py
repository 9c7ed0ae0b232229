"""Activities and structures of them."""

from .context import Context, JsonObject, Named
from .environments import Environments
from .items import Items
from .references import Reference, without_empty
from .xmltree import Node

ACTIVITY_REFS = ("learning-activity-ref", "support-activity-ref")
COUNTED = "activities and structures"
MOST_SUPPORTED = 3
MOST_REPEATED = 20


class Activities:
    def __init__(self, context: Context, environments: Environments) -> None:
        self.context, self.items, self.environments = context, Items(context), environments
        self.activities: list[JsonObject] = []
        self.structures: list[JsonObject] = []
        self.references: list[Reference] = []

    def read(self, components: Node) -> None:
        activities = components.one("activities")
        if activities is None:
            return
        self.context.no_metadata(activities)
        for node in activities.all("learning-activity", "support-activity", "activity-structure"):
            if node.tag == "activity-structure":
                self.structure(node)
            else:
                self.activity(node)

    def activity(self, node: Node) -> None:
        context = self.context
        context.count(COUNTED, node)
        name = context.name(node, "activity")
        kind = "support" if node.tag == "support-activity" else None
        obj = JsonObject(node, identifier=name, kind=kind, title=context.title(node), visible=context.visible(node))
        for member in ("learning-objectives", "prerequisites"):
            items = self.items.within(node.one(member), name, member.split("-")[-1])
            if items:
                obj[member] = items
        items = self.items.within(node.one("activity-description"), name, "item", ("activity", name))
        if items:
            obj["items"] = items
        context.no_parameters(node)
        context.no_metadata(node)
        context.declare(Named("activity", name, node, obj))
        self.activities.append(obj)
        self.references.append(Reference(obj, "environments", ("environment",), node.all("environment-ref")))
        if kind:
            self.references.append(Reference(obj, "supports", ("role",), node.all("role-ref")))

    def structure(self, node: Node) -> None:
        context = self.context
        context.count(COUNTED, node)
        name = context.name(node, "structure")
        kind = self.structure_kind(node)
        obj = JsonObject(node, identifier=name, kind=kind, title=context.title(node), visible=context.visible(node))
        self.number_to_select(node, kind, obj)
        if node.word("sort", "as-is") != "as-is":
            context.changed(node, "sort", "children stand in the order of the document")
        context.no_metadata(node)
        context.declare(Named("structure", name, node, obj))
        self.structures.append(obj)
        children = node.all(*ACTIVITY_REFS, "activity-structure-ref")
        self.references.append(Reference(obj, "environments", ("environment",), node.all("environment-ref")))
        self.references.append(Reference(obj, "children", ("activity", "structure"), children))
        for href in node.all("unit-of-learning-href"):
            context.leave_out(href, "unit-of-learning-href", "other units within a unit are left out")
        information = node.one("information")
        if information is not None:
            self.information(node, information, name, obj)

    def structure_kind(self, node: Node) -> str:
        kind = node.get("structure-type")
        if kind in ("sequence", "selection"):
            return kind
        told = f"'{kind}' is taken as selection" if kind else "without a structure-type it is taken as selection"
        self.context.changed(node, "structure-type", told)
        return "selection"

    def number_to_select(self, node: Node, kind: str, obj: JsonObject) -> None:
        number = self.context.whole(node, "number-to-select")
        if number is None:
            return
        if kind == "sequence":
            self.context.changed(node, "number-to-select", "in a sequence all have to be done")
            return
        if number == 0:
            self.context.changed(node, "number-to-select", "0 becomes 1")
        obj["number-to-select"] = max(number, 1)

    def information(self, node: Node, information: Node, name: str, obj: JsonObject) -> None:
        """A structure's information becomes an environment of its own."""
        context = self.context
        title = context.title(information)
        context.no_metadata(information)
        items = self.items.of(information, name, "information", None)
        if not items:
            return
        environment, inner = context.fresh(f"{name}.information"), context.fresh(f"{name}.information.object")
        objects = [JsonObject(information, identifier=inner, items=items)]
        self.environments.environments.append(
            JsonObject(information, identifier=environment, title=title, learning_objects=objects)
        )
        obj["environments"] = [environment]
        told = f"the information stands in an environment '{environment}' of the structure"
        context.note(information, "structure-information", told)

    def prune(self) -> None:
        """Takes out structures without children, until all have some. References have to be linked before."""
        self.structures = without_empty(
            self.context, self.structures, "children", "empty-structure", "it has no children"
        )
        for obj in self.structures:
            most = len(obj["children"])
            if obj.get("number-to-select", 0) > most:
                told = f"{obj['number-to-select']} becomes {most}, the number of children"
                self.context.changed(obj.node, "number-to-select", told)
                obj["number-to-select"] = most

    def support_for_each(self) -> None:
        """In format 2 a support activity is repeated for each person that it supports, within bounds."""
        count = 0
        for obj in self.activities:
            if not obj.get("supports"):
                continue
            if self.context.options.format == 1:
                told = "format 1 has no support for each person: it is done once"
                self.context.changed(obj.node, "support", told)
                continue
            why = once_only(obj, count)
            if why:
                self.context.changed(obj.node, "support", f"it is done once, not for each person: {why}")
                obj["repeated"] = False
            else:
                count += 1


def once_only(obj: JsonObject, count: int) -> str | None:
    """Why a support activity can't be repeated for each person, or None."""
    rule = obj.node.one("complete-activity")
    if rule is None or not rule.children or rule.children[0].tag not in ("user-choice", "time-limit"):
        return "a support for each person is completed by choice or by a time limit"
    if len(obj["supports"]) > MOST_SUPPORTED:
        return f"it supports more than {MOST_SUPPORTED} roles"
    if count == MOST_REPEATED:
        return f"at most {MOST_REPEATED} activities are repeated"
    return None
