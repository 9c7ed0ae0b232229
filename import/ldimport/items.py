"""Items: addresses of resources. Those within others stand behind them, flat."""

from .context import Context, JsonObject, Named, Shown
from .manifest import NoAddress
from .xmltree import Node

At = tuple[str, str] | None  # the kind and identifier of what shows the items


class Items:
    def __init__(self, context: Context) -> None:
        self.context = context

    def within(self, container: Node | None, owner: str, word: str, at: At = None) -> list[JsonObject]:
        """The items of a container; those without an identifier are named after the owner and the word."""
        if container is None:
            return []
        if container.one("title") is not None and self.context.title(container):
            self.context.note(container, "title", "the title of this part is not carried")
        self.context.no_metadata(container)
        return self.of(container, owner, word, at)

    def of(self, node: Node, owner: str, word: str, at: At) -> list[JsonObject]:
        """The items right within an element."""
        found: list[JsonObject] = []
        for number, item in enumerate(node.all("item"), 1):
            self.item(item, f"{owner}.{word}{number}", True, at, found)
        return found

    def item(self, node: Node, otherwise: str, is_visible: bool, at: At, found: list[JsonObject]) -> list[str]:
        """Adds an item and those within it; gives what is shown and hidden with it."""
        context, why = self.context, ""
        is_visible = context.visible(node) is None and is_visible
        context.no_metadata(node)
        title, covers = context.title(node), []
        obj = JsonObject(node, title=title)
        try:
            href, resource = context.manifest.address(node)
        except NoAddress as fault:
            why = str(fault)
            node.used_attrs.update(node.attrs)
            told = f"the item is left out: {why}" + (f"; its title was '{title}'" if title else "")
            context.lost(node, "item", told)
        else:
            context.count("items", node)
            name = context.name(node, otherwise)
            obj = JsonObject(node, identifier=name, title=title, href=href, visible=None if is_visible else False)
            found.append(obj)
            covers.append(name)
            context.shown.append(Shown(resource, obj, at))
            if resource.type not in ("webcontent", "imsldcontent"):
                told = f"a resource of the type '{resource.type}' is copied as a file, and not run"
                context.note(resource.node, "resource-type", told)
        inner = node.all("item")
        for number, child in enumerate(inner, 1):
            covers += self.item(child, f"{otherwise}.{number}", is_visible, at, found)
        if inner:
            context.note(node, "nested-items", "the items within it stand behind it, flat")
        if covers:
            context.declare(Named("item", covers[0], node, obj, covers=covers))
        else:
            context.left_out[node.raw_id()] = why
        return covers
