"""Pages: the elements of a package's XHTML that show and ask for properties."""

from .context import Context, JsonObject, Named, Shown
from .package import Package
from .report import Refused
from .values import percent
from .xmltree import LD, Node, parse

FIELDS = {
    "set-property": ("set", ("property",)),
    "view-property": ("view", ("property",)),
    "set-property-group": ("set", ("group",)),
    "view-property-group": ("view", ("group",)),
}
MOST_BYTES = 8 << 20  # of all pages that are looked at
MARKS = (b"set-property", b"view-property")
NAMES = (".html", ".htm", ".xhtml", ".xml")


class Pages:
    def __init__(
        self,
        context: Context,
        package: Package,
        by_uri: dict[str, Named],
        environments: list[JsonObject],
        activities: list[JsonObject],
    ) -> None:
        self.context, self.package, self.by_uri, self.activities = context, package, by_uri, activities
        self.left = MOST_BYTES
        self.above: dict[str, set[str]] = {}  # the environments that refer to each
        for environment in environments:
            for inner in environment.get("environments", []):
                self.above.setdefault(inner, set()).add(environment["identifier"])
        self.by_environment: dict[str, list[str]] = {}
        self.asked_classes = {
            node.attrs.get("class", "")
            for node in context.manifest.design.walk()
            if node.tag == "class" and node.parent and node.parent.tag in ("show", "hide")
        }

    def read(self) -> list[JsonObject]:
        """A page for each activity that shows an item with fields; without the option they are lost."""
        fields: dict[str, list[JsonObject]] = {}
        found: list[JsonObject] = []
        for shown in self.context.shown:
            name = shown.resource.file
            if name is None or not (shown.resource.type == "imsldcontent" or name.lower().endswith(NAMES)):
                continue
            if name not in fields:
                fields[name] = self.fields(name)
                if fields[name] and not self.context.options.pages:
                    told = f"its {len(fields[name])} fields are carried with --pages alone"
                    self.context.report.plain("lost", "page", told, name, fields[name][0].node.line)
            if fields[name] and self.context.options.pages:
                found += self.pages_of(shown, fields[name], name)
        return found

    def fields(self, name: str) -> list[JsonObject]:
        """The fields of a file, in order."""
        report, data = self.context.report, self.package.read(name)
        has_fields = any(mark in data for mark in MARKS)
        if not has_fields and b"class" not in data:
            return []
        self.left -= len(data)
        if self.left < 0:
            report.plain("lost", "page", f"it is not read: the pages have more than {MOST_BYTES} bytes", name)
            return []
        try:
            root = parse(data, name, foreign_entities=True)
        except Refused as fault:
            if has_fields:
                report.plain("lost", "page", f"its properties are not found: {fault}", name, fault.entry.line)
            return []
        found: list[JsonObject] = []
        classes: set[str] = set()
        for node in root.walk():
            classes.update(node.attrs.get("class", "").split())
            if node.space == LD and node.tag in FIELDS:
                found += self.field(node)
        for word in sorted(classes & self.asked_classes):
            told = f"a condition shows or hides the class '{word}', which stands in this page"
            report.plain("lost", "class", told, name, 0, word)
        return found

    def field(self, node: Node) -> list[JsonObject]:
        context = self.context
        word, kinds = FIELDS[node.tag]
        raw, uri = node.get("ref"), node.get("href")
        if node.word("property-of", "self") != "self":
            context.leave_out(node, "property-of", "a field shows the person's own value, not a supported person's")
            return []
        named: Named | str = f"no property has the uri '{uri}'"
        if raw or not uri:
            named = context.find(raw, kinds)
        elif percent(uri) in self.by_uri:
            named = self.by_uri[percent(uri)]
        if isinstance(named, Named):
            return [JsonObject(node, **{word: named.id})]
        context.leave_out(node, "reference", f"{named}; the field is left out")
        return []

    def pages_of(self, shown: Shown, fields: list[JsonObject], file: str) -> list[JsonObject]:
        context, item = self.context, shown.item
        activities = self.activities_that_show(shown.at)
        if not activities:
            told = f"the properties in {file} are shown at no activity, so there is no page of them"
            context.lost(item.node, "page", told)
        found = []
        for activity in activities:
            wanted = f"{item['identifier']}.page" + (f".{activity}" if len(activities) > 1 else "")
            name = context.fresh(wanted)
            context.count("pages", item.node)
            context.fits("fields in a page", item.node, len(fields))
            title = item.get("title")
            found.append(JsonObject(item.node, identifier=name, title=title, activity=activity, fields=fields))
            context.page_files[name] = {"item": item["identifier"], "file": file}
        return found

    def activities_that_show(self, at: tuple[str, str] | None) -> list[str]:
        """The activity itself, or those that refer to the environment, also through others."""
        if at is None:
            return []
        if at[0] == "activity":
            return [at[1]]
        if at[1] not in self.by_environment:
            self.by_environment[at[1]] = self.activities_around(at[1])
        return self.by_environment[at[1]]

    def activities_around(self, environment: str) -> list[str]:
        within, waiting = {environment}, [environment]
        while waiting:
            outer = self.above.get(waiting.pop(), set()) - within
            within |= outer
            waiting += outer
        return [each["identifier"] for each in self.activities if not within.isdisjoint(each.get("environments", []))]
