"""The documents of a course folder, from a learning design."""

import json
from typing import Any

from .activities import Activities
from .completion import Completion
from .conditions import Conditions
from .context import Context, JsonObject, Options
from .environments import Environments
from .items import Items
from .manifest import Manifest
from .method import read_plays
from .names import shortened
from .package import Package
from .pages import Pages
from .properties import Properties
from .references import link, without_empty
from .report import Refused, Report
from .roles import read_roles
from .xmltree import XML, XSI, Node, plain_name, unread

NAMES = ("roles", "properties", "environments", "activities", "unit", "conditions", "pages")
REQUIRED = ("roles", "activities", "unit")
LONGEST_METADATA = 4096
OF_LEVEL_B = ("when-property-value-is-set", "when-condition-true", "change")
OF_LEVEL_C = ("notify",)

Documents = dict[str, JsonObject]


def make_documents(manifest: Manifest, package: Package, report: Report, options: Options) -> tuple[Documents, Context]:
    """The documents by their names, and the context in which they were made."""
    context = Context(report, manifest, options)
    unit = begin_unit(context)
    components, method = part_of(manifest.design, "components"), part_of(manifest.design, "method")
    roles = read_roles(context, components)
    if not roles:
        raise Refused("no-roles", "the learning design has no roles", components.file, components.line)
    properties, environments, activities = read_components(context, components)
    read_objectives(context, unit)
    plays = read_plays(context, method, unit["identifier"])
    if not plays:
        raise Refused("no-plays", "no play is left that can be carried over", method.file, method.line)
    activities.support_for_each()
    completion, conditions = Completion(context, plays), Conditions(context)
    unit["method"] = JsonObject(method, plays=plays, **completion.read_all(activities.activities, method))
    conditions.read_all(method)
    all_properties = properties.properties + completion.properties + conditions.properties
    found = {
        "roles": JsonObject(components, roles=roles),
        "properties": JsonObject(components, properties=all_properties),
        "environments": JsonObject(components, environments=environments.environments),
        "activities": JsonObject(components, activities=activities.activities, structures=activities.structures),
        "unit": unit,
        "conditions": JsonObject(method, conditions=completion.conditions + conditions.found),
    }
    unit["level"] = level(context, found)
    pages = Pages(context, package, properties.by_uri, environments.environments, activities.activities).read()
    if options.pages:
        found["pages"] = JsonObject(components, groups=properties.groups, pages=pages)
    tell_unread(manifest, report)
    return {name: document for name, document in found.items() if document or name in REQUIRED}, context


def begin_unit(context: Context) -> JsonObject:
    """The unit without its level, objectives and method."""
    design = context.manifest.design
    design.is_used = True
    context.no_metadata(design)
    name, title = unit_name(context), context.title(design)
    unit = JsonObject(design, format=context.options.format, identifier=name, level="A", title=title)
    unit["metadata"] = facts(context)
    return unit


def part_of(design: Node, tag: str) -> Node:
    part = design.one(tag)
    if part is None:
        raise Refused(f"no-{tag}", f"the learning design has no {tag}", design.file, design.line)
    return part


def read_objectives(context: Context, unit: JsonObject) -> None:
    for member in ("learning-objectives", "prerequisites"):
        container = context.manifest.design.one(member)
        items = Items(context).within(container, unit["identifier"], member.split("-")[-1])
        if items:
            unit[member] = items


def unit_name(context: Context) -> str:
    design, wanted = context.manifest.design, context.options.identifier
    if wanted is None and design.get("identifier"):
        name = context.name(design, "unit")
    else:
        name = context.fresh(wanted or context.manifest.root.get("identifier") or "unit")
    context.declare_unit(name)
    return name


def read_components(context: Context, components: Node) -> tuple[Properties, Environments, Activities]:
    """All that the method and the conditions may refer to, linked among itself."""
    properties, environments = Properties(context), Environments(context)
    activities = Activities(context, environments)
    properties.read(components)
    environments.read(components)
    activities.read(components)
    link(context, properties.references + environments.references + activities.references)
    activities.prune()
    properties.groups = without_empty(context, properties.groups, "members", "empty-group", "it has no members")
    context.no_metadata(components)
    return properties, environments, activities


def facts(context: Context) -> str:
    """The unit's metadata: where it comes from, as JSON text."""
    design = context.manifest.design
    if design.word("sequence-used", "false") not in ("false", "0"):
        context.lost(design, "sequence-used", "simple sequencing is not done")
    found = {
        "from": "imsld",
        "uri": design.get("uri"),
        "version": design.get("version"),
        "package": context.manifest.root.get("identifier"),
    }
    text = json.dumps({key: value for key, value in found.items() if value}, ensure_ascii=False)
    return shortened(text, LONGEST_METADATA)


def level(context: Context, documents: Documents) -> str:
    """The declared level, or the least one that what is carried needs."""
    design = context.manifest.design
    parts = [documents[name] for name in ("activities", "unit", "conditions")]
    services = [each for env in documents["environments"].get("environments", []) for each in env.get("services", [])]
    needed = "A"
    has_conditions = documents["properties"] or documents["conditions"]
    if has_conditions or any(each["kind"] == "monitor" for each in services) or has_member(parts, OF_LEVEL_B):
        needed = "B"
    if has_member(parts, OF_LEVEL_C):
        needed = "C"
    given = design.word("level", "").upper()
    if given not in ("A", "B", "C"):
        context.note(design, "level", f"the level is {needed}, by what is in the unit")
        return needed
    if given < needed:
        context.note(design, "level", f"the level is said to be {given}, but it needs {needed}")
    return max(given, needed)


def has_member(value: Any, words: tuple[str, ...]) -> bool:
    """Whether an object anywhere in it has a member of such a name."""
    if isinstance(value, dict):
        return any(name in words or has_member(inner, words) for name, inner in value.items())
    return isinstance(value, list) and any(has_member(inner, words) for inner in value)


def tell_unread(manifest: Manifest, report: Report) -> None:
    """No element, attribute or text of the learning design is left out silently."""
    for node, what in unread(manifest.root):
        if not node.is_within(manifest.design):
            if what is None and node.tag == "metadata" and node.parent is manifest.root:
                report.at(node, "note", "metadata", "the package's metadata is not carried")
        elif what is None:
            report.at(node, "lost", "not-read", "the element is not known here, or not at this place")
        elif what == "":
            report.at(node, "lost", "not-read", "text stands where none is expected")
        elif what == "xml:lang":
            report.at(node, "note", "language", f"the language {node.attrs[what]} is not carried")
        elif not what.startswith((f"{{{XSI}}}", f"{{{XML}}}", "xml:")):
            report.at(node, "lost", "not-read", f"the attribute {plain_name(what)} is not known here")
