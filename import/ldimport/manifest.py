"""The manifest: its learning design, and its resources with the files that they name."""

import posixpath
import re
from urllib.parse import unquote

from .package import MANIFEST, Package, fold, safe_name
from .report import Refused, Report
from .values import percent
from .xmltree import LD, Node, parse

CONTENT = "content"
PACKAGING = ("http://www.imsglobal.org/xsd/imscp", "http://www.imsproject.org/xsd/imscp")
SCHEME = re.compile(r"[A-Za-z][A-Za-z0-9+.-]*:")
SCHEMES = ("http:", "https:", "mailto:")
LONGEST_HREF = 1024


class NoAddress(Exception):
    """Why an item has no address."""


class Resource:
    """`href` is the address for the engine, or None, and then `trouble` says why."""

    def __init__(self, node: Node) -> None:
        self.node, self.type = node, node.word("type", "")
        self.files: list[str] = []
        self.href: str | None = None
        self.trouble = ""
        self.file: str | None = None


class Manifest:
    def __init__(self, package: Package, report: Report, design: str | None = None) -> None:
        self.package, self.report = package, report
        self.root = parse(package.read(MANIFEST), MANIFEST)
        self.root.is_used = True
        self.space = self.root.space
        if self.root.tag != "manifest" or not self.space.startswith(PACKAGING):
            raise Refused(
                "no-manifest", "the document is no manifest of IMS Content Packaging", MANIFEST, self.root.line
            )
        self.design = self.find_design(design)
        self.resources: dict[str, Resource] = {}
        self.read_resources()
        for child in self.all(self.root, "manifest"):
            report.at(child, "lost", "sub-manifest", "manifests within the manifest are not read")

    def all(self, node: Node, tag: str) -> list[Node]:
        return node.all(tag, space=self.space)

    def find_design(self, wanted: str | None) -> Node:
        designs: list[Node] = []
        for organizations in self.all(self.root, "organizations"):
            designs += organizations.all("learning-design")
            for other in organizations.children:
                if other.tag != "learning-design":
                    self.report.at(other, "note", "organization", "only learning designs are read")
        if wanted is not None:
            designs = [design for design in designs if design.attrs.get("identifier") == wanted]
        if len(designs) == 1:
            return designs[0]
        line = self.root.line
        if any(node.tag == "learning-design" and node.space != LD for node in self.root.walk()):
            raise Refused("no-design", f"the learning design is not in the namespace {LD}", MANIFEST, line)
        if designs:
            text = "there are several learning designs: say which by --design"
            raise Refused("many-designs", text, MANIFEST, designs[1].line)
        raise Refused("no-design", "the manifest has no such learning design below organizations", MANIFEST, line)

    def read_resources(self) -> None:
        base = self.root.word("xml:base", "")
        for group in self.all(self.root, "resources"):
            here = join(base, group.word("xml:base", ""))
            for node in self.all(group, "resource"):
                name = node.get("identifier")
                if name is None or name in self.resources:
                    self.report.at(node, "lost", "resource", "the resource has no identifier of its own")
                    continue
                self.resources[name] = Resource(node)
                self.fill(self.resources[name], join(here, node.word("xml:base", "")))

    def fill(self, resource: Resource, base: str) -> None:
        node = resource.node
        for file in self.all(node, "file"):
            place = join(base, file.word("href", ""))
            if SCHEME.match(place):
                continue
            name = self.find_file(place)
            if name is None:
                self.report.at(file, "lost", "file", f"the package has no file '{place}'", node.name())
            else:
                resource.files.append(name)
        href = node.get("href")
        if href is not None:
            self.fill_href(resource, join(base, href))
        elif len(resource.files) == 1:
            resource.file = resource.files[0]
            resource.href = address_of(resource.file)
        else:
            resource.trouble = "its resource has no href"

    def fill_href(self, resource: Resource, place: str) -> None:
        scheme = SCHEME.match(place)
        if scheme:
            if place.lower().startswith(SCHEMES):
                resource.href = percent(place)
            else:
                resource.trouble = f"an address that begins with '{scheme[0]}' is not taken over"
            return
        name = self.find_file(place)
        if name is None:
            resource.trouble = f"the package has no file '{place}'"
            return
        if name not in resource.files:
            resource.files.append(name)
        resource.file = name
        rest = re.search(r"[?#].*", place)
        resource.href = address_of(name) + (percent(rest[0]) if rest else "")

    def find_file(self, place: str) -> str | None:
        """The name of the package's file, also where the manifest writes it in another case or with backslashes."""
        path = re.split(r"[?#]", place)[0]
        name = None
        for written in dict.fromkeys((place, unquote(place), path, unquote(path))):
            name = safe_name(posixpath.normpath(written.replace("\\", "/"))) if written else None
            if name in self.package.openers:
                return name
        return None if name is None else self.package.folded.get(fold(name))

    def address(self, node: Node) -> tuple[str, Resource]:
        """The href of an item, and its resource."""
        name = node.get("identifierref")
        if name is None:
            raise NoAddress("the item names no resource")
        resource = self.resources.get(name)
        if resource is None:
            raise NoAddress(f"there is no resource '{name}'")
        if resource.href is None:
            raise NoAddress(resource.trouble)
        href = with_parameters(resource.href, node.get("parameters"))
        if len(href) > LONGEST_HREF:
            raise NoAddress(f"its address has more than {LONGEST_HREF} bytes")
        return href, resource

    def listed(self) -> list[str]:
        """The files of all resources, each once."""
        return list(dict.fromkeys(name for resource in self.resources.values() for name in resource.files))


def address_of(name: str) -> str:
    """The address of a file of the package, below the folder of contents."""
    return f"{CONTENT}/{percent(name.replace('%', '%25').replace('?', '%3F').replace('#', '%23'))}"


def join(base: str, path: str) -> str:
    if not path or SCHEME.match(path):
        return path or base
    if SCHEME.match(base):
        return base.rstrip("/") + "/" + path.lstrip("/")
    return posixpath.join(base, path)


def with_parameters(href: str, parameters: str | None) -> str:
    """The address with an item's parameters, joined as SCORM joins them."""
    if not parameters:
        return href
    parameters = percent(parameters)
    if parameters.startswith("#"):
        return href if "#" in href else href + parameters
    address, mark, fragment = href.partition("#")
    return address + ("&" if "?" in address else "?") + parameters.lstrip("?&") + mark + fragment
