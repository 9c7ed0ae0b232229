"""Items and their resources, and the files of the package."""

import re
import xml.etree.ElementTree as ET
from urllib.parse import unquote

from ldimport.manifest import SCHEMES
from ldimport.package import MANIFEST, fold, safe_name
from ldimport.report import Report

from .folder import CONTENT, Folder, Json
from .tree import Texts, add, add_packaging, hidden


class Resources:
    """Each address becomes a resource, and the files that no address names one more."""

    def __init__(self, folder: Folder, report: Report) -> None:
        self.folder, self.report, self.texts = folder, report, Texts(report)
        self.names: dict[str, str] = {}
        self.files = files_of_package(folder, report)

    def items(self, parent: ET.Element, items: list[Json]) -> None:
        for item in items:
            href = item["href"]
            if href not in self.names:
                self.names[href] = self.folder.fresh(f"resource-{len(self.names) + 1}")
            element = add(
                parent,
                "item",
                identifier=item["identifier"],
                identifierref=self.names[href],
                isvisible=hidden(item),
            )
            self.texts.title(element, item)

    def container(self, parent: ET.Element, tag: str, items: list[Json]) -> None:
        """An element that holds items, where there are any."""
        if items:
            self.items(add(parent, tag), items)

    def write(self, manifest: ET.Element) -> list[str]:
        """The element `resources`; gives the names of the package's files."""
        resources = add_packaging(manifest, "resources")
        named: dict[str, None] = {}
        for href, name in self.names.items():
            file = self.file_of(href)
            if file is None and not href.lower().startswith(SCHEMES):
                self.report.plain("lost", "item", f"{CONTENT}/ has no file for the address '{href}'")
            address = href.removeprefix(f"{CONTENT}/") if file else href
            element = add_packaging(resources, "resource", identifier=name, type="webcontent", href=address)
            if file is not None:
                add_packaging(element, "file", href=re.split("[?#]", address)[0])
                named[file] = None
        others = [name for name in self.files if name not in named]
        if others:
            element = add_packaging(
                resources, "resource", identifier=self.folder.fresh("other-files"), type="webcontent"
            )
            for name in others:
                add_packaging(element, "file", href=name)
        return [*named, *others]

    def file_of(self, href: str) -> str | None:
        """The file below `content/` to which an address leads, or None."""
        if not href.startswith(f"{CONTENT}/"):
            return None
        name = unquote(re.split("[?#]", href.removeprefix(f"{CONTENT}/"))[0])
        return name if name in self.files else None


def files_of_package(folder: Folder, report: Report) -> list[str]:
    """The course's files, but for those that a package can't have."""
    found: dict[str, str] = {fold(MANIFEST): MANIFEST}
    for name in folder.files:
        if safe_name(name) != name:
            report.plain("lost", "file", "no package can have a file of this name", f"{CONTENT}/{name}")
        elif fold(name) in found:
            told = f"some systems take its name for that of {found[fold(name)]}"
            report.plain("lost", "file", told, f"{CONTENT}/{name}")
        else:
            found[fold(name)] = name
    return list(found.values())[1:]
