"""Elements of the package, and texts as a reader of the package will find them."""

import re
import xml.etree.ElementTree as ET

from ldimport.report import Report
from ldimport.xmltree import LD, SPACE

PACKAGING = "http://www.imsglobal.org/xsd/imscp_v1p1"
NO_XML = re.compile("[^\t\n\r\x20-\ud7ff\ue000-\ufffd\U00010000-\U0010ffff]")

ET.register_namespace("", PACKAGING)
ET.register_namespace("imsld", LD)


def add(parent: ET.Element, tag: str, **attributes: object) -> ET.Element:
    """An element of the learning design below the parent; `_` in a name stands for `-`, and None for no attribute."""
    return ET.SubElement(parent, f"{{{LD}}}{tag}", named(attributes))


def add_packaging(parent: ET.Element, tag: str, **attributes: object) -> ET.Element:
    """An element of the package's manifest below the parent."""
    return ET.SubElement(parent, f"{{{PACKAGING}}}{tag}", named(attributes))


def named(attributes: dict[str, object]) -> dict[str, str]:
    return {name.replace("_", "-"): str(value) for name, value in attributes.items() if value is not None}


def hidden(obj: dict[str, object]) -> str | None:
    """The attribute `isvisible` of what is hidden at first."""
    return "false" if obj.get("visible") is False else None


class Texts:
    """Writes texts. Where a reader finds another text than the course has, that is told."""

    def __init__(self, report: Report) -> None:
        self.report = report

    def title(self, parent: ET.Element, obj: dict[str, str], tag: str = "title") -> None:
        """A title or a subject: a reader makes white space in it single."""
        if tag in obj:
            text = obj[tag]
            self.write(add(parent, tag), text, " ".join(re.split(f"[{SPACE}]+", text.strip(SPACE))))

    def value(self, element: ET.Element, text: str) -> None:
        """A value: a reader leaves out white space around it."""
        self.write(element, text, text.strip(SPACE).replace("\r\n", "\n").replace("\r", "\n"))

    def write(self, element: ET.Element, text: str, found: str) -> None:
        element.text = NO_XML.sub("\ufffd", text)
        found = NO_XML.sub("\ufffd", found)
        if found != text:
            tag = element.tag.rpartition("}")[2]
            self.report.plain("changed", "text", f"{tag} {text!r} is read as {found!r}")
