"""XML as a tree of nodes with lines, read by expat; nothing is fetched and no entity is expanded.

Each node remembers whether it, its attributes and its text were asked for. What nobody asked for is found by
`unread` at the end, so nothing is left out silently.
"""

import re
from collections.abc import Iterator
from typing import Any
from xml.parsers import expat

from .report import Refused

LD = "http://www.imsglobal.org/xsd/imsld_v1p0"
XML = "http://www.w3.org/XML/1998/namespace"
XSI = "http://www.w3.org/2001/XMLSchema-instance"

SPACE = " \t\r\n"
MOST_NODES = 200_000
MOST_DEPTH = 200


class Node:
    __slots__ = (
        "tag",
        "space",
        "attrs",
        "children",
        "pieces",
        "line",
        "file",
        "parent",
        "is_used",
        "used_attrs",
        "is_text_used",
    )

    def __init__(
        self, tag: str, space: str, attrs: dict[str, str], line: int, file: str, parent: "Node | None"
    ) -> None:
        self.tag, self.space, self.attrs, self.line, self.file, self.parent = tag, space, attrs, line, file, parent
        self.children: list[Node] = []
        self.pieces: list[str] = []
        self.is_used, self.is_text_used = False, False
        self.used_attrs: set[str] = set()

    def name(self) -> str:
        """By what an author finds the element: its identifier, or what it refers to."""
        return self.attrs.get("identifier") or self.attrs.get("ref") or ""

    def raw_id(self) -> str:
        return self.attrs.get("identifier", "").strip(SPACE)

    def get(self, name: str) -> str | None:
        """An attribute; an empty one counts as absent."""
        self.used_attrs.add(name)
        return self.attrs.get(name, "").strip(SPACE) or None

    def word(self, name: str, default: str) -> str:
        """An attribute, or what stands for an absent one."""
        return self.get(name) or default

    def all(self, *tags: str, space: str = LD) -> list["Node"]:
        """The children of these names, in their order."""
        found = [child for child in self.children if child.space == space and child.tag in tags]
        for child in found:
            child.is_used = True
        return found

    def elements(self) -> list["Node"]:
        """All children in the namespace of learning designs, in their order."""
        found = [child for child in self.children if child.space == LD]
        for child in found:
            child.is_used = True
        return found

    def one(self, *tags: str) -> "Node | None":
        """The first child of these names; further ones stay unread."""
        for child in self.children:
            if child.space == LD and child.tag in tags:
                child.is_used = True
                return child
        return None

    def words(self) -> str:
        """The text of this element itself, with white space made single."""
        return " ".join(re.split(f"[{SPACE}]+", self.text()))

    def text(self) -> str:
        """The text of this element itself, without white space around it."""
        self.is_text_used = True
        return "".join(self.pieces).strip(SPACE)

    def settle(self) -> "Node":
        """Counts the whole node as read."""
        for node in self.walk():
            node.is_used, node.is_text_used = True, True
            node.used_attrs.update(node.attrs)
        return self

    def walk(self) -> Iterator["Node"]:
        """This node and all below it, in document order."""
        stack = [self]
        while stack:
            node = stack.pop()
            yield node
            stack.extend(reversed(node.children))

    def is_within(self, top: "Node") -> bool:
        node: Node | None = self
        while node is not None and node is not top:
            node = node.parent
        return node is top


def unread(root: Node) -> Iterator[tuple[Node, str | None]]:
    """What nobody asked for: a node with None (the element), an attribute's name, or the empty text (its text)."""
    stack = [root]
    while stack:
        node = stack.pop()
        if not node.is_used:
            yield node, None
            continue
        for name in node.attrs:
            if name not in node.used_attrs:
                yield node, name
        if not node.is_text_used and "".join(node.pieces).strip(SPACE):
            yield node, ""
        stack.extend(reversed(node.children))


def plain_name(attribute: str) -> str:
    """An attribute's name as an author knows it, without its namespace."""
    return re.sub(r"^\{.*\}", "", attribute)


def parse(data: bytes, file: str, foreign_entities: bool = False) -> Node:
    """The root of the document.

    With `foreign_entities`, references to entities that are declared elsewhere (`&nbsp;` of XHTML) are passed over;
    else they are a fault.
    """
    builder = Builder(file)
    parser = builder.parser
    if foreign_entities:
        parser.UseForeignDTD(True)
        parser.SetParamEntityParsing(expat.XML_PARAM_ENTITY_PARSING_ALWAYS)
        parser.ExternalEntityRefHandler = lambda *_: 1  # nothing is fetched
    try:
        parser.Parse(data, True)
    except expat.ExpatError as fault:
        raise Refused("xml-fault", expat.ErrorString(fault.code), file, fault.lineno) from None
    except (ValueError, LookupError) as fault:
        raise Refused("xml-fault", f"the document's encoding: {fault}", file, 1) from None
    return builder.roots[0]


class Builder:
    """Makes nodes of what expat reports, within bounds."""

    def __init__(self, file: str) -> None:
        self.file, self.count = file, 0
        self.open: list[Node] = []
        self.roots: list[Node] = []
        self.parser = expat.ParserCreate(namespace_separator=" ")
        self.parser.buffer_text = True
        self.parser.StartElementHandler = self.start
        self.parser.EndElementHandler = lambda _: self.open.pop() and None
        self.parser.CharacterDataHandler = self.text
        self.parser.StartDoctypeDeclHandler = self.doctype
        self.parser.EntityDeclHandler = self.entity

    def refuse(self, code: str, text: str) -> None:
        raise Refused(code, text, self.file, self.parser.CurrentLineNumber)

    def start(self, name: str, attributes: dict[str, str]) -> None:
        self.count += 1
        if self.count > MOST_NODES:
            self.refuse("xml-too-large", f"more than {MOST_NODES} elements")
        if len(self.open) >= MOST_DEPTH:
            self.refuse("xml-too-deep", f"elements are nested more than {MOST_DEPTH} deep")
        space, _, tag = name.rpartition(" ")
        attrs = {attribute_name(key, space): value for key, value in attributes.items()}
        parent = self.open[-1] if self.open else None
        node = Node(tag, space, attrs, self.parser.CurrentLineNumber, self.file, parent)
        (parent.children if parent else self.roots).append(node)
        self.open.append(node)

    def text(self, piece: str) -> None:
        if self.open:
            self.open[-1].pieces.append(piece)

    def doctype(self, _name: str, _system: str | None, _public: str | None, has_internal_subset: bool) -> None:
        if has_internal_subset:
            self.refuse("xml-doctype", "the DOCTYPE declares something of its own, which is not read")

    def entity(self, *_: Any) -> None:
        self.refuse("xml-entity", "the document declares an entity")


def attribute_name(key: str, element_space: str) -> str:
    """A plain word for attributes without a namespace or in that of their element, `xml:word`, or `{namespace}word`."""
    space, _, word = key.rpartition(" ")
    if space in ("", element_space):
        return word
    return "xml:" + word if space == XML else f"{{{space}}}{word}"
