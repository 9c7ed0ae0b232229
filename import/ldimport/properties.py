"""Properties and groups of them."""

from . import values
from .context import Context, JsonObject, Named
from .references import Reference
from .restrictions import fits, read_restrictions
from .xmltree import Node

KINDS = {
    "loc-property": "loc",
    "locpers-property": "locpers",
    "locrole-property": "locrole",
    "globpers-property": "globpers",
    "glob-property": "glob",
}
DATATYPES = ("string", "text", "uri", "boolean", "integer", "datetime", "duration")
INSTEAD = {
    "real": ("integer", "takes whole numbers only"),
    "file": ("uri", "holds the address of a file"),
    "other": ("string", "holds a text"),
}


class NoProperty(Exception):
    """Why a property is left out."""


class Properties:
    def __init__(self, context: Context) -> None:
        self.context = context
        self.properties: list[JsonObject] = []
        self.groups: list[JsonObject] = []
        self.references: list[Reference] = []
        self.by_uri: dict[str, Named] = {}
        self.uses: dict[str, set[str]] | None = None

    def read(self, components: Node) -> None:
        properties = components.one("properties")
        if properties is None:
            return
        self.context.no_metadata(properties)
        for node in properties.all(*KINDS, "property-group"):
            if node.tag == "property-group":
                self.group(node)
                continue
            try:
                self.property(node)
            except NoProperty as fault:
                self.context.leave_out(node, "property", f"the property is left out: {fault}")
                self.context.left_out[node.raw_id()] = str(fault)

    def property(self, node: Node) -> None:
        context, kind = self.context, KINDS[node.tag]
        body, uri = node, None
        if kind in ("glob", "globpers"):
            body, uri = self.definition(node)
            if uri in self.by_uri:
                self.other_name(node, kind, self.by_uri[uri])
                return
        title = context.title(body) or (context.title(node) if body is not node else None)
        role = self.role(node) if kind == "locrole" else None
        datatype = self.datatype(node, body)
        name = context.name(node, "property")
        obj = JsonObject(node, identifier=name, kind=kind, datatype=datatype, title=title, uri=uri)
        if role is not None:
            obj["role"] = role.id
        restrictions = read_restrictions(context, body, datatype)
        initial = self.initial(body, datatype, restrictions)
        if initial is not None:
            obj["initial"] = initial
        if restrictions:
            obj["restrictions"] = restrictions
        context.no_metadata(body)
        context.no_metadata(node)
        is_personal = kind in ("locpers", "globpers") or role is not None and role.obj.get("create-new") == "allowed"
        named = context.declare(Named("property", name, node, obj, datatype, is_personal))
        if uri is not None:
            self.by_uri[uri] = named
        context.count("properties", node)
        self.properties.append(obj)

    def definition(self, node: Node) -> tuple[Node, str]:
        """Where a global property is defined, which may be elsewhere, and its uri."""
        body, existing = node.one("global-definition"), node.one("existing")
        if body is not None:
            source = body.get("uri")
        else:
            source = existing.get("href") if existing is not None else None
        if source is None:
            raise NoProperty("it has no uri")
        try:
            uri, remark = values.value("uri", source)
        except values.BadValue as fault:
            raise NoProperty(str(fault)) from None
        if remark:
            self.context.changed(node, "uri", remark)
        return body if body is not None else node, uri

    def other_name(self, node: Node, kind: str, first: Named) -> None:
        """A second name of one global property becomes a name of the first."""
        if first.obj["kind"] != kind:
            raise NoProperty(f"'{first.id}' has the uri '{first.obj['uri']}' as {first.obj['kind']}")
        self.context.named.setdefault(node.raw_id(), first)
        if node.one("global-definition") is not None:
            self.context.changed(
                node, "same-uri", f"it is taken as another name of '{first.id}', as that one is defined"
            )
        else:
            self.context.note(node, "same-uri", f"it is another name of '{first.id}'")
        node.settle()

    def role(self, node: Node) -> Named:
        reference = node.one("role-ref")
        named = self.context.refer(reference, ("role",), "the property is left out") if reference is not None else None
        if named is None:
            raise NoProperty("its role is not there")
        return named

    def datatype(self, node: Node, body: Node) -> str:
        given = body.one("datatype")
        word = (given.get("datatype") or given.words()) if given is not None else ""
        if not word and body is node and node.one("existing") is not None:
            return self.guessed(node)
        if given is not None and word in INSTEAD:
            other, effect = INSTEAD[word]
            self.context.changed(given, "datatype", f"{word} becomes {other}: the property {effect}")
            return other
        if word not in DATATYPES:
            raise NoProperty(f"its datatype is '{word}'" if word else "it has no datatype")
        return word

    def guessed(self, node: Node) -> str:
        """The datatype of a global property that another package defines, by the literals that stand beside it."""
        if self.uses is None:
            self.uses = literals_beside(self.context.manifest.design)
        found = self.uses.get(node.raw_id(), set())
        word = next(iter(found)) if len(found) == 1 else "text"
        word = "string" if word == "text" else word
        text = f"the datatype is defined elsewhere; {word} is guessed from its use"
        self.context.changed(node, "global-datatype", text)
        return word

    def initial(self, body: Node, datatype: str, restrictions: dict[str, object]) -> str | None:
        node = body.one("initial-value")
        if node is None:
            return None
        text = node.text()
        if not text and datatype not in ("string", "text"):
            return None
        try:
            text, remark = values.value(datatype, text)
        except values.BadValue as fault:
            self.context.lost(node, "initial-value", f"{fault}; the property has no value at first")
            return None
        if remark:
            self.context.changed(node, "initial-value", remark)
        if not fits(datatype, restrictions, text):
            effect = "does not meet the restrictions; the property has no value at first"
            self.context.lost(node, "initial-value", f"'{text}' {effect}")
            return None
        return text

    def group(self, node: Node) -> None:
        context = self.context
        context.count("property groups", node)
        name = context.name(node, "group")
        obj = JsonObject(node, identifier=name, title=context.title(node))
        context.no_metadata(node)
        context.declare(Named("group", name, node, obj))
        self.groups.append(obj)
        members = node.all("property-ref", "property-group-ref")
        self.references.append(Reference(obj, "members", ("property", "group"), members))
        if not context.options.pages:
            context.note(node, "property-group", "groups are carried with --pages alone")


def literals_beside(design: Node) -> dict[str, set[str]]:
    """For each property that is referred to, the types of the literals beside it."""
    found: dict[str, set[str]] = {}
    for node in design.walk():
        references = [child.attrs.get("ref", "").strip() for child in node.children if child.tag == "property-ref"]
        if not references:
            continue
        texts = ["".join(child.pieces).strip() for child in node.children if child.tag == "property-value"]
        types = {values.guess(text) for text in texts if text}
        if node.tag in ("sum", "subtract", "multiply", "divide"):
            types.add("integer")
        for reference in references:
            found.setdefault(reference, set()).update(types)
    return found
