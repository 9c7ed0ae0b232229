"""The canonical documents of a folder, and how they are printed, after docs/FORMATS.md, "Canonical documents"."""

import json
import pathlib
import sys
from typing import Any

TOP = pathlib.Path(__file__).resolve().parent.parent.parent
sys.path.append(str(TOP / "tests" / "first_faults"))

from reference_json import read_json
from reference_values import value_of

from forms import FILES, OBJECTS, OPTIONAL, Form, Part, Plain, Several, Value

Files = dict[str, bytes]
Object = dict[str, Any]


def duration_text(seconds: int) -> str:
    """Days, hours below 24, minutes and seconds below 60; parts that are zero are left out."""
    days, hours, minutes = seconds // 86_400, seconds // 3_600 % 24, seconds // 60 % 60
    time = "".join(
        f"{number}{letter}" for number, letter in ((hours, "H"), (minutes, "M"), (seconds % 60, "S")) if number
    )
    day = f"{days}D" if days else ""
    return f"P{day}T{time}" if time else f"P{day}" if day else "PT0S"


def value_text(datatype: str, text: str) -> str:
    """How the value of a text is printed."""
    value = value_of(datatype, text)
    if datatype == "integer":
        return str(int(value))
    return duration_text(value) if datatype == "duration" else text


def datatypes_of(documents: dict[str, Object]) -> dict[str, str]:
    """The datatype of each property of a unit."""
    properties = documents.get("properties.json", {}).get("properties", [])
    return {each["identifier"]: each["datatype"] for each in properties}


def datatype_in(name: str, given: Object, datatypes: dict[str, str]) -> str | None:
    """The datatype of the value texts that an object has of a property of its own, or of one that it names."""
    if name == "Property":
        return str(given["datatype"])
    return datatypes[given["property"]] if name == "when-property-value-is-set" else None


class Canonical:
    """The canonical forms of what stands in the documents of a unit with properties of these datatypes."""

    def __init__(self, datatypes: dict[str, str]) -> None:
        self.datatypes = datatypes

    def of(self, form: Form, given: Any, datatype: str | None) -> Any:
        """The canonical form of a value; the datatype is that of the property around it, if there is one."""
        match form:
            case Plain():
                return given
            case Value(own):
                kind = own or datatype
                assert kind is not None, "a value text belongs to a property"
                return value_text(kind, given)
            case Several(inner):
                return [self.of(inner, each, datatype) for each in given]
            case Part(name):
                return self.of_object(name, given, datatype)

    def of_object(self, name: str, given: Object, datatype: str | None = None) -> Object:
        """The members of an object that stay, in the order of the bytes of their names."""
        kind = datatype_in(name, given, self.datatypes) or datatype
        forms = OBJECTS[name]
        members = {member: self.of(forms[member], given[member], kind) for member in sorted(given, key=str.encode)}
        return {member: value for member, value in members.items() if not is_left_out(forms[member], value)}


def is_left_out(form: Form, value: Any) -> bool:
    """Whether a member has its default, or is an empty list."""
    return bool(value == form.default if isinstance(form, Plain) and form.default is not None else value == [])


def read(files: Files) -> dict[str, Object]:
    """The documents of the files of a folder."""
    return {name: read_json(files[name]) for name in FILES if name in files}


def canonical_documents(files: Files) -> dict[str, Object]:
    """The canonical documents of a folder without a fault, in the order of files."""
    documents = read(files)
    canonical = Canonical(datatypes_of(documents))
    whole = {name: canonical.of_object(name, document) for name, document in documents.items()}
    return {name: document for name, document in whole.items() if document or name not in OPTIONAL}


def text_of(document: Object) -> str:
    """The JSON of a document without white space; only `"`, `\\` and characters below 0x20 are escaped."""
    return json.dumps(document, ensure_ascii=False, separators=(",", ":"))


def printed(files: Files) -> bytes:
    """What `canon` prints of a folder without a fault."""
    documents = canonical_documents(files)
    return "".join(f"# {name}\n{text_of(document)}\n" for name, document in documents.items()).encode()


def written_back(output: bytes) -> Files:
    """The folder of the documents that `canon` printed."""
    lines = output.decode().split("\n")
    return {head.removeprefix("# "): text.encode() for head, text in zip(lines[0::2], lines[1::2])}
