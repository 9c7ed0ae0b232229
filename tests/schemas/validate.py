"""A small validator of JSON Schemas: just the keywords that schemas/ uses, and no other.

    Schemas(folder).faults(name, document)    the places of a document that break the schema of this name

A schema with a keyword that is neither checked nor listed as told to readers alone is an error of the schema, so
that no keyword goes unseen. Values are what `json` reads, and true is not 1.
"""
import json
import re

# Keywords that say nothing of documents.
TOLD = {"$schema", "$comment", "$defs", "title", "description", "default", "examples"}

TYPES = {
    "object": lambda value: isinstance(value, dict),
    "array": lambda value: isinstance(value, list),
    "string": lambda value: isinstance(value, str),
    "boolean": lambda value: isinstance(value, bool),
    "integer": lambda value: is_number(value) and value == value // 1,
}


def is_number(value):
    return isinstance(value, (int, float)) and not isinstance(value, bool)


def same(one, other):
    """Whether two values are equal in JSON, where 1 is 1.0 and not true."""
    if isinstance(one, bool) or isinstance(other, bool):
        return one is other
    if isinstance(one, list) and isinstance(other, list):
        return len(one) == len(other) and all(map(same, one, other))
    if isinstance(one, dict) and isinstance(other, dict):
        return one.keys() == other.keys() and all(same(one[name], other[name]) for name in one)
    return type(one) is type(other) and one == other or is_number(one) and is_number(other) and one == other


def matches(pattern, text):
    """Whether the pattern is found, where `$` is the very end of the text."""
    return re.search(pattern.removesuffix("$") + r"\Z" if pattern.endswith("$") else pattern, text) is not None


def all_differ(values):
    if all(isinstance(value, str) for value in values):
        return len(set(values)) == len(values)
    return not any(same(one, other) for at, one in enumerate(values) for other in values[:at])


# Keywords of one value: whether the value keeps to the keyword. A value of another type keeps to it.
PLAIN = {
    "type": lambda wanted, value: TYPES[wanted](value),
    "const": lambda wanted, value: same(wanted, value),
    "enum": lambda wanted, value: any(same(each, value) for each in wanted),
    "pattern": lambda wanted, value: not isinstance(value, str) or matches(wanted, value),
    "minLength": lambda wanted, value: not isinstance(value, str) or len(value) >= wanted,
    "maxLength": lambda wanted, value: not isinstance(value, str) or len(value) <= wanted,
    "minimum": lambda wanted, value: not is_number(value) or value >= wanted,
    "maximum": lambda wanted, value: not is_number(value) or value <= wanted,
    "minItems": lambda wanted, value: not isinstance(value, list) or len(value) >= wanted,
    "maxItems": lambda wanted, value: not isinstance(value, list) or len(value) <= wanted,
    "uniqueItems": lambda wanted, value: not (wanted and isinstance(value, list)) or all_differ(value),
    "minProperties": lambda wanted, value: not isinstance(value, dict) or len(value) >= wanted,
    "maxProperties": lambda wanted, value: not isinstance(value, dict) or len(value) <= wanted,
    "required": lambda wanted, value: not isinstance(value, dict) or all(name in value for name in wanted),
    "dependentRequired": lambda wanted, value: not isinstance(value, dict) or all(
        needed in value for name in wanted if name in value for needed in wanted[name]),
}


class Schemas:
    def __init__(self, folder):
        self.files = {path.name: json.loads(path.read_text()) for path in sorted(folder.glob("*.schema.json"))}

    def target(self, file, reference):
        """The file and the schema to which a reference of a file leads."""
        name, _, pointer = reference.partition("#")
        schema = self.files[name or file]
        for step in pointer.split("/")[1:]:
            schema = schema[step]
        return name or file, schema

    def faults(self, file, document):
        return list(self.walk(file, self.files[file], document, ""))

    def holds(self, file, schema, value):
        return next(self.walk(file, schema, value, ""), None) is None

    def walk(self, file, schema, value, at):
        """The places below `at` that break the schema, each with the keyword."""
        if isinstance(schema, bool):
            if not schema:
                yield at, "false"
            return
        for keyword, wanted in schema.items():
            if keyword in PLAIN:
                if not PLAIN[keyword](wanted, value):
                    yield at, keyword
            elif keyword in APPLIED:
                yield from APPLIED[keyword](self, file, schema, value, at)
            elif keyword not in TOLD and keyword not in ("then", "else"):
                raise ValueError(f"{file} uses {keyword}, which is not known here")

    def referred(self, file, schema, value, at):
        yield from self.walk(*self.target(file, schema["$ref"]), value, at)

    def all_of(self, file, schema, value, at):
        for each in schema["allOf"]:
            yield from self.walk(file, each, value, at)

    def either(self, file, schema, value, at):
        branch = "then" if self.holds(file, schema["if"], value) else "else"
        yield from self.walk(file, schema.get(branch, True), value, at)

    def elements(self, file, schema, value, at):
        if isinstance(value, list):
            for number, each in enumerate(value):
                yield from self.walk(file, schema["items"], each, f"{at}/{number}")

    def members(self, file, schema, value, at):
        if isinstance(value, dict):
            for name, each in schema["properties"].items():
                if name in value:
                    yield from self.walk(file, each, value[name], f"{at}/{name}")

    def other_members(self, file, schema, value, at):
        if isinstance(value, dict):
            for name in value:
                if name not in schema.get("properties", {}):
                    yield from self.walk(file, schema["additionalProperties"], value[name], f"{at}/{name}")


APPLIED = {
    "$ref": Schemas.referred,
    "allOf": Schemas.all_of,
    "if": Schemas.either,
    "items": Schemas.elements,
    "properties": Schemas.members,
    "additionalProperties": Schemas.other_members,
}
