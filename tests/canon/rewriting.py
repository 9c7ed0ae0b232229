"""Other folders of the same unit, by chance: all ways to write it that docs/FORMATS.md has."""

import collections
import json
import random
from typing import Any

from canonical import Files, Object, datatype_in, datatypes_of, read
from forms import FILES, OBJECTS, OPTIONAL, Form, Part, Plain, Several, Value
from reference_values import value_of

Ways = collections.Counter[str]
SPACES = [" ", "\n", "\t", "\r\n", "  "]
# What stands where a member is given twice, and does not count.
NOT_COUNTED = ["null", "[]", "{}", "1.5", '"x"', "false", '{"identifier":"x"}']
UNITS = [("D", 86_400), ("H", 3_600), ("M", 60), ("S", 1)]


class Rewriting:
    """Writes documents in other ways with the dice that are given, and counts the ways."""

    def __init__(self, dice: random.Random, ways: Ways) -> None:
        self.dice = dice
        self.ways = ways
        self.datatypes: dict[str, str] = {}

    def happens(self, way: str, chance: float) -> bool:
        """Whether the dice choose a way to write, which is counted then."""
        chosen = self.dice.random() < chance
        if chosen:
            self.ways[way] += 1
        return chosen

    # ---- value texts

    def number(self, number: int, most: int) -> str:
        """The digits of a number, with zeros before them or without, and at most so many."""
        text = str(number)
        return text.zfill(self.dice.randint(len(text), most)) if self.happens("leading zeros", 0.3) else text

    def integer(self, value: int) -> str:
        """Another text of an integer."""
        minus = value < 0 or value == 0 and self.happens("zero with a sign", 0.5)
        return ("-" if minus else "") + self.number(abs(value), 19)

    def duration(self, seconds: int) -> str:
        """Another text of a duration: some of its parts, of which the last takes what is left."""
        units = [unit for unit in UNITS if self.dice.random() < 0.5]
        rest, texts = seconds, {}
        for letter, size in units:
            count = rest // size
            count = self.dice.randint(0, count) if self.dice.random() < 0.3 else count
            rest -= count * size
            texts[letter] = count
        if rest > 0 or not texts:
            texts["S"] = texts.get("S", 0) + rest
        self.ways["another duration"] += 1
        parts = {letter: f"{self.number(count, 12)}{letter}" for letter, count in texts.items()}
        time = "".join(parts[letter] for letter in "HMS" if letter in parts)
        return f"P{parts.get('D', '')}" + (f"T{time}" if time else "")

    def value(self, datatype: str, text: str) -> str:
        """Another text of the same value."""
        value = value_of(datatype, text)
        if datatype == "integer":
            return self.integer(value)
        return self.duration(value) if datatype == "duration" else text

    # ---- documents

    def of(self, form: Form, given: Any, datatype: str | None) -> Any:
        """The same value in another way; the datatype is that of the property around it, if there is one."""
        match form:
            case Plain():
                return given
            case Value(own):
                return self.value(str(own or datatype), given)
            case Several(inner):
                return [self.of(inner, each, datatype) for each in given]
            case Part(name):
                return self.of_object(name, given, datatype)

    def of_object(self, name: str, given: Object, datatype: str | None = None) -> Object:
        """The same object with its members in another order, with and without what is left out by default."""
        kind = datatype_in(name, given, self.datatypes) or datatype
        forms = OBJECTS[name]
        members = {member: self.of(forms[member], value, kind) for member, value in given.items()}
        for member, form in forms.items():
            if member in members:
                if self.is_default(form, members[member]) and self.happens("default left out", 0.5):
                    del members[member]
            elif name != "Activity" or member != "supports" or given.get("kind") == "support":
                self.add(members, member, form)
        names = list(members)
        self.dice.shuffle(names)
        self.ways["members in another order"] += names != list(members)
        return {member: members[member] for member in names}

    def is_default(self, form: Form, value: Any) -> bool:
        """Whether a member may be left out."""
        return value == [] or isinstance(form, Plain) and form.default is not None and value == form.default

    def add(self, members: Object, member: str, form: Form) -> None:
        """Writes a default or an empty list, or does not."""
        if isinstance(form, Plain) and form.default is not None:
            if self.happens("default written", 0.4):
                members[member] = form.default
        elif isinstance(form, Several) and form.least == 0 and self.happens("empty list written", 0.4):
            members[member] = []

    # ---- the text of a document

    def space(self) -> str:
        """White space, or none."""
        return self.dice.choice(SPACES) if self.dice.random() < 0.1 else ""

    def escaped(self, character: str) -> str:
        """A character as an escape of JSON, or as it stands."""
        if character == "/" and self.dice.random() < 0.5:
            return "\\/"
        if self.dice.random() < 0.5:
            return json.dumps(character, ensure_ascii=False)[1:-1]
        data = character.encode("utf-16-be")
        codes = [f"{data[at] * 256 + data[at + 1]:04x}" for at in range(0, len(data), 2)]
        return "".join("\\u" + (code.upper() if self.dice.random() < 0.5 else code) for code in codes)

    def text(self, text: str) -> str:
        """A text as JSON, sometimes with escapes that are not needed."""
        if text and self.happens("escapes", 0.04):
            return '"' + "".join(map(self.escaped, text)) + '"'
        return json.dumps(text, ensure_ascii=False)

    def member(self, name: str, value: Any) -> str:
        """A member as JSON, sometimes behind another one of its name."""
        last = f"{self.space()}{self.text(name)}{self.space()}:{self.json(value)}"
        if self.happens("a member twice", 0.04):
            return f"{self.space()}{self.text(name)}:{self.dice.choice(NOT_COUNTED)},{last}"
        return last

    def json(self, value: Any) -> str:
        """A value as JSON, with white space."""
        if isinstance(value, dict):
            inner = ",".join(self.member(name, each) for name, each in value.items())
            text = "{" + (inner or self.space()) + "}"
        elif isinstance(value, list):
            text = "[" + (",".join(map(self.json, value)) or self.space()) + "]"
        else:
            text = self.text(value) if isinstance(value, str) else json.dumps(value)
        return f"{self.space()}{text}{self.space()}"

    # ---- folders

    def folder(self, files: Files) -> Files:
        """Another folder of the same unit."""
        documents = read(files)
        self.datatypes = datatypes_of(documents)
        for name in OPTIONAL:
            if name not in documents and self.happens("a document with nothing in it", 0.4):
                documents[name] = {}
        other = {name: self.of_object(name, documents[name]) for name in FILES if name in documents}
        for name in OPTIONAL:
            if name in other and not any(other[name].values()) and self.happens("a document left out", 0.3):
                del other[name]
        return {name: self.json(document).encode() for name, document in other.items()}


# What a Rewriting counts; run.py fails where one of these is not found.
WAYS = [
    "leading zeros",
    "zero with a sign",
    "another duration",
    "default left out",
    "default written",
    "empty list written",
    "members in another order",
    "escapes",
    "a member twice",
    "a document with nothing in it",
    "a document left out",
]
