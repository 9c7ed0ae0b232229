"""The first fault of a course, shown at its place and explained."""

import json
import re
from dataclasses import dataclass, field
from pathlib import Path

SPACE = re.compile(r"[ \t\r\n]*")
ROWS_AROUND, ROWS_MARKED, ROW_LENGTH = 3, 9, 400
TEXTS = {
    "absent": "This document has to be in the folder.",
    "too-big": "This is larger than the engine's limit.",
    "not-json": "This file is no JSON document.",
    "wrong-shape": "The value here has not the form that the format asks for (object, list, text, number or range).",
    "unknown-member": "This object has a member that the format does not know here; look for a misspelt name.",
    "missing": "A member that has to be here is not there.",
    "not-in-profile": "This is part of IMS Learning Design, but this engine leaves it out.",
    "repeated-id": "This identifier (or reference in a list) is used before; all identifiers of a unit differ.",
    "repeated-uri": "Another property of the unit has this uri.",
    "unknown-ref": "Nothing in the unit has this identifier.",
    "wrong-kind-of-ref": "The thing with this identifier is of another kind than may stand here.",
    "cycle": "This thing contains itself by way of its references.",
    "above-level": "The unit's level (A, B or C in unit.json) does not have this.",
    "bad-type": "The value does not suit its type, or two types do not suit each other.",
    "too-many": "The unit has more of these than the engine takes.",
    "repeated-unit": "A published unit has this identifier.",
    "global-differs": "A published unit declares this uri in another way.",
}


@dataclass
class Row:
    number: int
    text: str
    is_here: bool


@dataclass
class Fault:
    file: str
    place: str
    code: str
    text: str
    line: int | None = None
    rows: list[Row] = field(default_factory=list)


def explain(folder: Path, refused: str) -> Fault:
    """What an author reads in place of `refused K FILE PLACE CODE`: the explanation, and the lines around the place."""
    _, _, name, pointer, code = refused.split(" ")
    fault = Fault(name, pointer, code, TEXTS.get(code, code))
    path = folder / name
    if not path.exists() or (code == "too-big" and pointer == "."):
        return fault
    text = path.read_bytes().decode("utf-8", "replace")
    try:
        first, last = place(text, "" if pointer == "." else pointer)
    except (ValueError, IndexError, RecursionError) as error:
        first = last = getattr(error, "pos", 0)
        fault.text += f" ({error})" if str(error) else ""
    show(fault, text, first, last)
    return fault


def show(fault: Fault, text: str, first: int, last: int) -> None:
    """Puts the rows around the marked ones into the fault."""
    begin = text.count("\n", 0, first) + 1
    end = min(text.count("\n", 0, max(first, last - 1)) + 1, begin + ROWS_MARKED - 1)
    fault.line, fault.rows = begin, rows_around(text.split("\n"), begin, end)


def rows_around(lines: list[str], begin: int, end: int) -> list[Row]:
    """The lines from `begin` to `end`, which are marked, and some before and after them."""
    first, last = max(1, begin - ROWS_AROUND), min(len(lines), end + ROWS_AROUND)
    return [Row(number, lines[number - 1][:ROW_LENGTH], begin <= number <= end) for number in range(first, last + 1)]


def place(text: str, pointer: str) -> tuple[int, int]:
    """Where the value at a JSON pointer begins and ends. Where it is not there: the nearest object around it."""
    steps = [step.replace("~1", "/").replace("~0", "~") for step in pointer.split("/")[1:]]
    at, end = value_at(text, 0)
    for step in steps:
        found = part(text, at, step)
        if found is None:
            break
        at, end = value_at(text, found)
    return at, end


def value_at(text: str, at: int) -> tuple[int, int]:
    at = skip(text, at)
    _, end = json.JSONDecoder().raw_decode(text, at)
    return at, end


def skip(text: str, at: int) -> int:
    space = SPACE.match(text, at)
    return space.end() if space else at


def part(text: str, at: int, step: str) -> int | None:
    """Where the member or the element of the value at `at` begins; the last one where a name stands there twice."""
    if text[at] not in "{[":
        return None
    decoder, is_object = json.JSONDecoder(), text[at] == "{"
    at, index, found = skip(text, at + 1), 0, None
    while text[at] not in "}]":
        name = str(index)
        if is_object:
            name, at = decoder.raw_decode(text, at)
            at = skip(text, skip(text, at) + 1)
        if name == step:
            found = at
        _, at = decoder.raw_decode(text, at)
        at, index = skip(text, at), index + 1
        if text[at] == ",":
            at = skip(text, at + 1)
    return found
