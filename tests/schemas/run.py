#!/usr/bin/env python3
"""Runs the schemas over the folders of examples/ and of tests/first_faults, and over random folders.

A schema sees one document. So it has to accept each document of a folder that has no fault but such that need other
documents or the whole unit, and to refuse one with a fault of shape, at its place, but for the reasons of `unseen`.
What a folder's faults are says the second reading of docs/FORMATS.md (tests/first_faults/reference.py). Where Python
has the module `jsonschema`, it has to accept and refuse the same documents.
"""
import json
import pathlib
import sys

TESTS = pathlib.Path(__file__).resolve().parent.parent
sys.path.insert(0, str(TESTS / "first_faults"))

from random_folders import folder_of  # noqa: E402
from reference import bytes_of, of_folder, steps  # noqa: E402
from reference_json import read_json  # noqa: E402
from reference_values import DURATION  # noqa: E402
from tables import all_cases  # noqa: E402
from validate import Schemas  # noqa: E402

# Larger folders are left out: they are about the time that the program takes.
LARGE = 60_000
RANDOM = 1_000
# Faults of whole units that schemas tell though they are no faults of shape: a list that is too long or names a thing
# twice, a text that is no value, and what follows a completion that is not said.
SEEN_TOO = {"identifiers", "types", "limits", "profile"}


def at(document, place):
    """What stands at a place of a document, or None."""
    for step in place.split("/")[1:]:
        try:
            document = document[int(step)] if isinstance(document, list) else document[step]
        except (KeyError, IndexError, TypeError, ValueError):
            return None
    return document


def unseen(document, place, code):
    """Why a schema does not see a fault of shape, or None."""
    value = at(document, place)
    if code != "wrong-shape":
        return None
    if isinstance(value, str) and not value.isascii():
        return "a length in bytes"
    if isinstance(value, float) and value.is_integer():
        return "a whole number that is written with a point, an exponent or a sign"
    if place.endswith("/number-to-select"):
        return "a number above that of the children"
    if place.endswith("/time-limit") and isinstance(value, str) and DURATION.fullmatch(value):
        return "a duration that is too long"
    return None


def is_near(place, told):
    """Whether a schema's place is that of a fault: the place itself, the object around it, or a part of it."""
    return told == place or told == place.rpartition("/")[0] or told.rpartition("/")[0] == place


class Check:
    def __init__(self):
        self.schemas = Schemas(TESTS.parent / "schemas")
        self.known = {}
        self.other = other_validator(self.schemas)
        self.passed, self.failed, self.reasons = 0, 0, {}

    def refusals(self, file, data):
        """The document, and the places where its schema refuses it; each text is looked at once."""
        if (file, data) not in self.known:
            document = read_json(data)
            name = file.replace(".json", ".schema.json")
            places = sorted({place for place, _ in self.schemas.faults(name, document)})
            wrong = None
            if self.other is not None and self.other(name, document) != (not places) and not ends_a_line(data):
                wrong = f"jsonschema {'refuses' if not places else 'accepts'} {file}"
            self.known[file, data] = document, places, wrong
        return self.known[file, data]

    def folder(self, name, files):
        wrong = self.wrong_of(files)
        if wrong is None:
            self.passed += 1
        else:
            self.failed += 1
            print(f"failed: {name}: {wrong}", flush=True)

    def wrong_of(self, files):
        """What is wrong with what the schemas say of the folder, or None."""
        found = steps(files)
        if found and found[0][0] == "files":
            return None
        shapes = [fault for step, fault in found if step == "shapes"]
        too = {fault[0] for step, fault in found if step in SEEN_TOO}
        for file, data in files.items():
            document, places, differs = self.refusals(file, data)
            faults = [fault for fault in shapes if fault[0] == file]
            if differs is not None:
                return differs
            if places and not faults and file not in too and not shapes:
                return f"{file} is refused at {places[0] or '.'}"
            for _, place, code in faults:
                place = place.removeprefix(".")
                reason = unseen(document, place, code)
                if reason is not None:
                    self.reasons[reason] = self.reasons.get(reason, 0) + 1
                elif not any(is_near(place, told) for told in places):
                    return f"{file} {place or '.'} {code} is not seen"
        return None


def ends_a_line(data):
    """Whether a text ends with a line feed, before which `$` of Python's patterns matches."""
    return b'\\n"' in data


def other_validator(schemas):
    """The validator of the module `jsonschema`, where there is one: whether it accepts a document."""
    try:
        import jsonschema
        import referencing
    except ImportError:
        return None
    resources = [(name, referencing.Resource.from_contents(schema)) for name, schema in schemas.files.items()]
    registry = referencing.Registry().with_resources(resources)
    for schema in schemas.files.values():
        jsonschema.Draft202012Validator.check_schema(schema)
    made = {name: jsonschema.Draft202012Validator(schema, registry=registry) for name, schema in schemas.files.items()}
    return lambda name, document: made[name].is_valid(document)


def settings_name_schemas():
    """Whether the setting of examples/ leads to a schema for each document."""
    examples = TESTS.parent / "examples"
    told = json.loads((examples / ".vscode" / "settings.json").read_text())["json.schemas"]
    files = {each["fileMatch"][0]: (examples / each["url"]).resolve() for each in told}
    wanted = {path.name.replace(".schema", ""): path for path in (TESTS.parent / "schemas").glob("*.schema.json")}
    del wanted["common.json"]
    return files == wanted


def main():
    check = Check()
    for path in sorted((TESTS.parent / "examples").glob("*/unit.json")):
        check.folder(f"example {path.parent.name}", of_folder(path.parent))
    for name, _, documents in all_cases():
        files = {file: bytes_of(document) for file, document in documents.items()}
        if sum(map(len, files.values())) <= LARGE:
            check.folder(name, files)
    for number in range(RANDOM):
        check.folder(f"random folder {number}", folder_of(number))
    if not settings_name_schemas():
        check.failed += 1
        print("failed: examples/.vscode/settings.json names other schemas than there are")
    if "--reasons" in sys.argv:
        for reason, count in sorted(check.reasons.items()):
            print(f"{count:6} faults not seen: {reason}")
        print("jsonschema is", "not here" if check.other is None else "here")
    print(f"{check.passed} passed, {check.failed} failed")
    return 1 if check.failed or not check.passed else 0


if __name__ == "__main__":
    sys.exit(main())
