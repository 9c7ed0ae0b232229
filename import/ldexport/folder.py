"""A course folder: its documents, its files, and what its identifiers name."""

import json
import os
from collections.abc import Iterator
from pathlib import Path
from typing import Any

from ldimport.report import Refused

DOCUMENTS = ("roles", "properties", "environments", "activities", "unit", "conditions", "pages", "import")
REQUIRED = ("roles", "activities", "unit")
CONTENT = "content"

Json = dict[str, Any]


class Folder:
    def __init__(self, path: Path) -> None:
        self.path = path
        documents = {name: read_document(path / f"{name}.json", name in REQUIRED) for name in DOCUMENTS}
        self.roles: list[Json] = documents["roles"]["roles"]
        self.properties: list[Json] = documents["properties"].get("properties", [])
        self.environments: list[Json] = documents["environments"].get("environments", [])
        self.activities: list[Json] = documents["activities"].get("activities", [])
        self.structures: list[Json] = documents["activities"].get("structures", [])
        self.unit: Json = documents["unit"]
        self.plays: list[Json] = self.unit["method"]["plays"]
        self.conditions: list[Json] = documents["conditions"].get("conditions", [])
        self.groups: list[Json] = documents["pages"].get("groups", [])
        self.pages: list[Json] = documents["pages"].get("pages", [])
        self.record: Json = documents["import"]
        self.datatypes = {each["identifier"]: each["datatype"] for each in self.properties}
        self.references = self.find_references()
        self.identifiers = set(identifiers_in(documents))
        self.files = self.find_files()

    def find_references(self) -> dict[str, str]:
        """For each identifier, the element that refers to what it names."""
        found = {self.unit["identifier"]: "unit-of-learning-href"}
        for property in self.properties:
            found[property["identifier"]] = "property-ref"
        for group in self.groups:
            found[group["identifier"]] = "property-group-ref"
        for environment in self.environments:
            found[environment["identifier"]] = "environment-ref"
            for each in environment.get("learning-objects", []) + environment.get("services", []):
                found[each["identifier"]] = "class"
        for activity in self.activities:
            found[activity["identifier"]] = f"{activity.get('kind', 'learning')}-activity-ref"
        for structure in self.structures:
            found[structure["identifier"]] = "activity-structure-ref"
        for play in self.plays:
            found[play["identifier"]] = "play-ref"
            for act in play["acts"]:
                found[act["identifier"]] = "act-ref"
                found.update((part["identifier"], "role-part-ref") for part in act["role-parts"])
        return found

    def fresh(self, name: str) -> str:
        """The name, or one that begins with it, which nothing has; a package's identifiers all differ."""
        while name in self.identifiers:
            name += "_"
        self.identifiers.add(name)
        return name

    def find_files(self) -> dict[str, Path]:
        """The files below `content/` by their names there. A folder with a link is refused."""
        found: dict[str, Path] = {}
        top = self.path / CONTENT
        if top.is_symlink():
            raise Refused("folder-link", f"{CONTENT} is a link")
        for folder, folders, files in os.walk(top, followlinks=False):
            folders.sort()
            for entry in sorted(files) + folders:
                path = Path(folder, entry)
                if path.is_symlink():
                    raise Refused("folder-link", f"{path.relative_to(self.path)} is a link")
                if path.is_file():
                    found[path.relative_to(top).as_posix()] = path
        return found


def identifiers_in(value: Any) -> Iterator[str]:
    """All identifiers that stand in the documents."""
    if isinstance(value, dict):
        if isinstance(value.get("identifier"), str):
            yield value["identifier"]
        value = list(value.values())
    if isinstance(value, list):
        for each in value:
            yield from identifiers_in(each)


def read_document(path: Path, is_required: bool) -> Json:
    if not is_required and not path.exists():
        return {}
    try:
        found = json.loads(path.read_bytes())
    except (OSError, ValueError, RecursionError) as fault:
        raise Refused("no-course", f"{path.name} can't be read: {fault}") from None
    if not isinstance(found, dict):
        raise Refused("no-course", f"{path.name} is no object")
    return found
