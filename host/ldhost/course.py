"""What the host reads from a unit's documents: titles and buttons, which the engine's replies do not tell."""

import json
from pathlib import Path
from typing import Any, Iterator

from . import moments

DOCUMENTS = ["roles.json", "properties.json", "environments.json", "activities.json", "unit.json", "conditions.json"]
PAGES, CONTENT, IMPORTED = "pages.json", "content", "import.json"
FORMAT = 1
LIMIT_WORDS = {"time-limit", "current-datetime"}
Thing = dict[str, Any]


class Course:
    """A unit whose documents the engine accepted. Forms are read only where the engine has them."""

    def __init__(self, folder: Path, with_pages: bool = False):
        self.folder = folder
        docs = {name: read(folder / name) for name in DOCUMENTS}
        unit = docs["unit.json"]
        self.id: str = unit["identifier"]
        self.title: str = unit.get("title") or self.id
        self.level: str = unit["level"]
        self.format: int = unit["format"]
        self.unit = unit
        self.activities = by_name(docs["activities.json"].get("activities", []))
        self.properties = by_name(docs["properties.json"].get("properties", []))
        self.pages = by_name(read(folder / PAGES).get("pages", []) if with_pages else [])
        self.uris = {one["uri"] for one in self.properties.values() if "uri" in one}
        self.roles = {role["identifier"]: role for role in roles_of(docs["roles.json"]["roles"])}
        things = list(objects(list(docs.values())))
        self.titles = {one["identifier"]: one.get("title") or one["identifier"] for one in things if is_named(one)}
        self.feedback = {item["identifier"] for one in things for item in one.get("feedback") or []}
        self.hrefs = [one["href"] for one in things if "href" in one]
        self.looks_at_time = any(LIMIT_WORDS & one.keys() for one in things)

    def title_of(self, name: str) -> str:
        return self.titles.get(name, name)

    def is_by_choice(self, activity: str) -> bool:
        return "user-choice" in self.activities[activity].get("complete", {})

    def limit(self, activity: str) -> str | None:
        """How long the activity lasts from when a person opens it, where it has a time limit."""
        limit: str | None = self.activities[activity].get("complete", {}).get("time-limit")
        return limit

    def end(self, activity: str, opened: str) -> str:
        """When an activity with a time limit ends that was opened then."""
        return moments.after(opened, moments.seconds_of(self.limit(activity) or ""))

    def field(self, name: str) -> Thing:
        """The form's field for a property: title, type and bounds."""
        one = self.properties[name]
        return {"title": one.get("title") or name, "datatype": one["datatype"], **one.get("restrictions", {})}

    def properties_of_roles(self, roles: set[str]) -> list[str]:
        """The properties that belong to one of these roles, and that its members may set."""
        return [name for name, one in self.properties.items() if one["kind"] == "locrole" and one["role"] in roles]


def read(path: Path) -> Thing:
    found: Thing = json.loads(path.read_bytes()) if path.exists() else {}
    return found


def by_name(things: list[Thing]) -> dict[str, Thing]:
    return {one["identifier"]: one for one in things}


def is_named(one: Thing) -> bool:
    return isinstance(one.get("identifier"), str)


def roles_of(roles: list[Thing], kind: str = "") -> Iterator[Thing]:
    """The roles in document order; those within another one have the kind of their top."""
    for role in roles:
        own = role.get("kind", kind)
        yield {
            "identifier": role["identifier"],
            "title": role.get("title") or role["identifier"],
            "kind": own,
            "least": role.get("min-persons", 0),
        }
        yield from roles_of(role.get("roles", []), own)


def objects(value: Any) -> Iterator[Thing]:
    """All objects within a JSON value, each before those within it."""
    if isinstance(value, dict):
        yield value
        value = list(value.values())
    if isinstance(value, list):
        for part in value:
            yield from objects(part)
