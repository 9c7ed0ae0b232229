"""What a condition does once for each person though it is meant for the run.

The engine asks each condition for each person. Where the answer is the same for all, a notice is sent, and a counter
raised, once for each person (docs/MEANING.md, "Conditions are asked for each person").
"""

from collections.abc import Mapping, Sequence
from typing import Any

Json = Mapping[str, Any]


class Persons:
    def __init__(self, personal: set[str]) -> None:
        """`personal`: the properties, activities and structures that have a value, or are done, for each person."""
        self.personal = personal

    def repeated(self, tests: Sequence[Json], actions: Sequence[Json]) -> list[Json]:
        """The actions that would be done again for each person though nothing in them is a person's own.

        `tests` all have to hold. There are none where an answer may differ from person to person, where doing them
        again changes nothing, and where the first person's time makes a test false for all.
        """
        shared = [action for action in actions if self.is_shared(action)]
        repeats = any("notify" in action or changes_itself(action) for action in shared)
        if not repeats or self.is_personal(tests) or ends_itself(tests, actions):
            return []
        return shared

    def is_shared(self, action: Json) -> bool:
        """Whether an action is the same, whoever the person is."""
        if "notify" in action:
            return True
        if "change" not in action:
            return False
        change = action["change"]
        return change["property"] not in self.personal and not self.is_personal(change["value"])

    def is_personal(self, test: Any) -> bool:
        """Whether an answer may differ from person to person."""
        if isinstance(test, list):
            return any(map(self.is_personal, test))
        if not isinstance(test, dict):
            return False
        for name, value in test.items():
            if name in ("is-member-of-role", "datetime-activity-started"):
                return True
            if name in ("property", "no-value", "complete") and value in self.personal:
                return True
            if name != "users-in-role" and self.is_personal(value):
                return True
        return False


def changes_itself(action: Json) -> bool:
    """Whether an action changes a property by its own value, as a counter."""
    return "change" in action and reads(action["change"]["value"], action["change"]["property"])


def reads(term: Any, name: str) -> bool:
    if isinstance(term, list):
        return any(reads(part, name) for part in term)
    if not isinstance(term, dict):
        return False
    return term.get("property") == name or any(reads(part, name) for part in term.values())


def ends_itself(tests: Sequence[Json], actions: Sequence[Json]) -> bool:
    """Whether the actions make the tests false for all: they give another truth value to a property that is asked."""
    changed = {action["change"]["property"]: action["change"]["value"] for action in actions if "change" in action}
    asked = [part for test in tests for part in test.get("and", [test])]
    for part in asked:
        sides = {name: value for side in part.get("is", []) for name, value in side.items()}
        after = changed.get(sides.get("property"), {}).get("boolean")
        if "boolean" in sides and after is not None and after != sides["boolean"]:
            return True
    return False
