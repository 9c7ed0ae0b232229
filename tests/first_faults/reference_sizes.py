"""Sizes of role-parts and of the unit, as docs/FORMATS.md has them. Nothing leads back to itself here."""
import functools
import sys

OF_PART = 20_000
OF_UNIT = 200_000


def feedback(value):
    return len(value.get("on-completion", {}).get("feedback", []))


def size_faults(parts, things):
    sys.setrecursionlimit(10_000)

    @functools.cache
    def size(name):
        """The size of an activity, a structure or an environment."""
        what, value = things[name].what, things[name].value
        total = 1 + sum(map(size, value.get("environments", [])))
        if what == "activity":
            return total + len(value.get("items", [])) + feedback(value)
        if what == "structure":
            return total + sum(map(size, value["children"]))
        objects = sum(1 + len(each.get("items", [])) for each in value.get("learning-objects", []))
        return total + len(value.get("services", [])) + objects

    whole = 0
    for part in parts:
        if part.what == "role-part":
            own = 1 + size(part.value["ref"])
            whole += own
            if own > OF_PART:
                yield part.file, part.at, "too-big"
        elif part.what in ("act", "play", "method"):
            whole += feedback(part.value)
    if whole > OF_UNIT:
        yield "unit.json", "/method", "too-big"
