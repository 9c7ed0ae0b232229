"""The last of several folders beside the units of those before it, none of which has a fault: its identifier, and what it
says of the properties that all runs share."""
import itertools

from units import activity, folder, prop

UNIT = "unit.json /identifier repeated-unit"
FIRST = "properties.json /properties/0 global-differs"
DATATYPES = ["string", "text", "uri", "boolean", "integer", "datetime", "duration"]
# Initial values, and whether the second says the same as the first; None is no `initial`.
INITIALS = [
    ("integer", "7", "7", True), ("integer", "7", "007", True), ("integer", "0", "-0", True), ("integer", "7", "-7", False),
    ("integer", "7", None, False), ("integer", None, "0", False), ("integer", None, None, True),
    ("duration", "PT90M", "PT1H30M", True), ("duration", "P1D", "PT86400S", True), ("duration", "PT0S", None, False),
    ("duration", "PT90M", "PT90S", False), ("string", "", "", True), ("string", "", None, False), ("string", "a", "A", False),
    ("string", "7", "07", False), ("boolean", "true", "false", False), ("boolean", "false", None, False),
    ("datetime", "2024-01-01T00:00:00Z", "2024-01-01T00:00:00Z", True),
    ("datetime", "2024-01-01T00:00:00Z", "2024-01-01T00:00:01Z", False)]
# Restrictions, in the same way; None is none.
RESTRICTIONS = [
    ("integer", None, {}, True), ("integer", {}, None, True), ("integer", {}, {}, True),
    ("integer", {"minInclusive": "1"}, {"minInclusive": "01"}, True), ("integer", {"minInclusive": "1"}, {}, False),
    ("integer", None, {"minInclusive": "-9223372036854775808"}, False),
    ("integer", {"minInclusive": "1"}, {"minInclusive": "2"}, False),
    ("integer", {"minInclusive": "1"}, {"maxInclusive": "1"}, False),
    ("integer", {"maxInclusive": "5"}, {"maxInclusive": "05"}, True),
    ("integer", {"maxInclusive": "5"}, {"maxInclusive": "6"}, False), ("integer", {"maxInclusive": "5"}, {}, False),
    ("integer", {"enumeration": ["1", "2"]}, {"enumeration": ["01", "2"]}, True),
    ("integer", {"enumeration": ["1", "2"]}, {"enumeration": ["2", "1"]}, False),
    ("integer", {"enumeration": ["1", "2"]}, {"enumeration": ["1"]}, False),
    ("integer", {"enumeration": ["1"]}, {"enumeration": ["1", "2"]}, False),
    ("integer", {"enumeration": ["1"]}, {"enumeration": ["1", "1"]}, False), ("integer", {"enumeration": ["1"]}, None, False),
    ("string", {"minLength": 1}, {"minLength": 1}, True), ("string", {"minLength": 1}, {"minLength": 2}, False),
    ("string", {"minLength": 0}, {}, False), ("string", {"minLength": 1}, {"maxLength": 1}, False),
    ("string", {"maxLength": 9}, {"maxLength": 9}, True), ("string", {"maxLength": 9}, {"maxLength": 8}, False),
    ("string", {"maxLength": 4_096}, None, False), ("string", {"enumeration": ["a"]}, {"enumeration": ["A"]}, False),
    ("duration", {"minInclusive": "PT60S"}, {"minInclusive": "PT1M"}, True),
    ("duration", {"enumeration": ["PT60S", "P1D"]}, {"enumeration": ["PT1M", "PT24H"]}, True)]


def shared(identifier="n", datatype="integer", kind="glob", **more):
    """A property with the uri `urn:x`."""
    return prop(identifier, datatype, kind, **{"uri": "urn:x", **more})


def unit(identifier, *properties, **more):
    return folder(identifier=identifier, properties=list(properties), level="B", **more)


def pair(first, second):
    """Two units with one property each."""
    return [unit("u", first), unit("v", second)]


def units():
    yield "two units", None, [folder(), folder(identifier="v")]
    yield "a unit twice", UNIT, [folder(), folder()]
    yield "a unit once more behind another", UNIT, [folder(), folder(identifier="v"), folder()]
    yield "another unit of the same name", UNIT, [folder(), folder(level="C", activities=[activity(), activity("x")])]
    yield "names that differ in their case", None, [folder(), folder(identifier="U")]
    yield "a unit named as an activity of another", None, [folder(), folder(identifier="x", activities=[
        activity(), activity("v")]), folder(identifier="v")]
    yield "its own fault first", "roles.json /roles missing", [folder(), folder(files={"roles.json": {}})]
    yield "its own last check first", "properties.json /properties/0/initial bad-type", [
        unit("u", shared()), unit("u", shared(initial="x"))]
    yield "the unit before its properties", UNIT, [unit("u", shared()), unit("u", shared(datatype="text"))]


def properties():
    yield "the same property", None, pair(shared(), shared())
    yield "another name and title", None, pair(shared(), shared("other", title="Another"))
    yield "one uri and one name for two properties", FIRST, pair(shared(), shared(datatype="string"))
    yield "one name for two uris", None, pair(shared(), shared(datatype="string", uri="urn:y"))
    yield "uris that differ in their case", None, pair(shared(), shared(datatype="string", uri="urn:X"))
    yield "properties of the run", None, pair(prop("n"), prop("n", "string"))
    yield "a property of the run and one for all", None, pair(prop("n"), shared(datatype="string"))
    for one, other in itertools.product(["glob", "globpers"], repeat=2):
        yield f"{one} and {other}", None if one == other else FIRST, pair(shared(kind=one), shared(kind=other))
    for one, other in itertools.product(DATATYPES, repeat=2):
        for kind in ["glob", "globpers"]:
            yield f"{one} and {other}, {kind}", None if one == other else FIRST, pair(
                shared(datatype=one, kind=kind), shared(datatype=other, kind=kind))


def contents():
    for member, table in [("initial", INITIALS), ("restrictions", RESTRICTIONS)]:
        for datatype, one, other, is_same in table:
            yield f"{member} {one} and {other} of {datatype}", None if is_same else FIRST, pair(
                shared(datatype=datatype, **{member: one}), shared(datatype=datatype, kind="glob", **{member: other}))


def places():
    """Which of several properties is told, and of which folder it differs."""
    numbers = [prop("x", kind="glob"), prop("y", kind="globpers"), prop("z", kind="glob")]
    texts = [prop("x", "text", "glob"), prop("y", "text", "globpers"), prop("z", "text", "glob")]
    yield "the second property", "properties.json /properties/1 global-differs", [
        unit("u", *numbers), unit("v", numbers[0], texts[1], texts[2])]
    yield "behind those of the run", "properties.json /properties/2 global-differs", [
        unit("u", *numbers), unit("v", prop("x"), prop("y", kind="locpers"), texts[2])]
    yield "in another order", "properties.json /properties/1 global-differs", [
        unit("u", *numbers), unit("v", numbers[2], texts[0], texts[1])]
    yield "a third folder and the first", FIRST, [unit("u", numbers[0]), unit("v", numbers[1]), unit("w", texts[0])]
    yield "a third folder and the second", "properties.json /properties/1 global-differs", [
        unit("u", numbers[0]), unit("v", numbers[0], numbers[1]), unit("w", numbers[0], texts[1])]
    yield "three folders with one property", None, [unit(name, numbers[0]) for name in "uvw"]
    yield "one property after another", None, [unit("u", numbers[0]), unit("v", texts[1]), unit("w", texts[2])]


def cases(word=""):
    """The name, the fault of the last folder, and the folders."""
    for table in (units, properties, contents, places):
        for name, fault, folders in table():
            if word in f"beside: {name}":
                yield f"beside: {name}", fault, folders
