"""Faults of shape: the tables in rows/, one case a line, and what is in the documents that they change.

    NAME.whole    DOCUMENT | FAULT
    NAME.edits    PIECE | WITH | FAULT             the first such piece of the full document, and what stands there
    NAME.lengths  MEMBER | LETTER | TIMES | FAULT  a text member, and the text that it has instead
    folders       ROLES | PROPERTIES | ENVIRONMENTS | ACTIVITIES | FAULT, an empty one being no file

The documents rows/NAME.json together have each member of each object that may be there; a table changes one of them.
A fault is a place and a code (in `folders` with its file), found in docs/FORMATS.md. A dash is no fault of shape: the
first fault is then one of the first check, two equal identifiers in another document.
"""
import json
import pathlib

ROWS = pathlib.Path(__file__).parent / "rows"
NAMES = ["roles", "properties", "environments", "activities", "unit", "conditions"]
FILES = [f"{name}.json" for name in NAMES]
FULL = {f"{name}.json": (ROWS / f"{name}.json").read_text().rstrip("\n") for name in NAMES}
ROLES_TWICE = "roles.json /roles/1 repeated-id"
ENVIRONMENTS_TWICE = "environments.json /environments/1 repeated-id"
# The tables by the file that they change.
TABLES = {
    "roles.json": ["roles.whole", "roles.edits", "inner_roles.edits", "roles.lengths"],
    "properties.json": ["properties.whole", "properties.edits", "properties.lengths"],
    "environments.json": [
        "environments.whole", "environments.edits", "objects.edits", "services.edits", "environments.lengths"],
    "activities.json": [
        "activities.whole", "activities.edits", "items.edits", "completions.edits", "structures.edits",
        "activities.lengths", "structures.lengths"],
    "unit.json": [
        "unit.whole", "unit.edits", "method.edits", "plays.edits", "acts.edits", "role_parts.edits", "unit.lengths"],
    "conditions.json": ["conditions.whole", "conditions.edits", "conditions.lengths"],
}


def replaced(text, piece, with_):
    assert piece in text, f"no such piece: {piece}"
    return text.replace(piece, with_, 1)


def others(file):
    """The documents beside this file, and the fault of theirs that is the first where nothing else is wrong."""
    if file == "roles.json":
        twice = replaced(FULL["environments.json"], '{"identifier":"hall"}', '{"identifier":"room"}')
        return {**FULL, "environments.json": twice}, ENVIRONMENTS_TWICE
    twice = replaced(FULL["roles.json"], '"identifier":"tutor"', '"identifier":"learner"')
    return {**FULL, "roles.json": twice}, ROLES_TWICE


# How many columns the lines of a table have: by its name, else by its kind.
COLUMNS = {"types.results": 1, "types.changes": 3, "types.run": 3, "types.sets": 4, "values": 3, "left_out.tests": 3,
           "folders": 5, "edits": 3, "lengths": 4}


def rows(table):
    """The columns of each line, of which the last is the fault."""
    columns = COLUMNS.get(table, COLUMNS.get(table.partition(".")[2], 2))
    for number, line in enumerate((ROWS / table).read_text().splitlines(), 1):
        found = line.rsplit(" | ", columns - 1)
        assert len(found) == columns, f"{table}, line {number}"
        yield f"{table} {number}: {line}", found


def changed(file, given):
    """The text of the file in a row of so many columns."""
    if len(given) == 1:
        return given[0]
    if len(given) == 2:
        return replaced(FULL[file], *given)
    member, letter, times = given
    name = member.partition(":")[0]
    return replaced(FULL[file], member, f'{name}:"{letter * int(times)}"')


def encoded(documents):
    return {name: text.encode() for name, text in documents.items() if text != ""}


def folders():
    unit = replaced(FULL["unit.json"], '"identifier":"u"', '"identifier":"r"')
    for name, [*texts, fault] in rows("folders"):
        yield name, fault, encoded({**dict(zip(FILES, texts)), "unit.json": unit})


def activities(count, last):
    """A document of so many activities with an item each, of which the last has this address."""
    title = "What the activity is about, for whom it is meant, in which room it is done, how long it takes and who " \
        "helps where it is too hard"
    made = [{"identifier": f"a{n}", "title": title, "items": [{"identifier": f"i{n}", "href": "h"}]}
            for n in range(count)]
    made[-1]["items"][0]["href"] = last
    return json.dumps({"activities": made}, separators=(",", ":"))


def long_documents():
    """Activities that fill a document of at least so many bytes."""
    documents, first = others("activities.json")
    for count, least in [(5_000, 1_000_000), (20_000, 4_000_000)]:
        wrong = f"activities.json /activities/{count - 1}/items/0/href wrong-shape"
        for name, fault, href in [("no fault", first, "h"), ("a fault in the last", wrong, "")]:
            text = activities(count, href)
            assert least <= len(text) <= 4_194_304
            yield f"{count} activities, {name}", fault, encoded({**documents, "activities.json": text})


def cases():
    for file, tables in TABLES.items():
        documents, first = others(file)
        for table in tables:
            for name, [*given, fault] in rows(table):
                told = first if fault == "-" else f"{file} {fault}"
                yield name, told, encoded({**documents, file: changed(file, given)})
    documents, _ = others("unit.json")
    yield "the unit before its conditions", "unit.json /format missing", encoded(
        {**documents, "unit.json": "{}", "conditions.json": "[]"})
    yield from folders()
    yield from long_documents()
