"""Types of terms and values of a unit, as docs/FORMATS.md has them."""
from reference_parts import ARITHMETIC, COMPARISONS, only
from reference_values import TYPES, fits, has_order, value_of

MOMENTS = {"current-datetime", "datetime-activity-started", "time-unit-of-learning-started"}
LITERALS = {"text", "integer", "boolean", "datetime", "duration"}
OF_PERSONS = {"locpers", "globpers"}


def leaves_of(parts):
    """How many leaves there are, and how many of them are quantified."""
    leaves = quantified = 0
    for part in parts:
        is_leaf = (part.what == "value-set" or part.what == "term" and only(part.value)[0] not in ARITHMETIC
                   or part.what == "test" and only(part.value)[0] in ("complete", "no-value", "is-member-of-role"))
        leaves += is_leaf
        quantified += is_leaf and part.more.get("quantified", False)
    return leaves, quantified


def result_of(operator, types):
    """The type of an arithmetic whose operands have these types, or None where it is outside the table."""
    first, rest = types[0], set(types[1:])
    if set(types) == {"integer"}:
        return "integer"
    if operator == "sum" and rest == {"duration"} and first in ("datetime", "duration"):
        return first
    if operator == "subtract" and rest == {"duration"} and first in ("datetime", "duration"):
        return first
    if operator == "subtract" and types == ["datetime", "datetime"]:
        return "duration"
    return None


class Types:
    def __init__(self, things):
        self.things = things

    def property(self, name):
        """The property of this name, or None."""
        part = self.things.get(name)
        return part.value if part is not None and part.what == "property" else None

    def of_property(self, name):
        found = self.property(name)
        return None if found is None else TYPES[found["datatype"]]

    def of_term(self, term):
        """The type of a term, or None where nothing is known of it."""
        name, value = only(term)
        if name == "property":
            return self.of_property(value)
        if name in LITERALS:
            return name
        if name in MOMENTS:
            return "datetime"
        types = [self.of_term(each) for each in value]
        return None if None in types else result_of(name, types)

    def is_of_run(self, name):
        found = self.property(name)
        return found is not None and found["kind"] not in OF_PERSONS

    def is_of_person(self, name):
        found = self.property(name)
        return found is not None and found["kind"] in OF_PERSONS

    # ---- the places below a part where a type is wrong, an object before its texts

    def in_property(self, part):
        datatype, restrictions = part.value["datatype"], part.value.get("restrictions", {})
        if "initial" in part.value:
            value = value_of(datatype, part.value["initial"])
            if value is None or not fits(datatype, restrictions, value):
                yield "/initial"
        if TYPES[datatype] != "text" and ("minLength" in restrictions or "maxLength" in restrictions):
            yield "/restrictions"
        for name in ("minInclusive", "maxInclusive"):
            if name in restrictions and (not has_order(datatype) or value_of(datatype, restrictions[name]) is None):
                yield f"/restrictions/{name}"
        for number, each in enumerate(restrictions.get("enumeration", [])):
            if value_of(datatype, each) is None:
                yield f"/restrictions/enumeration/{number}"

    def in_test(self, part):
        name, value = only(part.value)
        if name in COMPARISONS:
            one, other = map(self.of_term, value)
            if None not in (one, other) and (one != other or name.endswith("-than") and one in ("text", "boolean")):
                yield ""

    def in_term(self, part):
        name, value = only(part.value)
        run_place = part.more["target"] is not None and self.is_of_run(part.more["target"])
        if name in ARITHMETIC:
            types = [self.of_term(each) for each in value]
            if None not in types and result_of(name, types) is None:
                yield ""
        elif name in LITERALS and value_of(name, value) is None:
            yield f"/{name}"
        elif name == "property" and run_place and self.is_of_person(value):
            yield "/property"
        elif name == "datetime-activity-started" and run_place:
            yield ""

    def in_change(self, part):
        wanted, given = self.of_property(part.value["property"]), self.of_term(part.value["value"])
        if None not in (wanted, given) and wanted != given:
            yield ""

    def in_value_set(self, part):
        name = part.value["property"]
        if part.more["of"] != "activity" and self.is_of_person(name):
            yield "/property"
        found = self.property(name)
        if found is not None and "value" in part.value and value_of(found["datatype"], part.value["value"]) is None:
            yield "/value"


def type_faults(parts, things):
    types = Types(things)
    looks = {"property": types.in_property, "test": types.in_test, "term": types.in_term, "change": types.in_change,
             "value-set": types.in_value_set}
    for part in parts:
        if part.what in looks:
            for below in looks[part.what](part):
                yield part.file, part.at + below, "bad-type"
