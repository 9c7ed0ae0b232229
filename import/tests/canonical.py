"""One form for all documents that say the same of a unit: what round trips are compared by.

Members at their defaults and empty lists are left out, and value texts are printed as the engine prints them
(docs/FORMATS.md). Left out are the unit's metadata, which an import writes itself, and turns, of which a package says
nothing.
"""

from ldimport import values

DEFAULTS = {
    "visible": True,
    "create-new": "not-allowed",
    "match-persons": "not-exclusively",
    "min-persons": 0,
    "turns": 64,
}
LEFT_OUT = ("metadata", "turns")
LITERALS = ("text", "integer", "boolean", "datetime", "duration")


class Canonical:
    def __init__(self, folder):
        self.datatypes = {each["identifier"]: each["datatype"] for each in folder.properties}

    def value(self, datatype, text):
        return values.value(datatype, text)[0]

    def form(self, value):
        if isinstance(value, list):
            return [self.form(each) for each in value]
        if not isinstance(value, dict):
            return value
        if "datatype" in value:
            return self.property(value)
        if "property" in value and "value" in value and isinstance(value["value"], str):
            text = self.value(self.datatypes[value["property"]], value["value"])
            return {"property": value["property"], "value": text}
        found = {name: self.member(name, inner) for name, inner in value.items() if name not in LEFT_OUT}
        if found.get("kind") == "learning":
            del found["kind"]
        return {name: each for name, each in found.items() if each not in ([], {}) and each != DEFAULTS.get(name)}

    def member(self, name, value):
        if name in LITERALS and isinstance(value, str):
            return self.value(name, value)
        return values.duration(value)[0] if name == "time-limit" else self.form(value)

    def property(self, property):
        found, datatype = dict(property), property["datatype"]
        if "initial" in found:
            found["initial"] = self.value(datatype, found["initial"])
        restrictions = dict(found.pop("restrictions", {}))
        for word in ("minInclusive", "maxInclusive"):
            if word in restrictions:
                restrictions[word] = self.value(datatype, restrictions[word])
        if "enumeration" in restrictions:
            texts = [self.value(datatype, text) for text in restrictions["enumeration"]]
            restrictions["enumeration"] = list(dict.fromkeys(texts))
        return {**found, **({"restrictions": restrictions} if restrictions else {})}


def canonical(folder):
    """The documents of a course folder in that form."""
    form = Canonical(folder).form
    return {
        "roles": form(folder.roles),
        "properties": form(folder.properties),
        "environments": form(folder.environments),
        "activities": form(folder.activities),
        "structures": form(folder.structures),
        "unit": form(folder.unit),
        "conditions": form(folder.conditions),
    }
