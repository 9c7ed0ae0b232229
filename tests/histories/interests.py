"""What an author of lines looks for in a unit, so that something follows from the lines."""
from values import value_of

COMPARISONS = ["is", "is-not", "greater-than", "less-than"]
LITERALS = ["text", "integer", "boolean", "datetime", "duration"]


def objects_within(value):
    """All objects that stand anywhere in a document."""
    if isinstance(value, list):
        return [found for each in value for found in objects_within(each)]
    if not isinstance(value, dict):
        return []
    return [value] + [found for each in value.values() for found in objects_within(each)]


def literal_of(term):
    """The text of a term that is a literal, or None."""
    return next((term[word] for word in LITERALS if word in term), None)


def asked_of(found):
    """The property of which an object asks whether it has a value, and the texts of values."""
    if "when-property-value-is-set" in found:
        wanted = found["when-property-value-is-set"]
        return wanted["property"], [wanted["value"]] if "value" in wanted else []
    for terms in [found[word] for word in COMPARISONS if word in found]:
        for term, other in (terms, terms[::-1]):
            if isinstance(term.get("property"), str):
                return term["property"], [] if literal_of(other) is None else [literal_of(other)]
    return None, []


class Interest:
    """The moments that are literals in a unit, and of each property of which a test asks, the texts it asks for.

    The triggers are those of these properties that no change writes, and the others that one writes are kept, too.
    """

    def __init__(self, documents):
        objects = objects_within(list(documents.values()))
        self.moments = [value_of("datetime", each["datetime"]) for each in objects if "datetime" in each]
        self.texts = {}
        for found in objects:
            name, texts = asked_of(found)
            if name is not None:
                self.texts.setdefault(name, []).extend(texts)
        written = [each["property"] for each in objects if "value" in each and "property" in each]
        self.written = sorted(set(written))
        self.triggers = [name for name in self.texts if name not in written]
