"""What docs/FORMATS.md asks of a folder beside the units of those before it; the documents are free of faults of shape."""
from reference_values import value_of


def properties_of(documents):
    return documents.get("properties.json", {}).get("properties", [])


def contents_of(each):
    """What a property says of its uri: whose the values are, their datatype, the initial one, and restrictions, as values."""
    given = each.get("restrictions", {})

    def value(text):
        return None if text is None else value_of(each["datatype"], text)

    return [each["kind"], each["datatype"], value(each.get("initial")), value(given.get("minInclusive")),
            value(given.get("maxInclusive")), given.get("minLength"), given.get("maxLength"),
            [value(text) for text in given.get("enumeration", [])]]


def faults_beside(before, documents):
    """The faults of a folder beside the units before it, in their order."""
    if any(each["unit.json"]["identifier"] == documents["unit.json"]["identifier"] for each in before):
        yield "unit.json /identifier repeated-unit"
    declared = {}
    for each in before:
        for shared in properties_of(each):
            if "uri" in shared:
                declared.setdefault(shared["uri"], contents_of(shared))
    for number, each in enumerate(properties_of(documents)):
        if "uri" in each and declared.get(each["uri"], contents_of(each)) != contents_of(each):
            yield f"properties.json /properties/{number} global-differs"
