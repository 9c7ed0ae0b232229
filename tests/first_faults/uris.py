"""Uris of properties differ."""
from units import folder, prop

SECOND = "properties.json /properties/1 repeated-uri"


def uris():
    yield "two global properties", SECOND, [prop("n", kind="glob", uri="urn:x"), prop("m", kind="glob", uri="urn:x")]
    yield "one for all and one for each person", SECOND, [
        prop("n", kind="glob", uri="urn:x"), prop("m", "text", "globpers", uri="urn:x")]
    yield "one for each person and one for all", SECOND, [
        prop("n", kind="globpers", uri="urn:x"), prop("m", kind="glob", uri="urn:x")]
    yield "three", SECOND, [prop(name, kind="glob", uri="urn:x") for name in "nmo"]
    yield "behind others", "properties.json /properties/3 repeated-uri", [
        prop("first"), prop("n", kind="glob", uri="urn:x"), prop("m", kind="glob", uri="urn:y"),
        prop("o", kind="glob", uri="urn:x")]
    yield "two pairs", "properties.json /properties/2 repeated-uri", [
        prop("first", kind="glob", uri="urn:x"), prop("n", kind="glob", uri="urn:y"),
        prop("m", kind="glob", uri="urn:y"), prop("o", kind="glob", uri="urn:x")]
    yield "of two levels", SECOND, [prop("n", kind="glob", uri="u"), prop("m", kind="glob", uri="u")]
    yield "differing in their case", None, [prop("n", kind="glob", uri="urn:x"), prop("m", kind="glob", uri="urn:X")]
    yield "one that begins with the other", None, [
        prop("n", kind="glob", uri="urn:x"), prop("m", kind="glob", uri="urn:x/")]
    yield "as an identifier", None, [prop("n", kind="glob", uri="n"), prop("m", kind="glob", uri="u")]


def cases():
    for name, fault, properties in uris():
        yield name, fault, folder(properties=properties, level="B")
    properties = [prop("n", kind="glob", uri="urn:x"), prop("m", kind="glob", uri="urn:x")]
    yield "at level A", SECOND, folder(properties=properties)
