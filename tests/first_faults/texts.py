"""What is JSON and what is not, and the texts of durations."""
from units import activity, folder

# Documents that can be read, none of which is an object.
JSON = [b" \t\r\n1 ", rb'"\u0000"', "\"é\"".encode(), b"[]", b"[" * 127 + b"]" * 127]

# Documents that cannot be read.
NO_JSON = [
    b"", b" ", b"1 2", b"nul", b'"\xff"', rb'"\ud800"', b"\xef\xbb\xbf1", b"[1,]", b"01", b"1e400",
    b"[" * 128 + b"]" * 128,
]

# The greatest size of a document.
LIMIT = 4_194_304

# Texts of durations.
DURATIONS = [
    "PT90M", "P0D", "P1DT1H", "PT999999999999S", "P1DT2H3M4S", "PT2H3M4S", "P1DT3M4S", "P1DT2H4S", "P1DT2H3M",
    "PT3M4S", "P1DT4S", "P1D", "PT2H", "PT3M", "PT4S", "P1DT2H", "P1DT3M", "PT2H4S", "PT2H3M", "P0DT0H0M0S",
    "PT000000000001S", "PT25H61M61S", "P11574074DT1H46M39S", "PT86400S", "PT3600S", "PT60S", "P000000000001D",
]

# Texts that are no duration.
NO_DURATIONS = [
    "P", "P1DT", "P11574074DT1H46M40S", "PT", "PT1000000000000S", "PT0000000000000S", "P0000000000001D", "PTS",
    "PD", "PT1", "P1", "P1H", "PT1D", "PT1H1H", "PT1M1H", "PT1S1M", "T1H", "1D", "-P1D", "P-1D", "P+1D", " P1D",
    "P1D ", "P 1D", "p1D", "P1d", "PT1,5S", "PT1.5S", "P1Y", "P1W", "P1M", "PT٣S", "P1DT1H1H", "",
    "PT999999999999H",
]


def documents():
    for number, document in enumerate(JSON):
        yield f"JSON {number}", "roles.json . wrong-shape", folder(files={"roles.json": document})
    for number, document in enumerate(NO_JSON):
        yield f"no JSON {number}", "roles.json . not-json", folder(files={"roles.json": document})


def repeated(members):
    """A folder whose roles.json has an object with these members."""
    role = b'{"identifier":"learner",' + members + b"}"
    return folder(files={"roles.json": b'{"roles":[' + role + b"]}"})


def last_members():
    """The last of two members of one name counts."""
    yield "the last of two members is right", None, repeated(b'"kind":7,"kind":"learner"')
    yield "the last of two members is wrong", "roles.json /roles/0/kind wrong-shape", repeated(
        b'"kind":"learner","kind":7')


def large():
    """A document of the greatest size whose last element alone is wrong."""
    begin, end = b'{"roles":[', b'{"identifier":"r","kind":7}]}'
    each = b'{"identifier":"r","kind":"learner","title":"' + b"x" * 200 + b'"},'
    count = (LIMIT - len(begin) - len(end)) // len(each)
    document = (begin + count * each + end).ljust(LIMIT)
    yield "a large document", f"roles.json /roles/{count}/kind wrong-shape", folder(files={"roles.json": document})


def denied(depth):
    """A test that is denied again and again, so that objects and lists stand so deep in each other in all."""
    # The document, its list, the condition and the innermost test are four.
    count = depth - 4
    return '{"not":' * count + '{"complete":"read"}' + "}" * count


def summed(depth):
    """A sum in a sum, and so on, so that objects and lists stand so deep in each other in all."""
    # The document, its list, the condition, the test, its list and the innermost term are six.
    count = (depth - 6) // 2
    return '{"sum":[{"integer":"1"},' * count + '{"integer":"1"}' + "]}" * count


def deep():
    """Tests and terms as deep as a document can be, and deeper."""
    for depth in (100, 127, 128, 200):
        fault = None if depth <= 127 else "conditions.json . not-json"
        shown = '{"conditions":[{"if":%s,"then":[{"show":["read"]}]}]}'
        yield f"a test {depth} deep", fault, folder(level="B", files={
            "conditions.json": (shown % denied(depth)).encode()})
    for depth in (100, 126, 128):
        fault = None if depth <= 127 else "conditions.json . not-json"
        test = '{"is":[%s,{"integer":"1"}]}' % summed(depth)
        yield f"a term {depth} deep", fault, folder(level="B", files={
            "conditions.json": (shown % test).encode()})
    text = '{"is":[%s,{"integer":"1"}]}' % summed(126).replace('{"integer":"1"}]', '{"text":"x"}]', 1)
    place = "/conditions/0/if/is/0" + "/sum/1" * ((126 - 6) // 2 - 1)
    yield "a wrong type deep within", f"conditions.json {place} bad-type", folder(level="B", files={
        "conditions.json": (shown % text).encode()})


def durations():
    """Time limits of an activity."""
    for number, text in enumerate(DURATIONS):
        yield f"a duration {number}", None, folder(activities=[activity(complete={"time-limit": text})])
    for number, text in enumerate(NO_DURATIONS):
        yield f"no duration {number}", "activities.json /activities/0/complete/time-limit wrong-shape", folder(
            activities=[activity(complete={"time-limit": text})])


def cases():
    yield from documents()
    yield from last_members()
    yield from large()
    yield from deep()
    yield from durations()
