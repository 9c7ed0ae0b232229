"""Small units, and the line of one document that was worked out by hand from docs/FORMATS.md, "Canonical documents"."""

import json
from collections.abc import Iterator
from typing import Any

import canonical  # the folder of the makers of units is found by it
from units import activity, change, condition, follows, folder, item, named, one_act, part, play, prop, role, service

ACTIVITIES = '{"activities":[{"complete":{"user-choice":true},"identifier":"read"}]}'
ROLES = '{"roles":[{"identifier":"learner","kind":"learner"}]}'
ACT = '{"identifier":"a","role-parts":[{"identifier":"rp","ref":"read","role":"learner"}]}'
PLAYS = f'"plays":[{{"acts":[{ACT}],"identifier":"p"}}]'
# The name, the folder, the document that is looked at, and its line; None where it is not printed.
Row = tuple[str, dict[str, Any], str, str | None]


def unit_line(members: str = "", level: str = "A", method: str = "") -> str:
    """The line of the least unit with more members behind its method, and more in front of its plays."""
    return f'{{"format":1,"identifier":"u","level":"{level}","method":{{{method}{PLAYS}}}{members}}}'


def documents() -> Iterator[Row]:
    """Which documents are there, and what a text is read as."""
    yield "the least unit", folder(), "unit.json", unit_line()
    for name in "properties", "environments", "conditions":
        yield f"no {name}", folder(), f"{name}.json", None
        yield f"{name} without a list", folder(files={f"{name}.json": {}}), f"{name}.json", None
        yield f"an empty list of {name}", folder(files={f"{name}.json": {name: []}}), f"{name}.json", None
    room = {
        "environments.json": {"environments": [named("e")]},
        "activities.json": {"activities": [], "structures": []},
    }
    shown = folder(plays=one_act([part(ref="e")]), files=room)
    yield "no activities", shown, "activities.json", "{}"
    yield "an environment alone", shown, "environments.json", '{"environments":[{"identifier":"e"}]}'
    twice = b'{"roles": 7, "roles": [{"identifier": "x", "kind": "staff", "identifier": "learner", "kind": "learner"}]}'
    yield "members twice", folder(files={"roles.json": twice}), "roles.json", ROLES
    spaced = json.dumps(folder()["roles.json"], indent=4).replace("\n", "\r\n\t").encode()
    yield "white space", folder(files={"roles.json": spaced}), "roles.json", ROLES
    characters = rb"\u00E9\/\u0008\f\u000A\r\t\u001F\u007f\ud83d\uDE00"
    begin = rb'{"\u0072oles": [{"identifier": "\u006cearner", "kind": "l\u0065arner", "title": "'
    escapes = begin + characters + b'"}]}'
    title = "é/\\b\\f\\n\\r\\t\\u001f\x7f😀"
    line = f'{{"roles":[{{"identifier":"learner","kind":"learner","title":"{title}"}}]}}'
    yield "escapes", folder(files={"roles.json": escapes}), "roles.json", line


def defaults() -> Iterator[Row]:
    """What has its default, and what has none."""
    given = [role("learner", create_new="not-allowed", match_persons="not-exclusively", min_persons=0, roles=[])]
    yield "a role's defaults", folder(roles=given), "roles.json", ROLES
    inner = [role("learner", roles=[named("x", min_persons=0, roles=[named("y", max_persons=0)])])]
    within = '"roles":[{"identifier":"x","roles":[{"identifier":"y","max-persons":0}]}]'
    line = f'{{"roles":[{{"identifier":"learner","kind":"learner",{within}}}]}}'
    yield "roles within roles", folder(roles=inner), "roles.json", line
    yield "the kind of an activity", folder(
        activities=[activity(kind="learning", visible=True)]
    ), "activities.json", ACTIVITIES
    line = '{"activities":[{"complete":{"user-choice":true},"identifier":"read","kind":"support","visible":false}]}'
    support = [activity(kind="support", supports=[], visible=False)]
    yield "a support activity", folder(activities=support), "activities.json", line
    yield "the turns by default", folder(turns=64), "unit.json", unit_line()
    yield "other turns", folder(turns=63), "unit.json", unit_line(',"turns":63')
    yield "metadata of no bytes", folder(
        metadata=""
    ), "unit.json", f'{{"format":1,"identifier":"u","level":"A","metadata":"","method":{{{PLAYS}}}}}'
    yield "a visible play", folder(plays=[play(visible=True)]), "unit.json", unit_line()
    rooms = [
        named(
            "e",
            visible=True,
            learning_objects=[named("o", visible=True, items=[])],
            services=[service("v", visible=True)],
        )
    ]
    within = '"learning-objects":[{"identifier":"o"}],"services":[{"identifier":"v","kind":"index-search"}]'
    line = f'{{"environments":[{{"identifier":"e",{within}}}]}}'
    yield "visible things", folder(environments=rooms), "environments.json", line
    things = [item("i", visible=True), item("j", visible=False)]
    line = unit_line(
        ',"prerequisites":[{"href":"x.html","identifier":"i"},{"href":"x.html","identifier":"j","visible":false}]'
    )
    yield "visible items", folder(prerequisites=things), "unit.json", line


def empties() -> Iterator[Row]:
    """Empty lists are left out, and empty objects stay."""
    lists = [activity(learning_objectives=[], prerequisites=[], environments=[], items=[])]
    yield "lists of the unit", folder(learning_objectives=[], prerequisites=[]), "unit.json", unit_line()
    yield "lists of an activity", folder(activities=lists, structures=[]), "activities.json", ACTIVITIES
    for members in {}, {"feedback": []}, {"change": [], "notify": []}:
        ended = activity(on_completion=members)
        line = '{"activities":[{"complete":{"user-choice":true},"identifier":"read","on-completion":{}}]}'
        yield f"what follows, with {members}", folder(activities=[ended]), "activities.json", line
    method = {"complete": {"when-play-completed": ["p"]}, "on_completion": {}}
    line = unit_line(method='"complete":{"when-play-completed":["p"]},"on-completion":{},')
    yield "nothing follows the unit", folder(method=method), "unit.json", line
    timed = {"complete": {"time-limit": "PT90M"}, "on_completion": {"feedback": [], "change": [], "notify": []}}
    line = unit_line(method='"complete":{"time-limit":"PT1H30M"},"on-completion":{},')
    yield "nothing follows a unit with a time limit", folder(method=timed), "unit.json", line
    line = '{"properties":[{"datatype":"integer","identifier":"x","kind":"loc","restrictions":{}}]}'
    yield "no restrictions", folder(level="B", properties=[prop("x", restrictions={})]), "properties.json", line
    shown = condition({"complete": "u"}, **{"else": []})
    line = '{"conditions":[{"if":{"complete":"u"},"then":[{"show":["read"]}]}]}'
    yield "no other actions", folder(level="B", conditions=[shown]), "conditions.json", line


# A datatype, a text, and how its value is printed.
TEXTS = [
    ("integer", "007", "7"),
    ("integer", "-0", "0"),
    ("integer", "-007", "-7"),
    ("integer", "0000000000000000000", "0"),
    ("integer", "-9223372036854775808", "-9223372036854775808"),
    ("integer", "9223372036854775807", "9223372036854775807"),
    ("duration", "PT90M", "PT1H30M"),
    ("duration", "P0D", "PT0S"),
    ("duration", "P0DT00H0M000S", "PT0S"),
    ("duration", "PT86400S", "P1D"),
    ("duration", "PT23H59M60S", "P1D"),
    ("duration", "P1DT1S", "P1DT1S"),
    ("duration", "P000000000001DT0H60M", "P1DT1H"),
    ("duration", "PT3661S", "PT1H1M1S"),
    ("duration", "PT999999999999S", "P11574074DT1H46M39S"),
    ("string", "007", "007"),
    ("text", "PT90M", "PT90M"),
    ("uri", "-0", "-0"),
    ("boolean", "false", "false"),
    ("datetime", "0001-01-01T00:00:00Z", "0001-01-01T00:00:00Z"),
]


def literal_line(datatype: str, text: str) -> str:
    """The line of a condition that compares a literal with itself."""
    literal = f'{{"{datatype}":"{text}"}}'
    return f'{{"conditions":[{{"if":{{"is":[{literal},{literal}]}},"then":[{{"show":["read"]}}]}}]}}'


def values() -> Iterator[Row]:
    """Each text at each place where it may stand."""
    for datatype, text, value in TEXTS:
        name = f"{datatype} {text}"
        begin, end = f'{{"properties":[{{"datatype":"{datatype}","identifier":"x",', "}]}"
        line = f'{begin}"initial":"{value}","kind":"loc"{end}'
        yield f"an initial value, {name}", folder(
            level="B", properties=[prop("x", datatype, initial=text)]
        ), "properties.json", line
        listed = folder(level="B", properties=[prop("x", datatype, restrictions={"enumeration": [text, text]})])
        line = f'{begin}"kind":"loc","restrictions":{{"enumeration":["{value}","{value}"]}}{end}'
        yield f"an enumeration, {name}", listed, "properties.json", line
        if datatype in ("integer", "datetime", "duration"):
            bounds = {"maxInclusive": text, "minInclusive": text}
            line = f'{begin}"kind":"loc","restrictions":{{"maxInclusive":"{value}","minInclusive":"{value}"}}{end}'
            yield f"bounds, {name}", folder(
                level="B", properties=[prop("x", datatype, restrictions=bounds)]
            ), "properties.json", line
        if datatype not in ("string", "uri"):
            same = condition({"is": [{datatype: text}, {datatype: text}]})
            yield f"a literal, {name}", folder(level="B", conditions=[same]), "conditions.json", literal_line(
                datatype, value
            )
        waiting = {"when-property-value-is-set": {"property": "x", "value": text}}
        complete = f'"complete":{{"when-property-value-is-set":{{"property":"x","value":"{value}"}}}},'
        line = f'{{"activities":[{{{complete}"identifier":"read"}}]}}'
        waits = folder(level="B", properties=[prop("x", datatype)], activities=[activity(complete=waiting)])
        yield f"a value that is waited for, {name}", waits, "activities.json", line
        line = unit_line("", "B", complete)
        waits = folder(level="B", properties=[prop("x", datatype)], method={"complete": waiting})
        yield f"a value that the unit waits for, {name}", waits, "unit.json", line
        if datatype == "duration":
            line = f'{{"activities":[{{"complete":{{"time-limit":"{value}"}},"identifier":"read"}}]}}'
            yield f"a time limit, {name}", folder(
                activities=[activity(complete={"time-limit": text})]
            ), "activities.json", line


def orders() -> Iterator[Row]:
    """Lists stay in the order in which they were given."""
    roles = [role("z"), role("learner", roles=[named("y"), named("b")]), role("a1")]
    line = (
        '{"roles":[{"identifier":"z","kind":"learner"},{"identifier":"learner","kind":"learner",'
        '"roles":[{"identifier":"y"},{"identifier":"b"}]},{"identifier":"a1","kind":"learner"}]}'
    )
    yield "roles in their order", folder(roles=roles), "roles.json", line
    unlike = prop("x", restrictions={"enumeration": ["3", "01", "2", "1"]})
    within = '"kind":"loc","restrictions":{"enumeration":["3","1","2","1"]}'
    line = f'{{"properties":[{{"datatype":"integer","identifier":"x",{within}}}]}}'
    yield "an enumeration in its order", folder(level="B", properties=[unlike]), "properties.json", line
    ended = activity(on_completion=follows(change=[change("x", {"integer": "2"}), change("x", {"integer": "01"})]))
    line = (
        '{"activities":[{"complete":{"user-choice":true},"identifier":"read","on-completion":{"change":'
        '[{"property":"x","value":{"integer":"2"}},{"property":"x","value":{"integer":"1"}}]}}]}'
    )
    yield "changes in their order", folder(
        level="B", properties=[prop("x")], activities=[ended]
    ), "activities.json", line


def rows() -> Iterator[Row]:
    """All rows."""
    for table in documents, defaults, empties, values, orders:
        yield from table()
