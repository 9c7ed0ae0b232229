"""Faults of shape in objects that stand in several places: the tables in rows/, one case a line.

    NAME.parts    VALUE | FAULT    an object of this name, and the place below it and the code of its fault

Each value stands in turn in each host: a file, the place of the object in it, the piece of the full document
(rows/NAME.json) that it takes the place of, and what stands around it there. The place `.` is the object itself, and a
dash is no fault of shape, as in shapes.py.
"""
from shapes import FULL, encoded, others, replaced, rows

CONDITIONS, ACTIVITIES, UNIT, PROPERTIES = "conditions.json", "activities.json", "unit.json", "properties.json"
ACT = "/method/plays/2/acts/0"
FEEDBACK = '{"feedback":[{"identifier":"%s","href":"%s.html"}]}'

BOTH = '{"and":[{"is":[{"property":"score"},{"integer":"1"}]},{"not":{"no-value":"name"}}]}'

HOSTS = {
    "terms": [
        (CONDITIONS, "/conditions/0/if/and/0/is/0", '{"property":"score"}', "%s"),
        (CONDITIONS, "/conditions/0/if/and/0/is/1", '{"integer":"1"}', "%s"),
        (CONDITIONS, "/conditions/0/then/1/change/value", '{"sum":[{"property":"score"},{"integer":"2"}]}', "%s"),
        (CONDITIONS, "/conditions/0/then/1/change/value/sum/1", '{"integer":"2"}', "%s"),
        (ACTIVITIES, "/activities/2/on-completion/change/0/value", '{"integer":"7"}', "%s"),
        (UNIT, f"{ACT}/on-completion/change/0/value", '{"boolean":"true"}', "%s"),
        (UNIT, "/method/plays/2/on-completion/change/0/value/subtract/0", '{"boolean":"false"}',
         '{"subtract":[%s,{"integer":"1"}]}'),
    ],
    "tests": [
        (CONDITIONS, "/conditions/0/if", BOTH, "%s"),
        (CONDITIONS, "/conditions/0/if/and/0", '{"is":[{"property":"score"},{"integer":"1"}]}', "%s"),
        (CONDITIONS, "/conditions/0/if/and/1/not", '{"no-value":"name"}', "%s"),
        (CONDITIONS, "/conditions/1/if/users-in-role/expression", '{"complete":"read"}', "%s"),
        (CONDITIONS, "/conditions/1/if/users-in-role/expression/or/1", '{"complete":"read"}',
         '{"or":[{"complete":"read"},%s]}'),
        (UNIT, f"{ACT}/complete/when-condition-true/expression", '{"complete":"help"}', "%s"),
    ],
    "each_member": [
        (CONDITIONS, "/conditions/1/if/users-in-role", '{"role":"tutor","expression":{"complete":"read"}}', "%s"),
        (UNIT, f"{ACT}/complete/when-condition-true", '{"role":"learner","expression":{"complete":"help"}}', "%s"),
    ],
    "value_set": [
        (ACTIVITIES, "/activities/2/complete/when-property-value-is-set", '{"property":"score","value":"50"}', "%s"),
        (UNIT, "/method/plays/2/acts/1/complete/when-property-value-is-set", '{"property":"over","value":"true"}', "%s"),
        (UNIT, "/method/plays/2/complete/when-property-value-is-set", '{"property":"over","value":"false"}', "%s"),
        (UNIT, "/method/complete/when-property-value-is-set", '{"when-play-completed":["p","q"]}',
         '{"when-property-value-is-set":%s}'),
    ],
    "changes": [
        (CONDITIONS, "/conditions/0/then/1/change",
         '{"property":"score","value":{"sum":[{"property":"score"},{"integer":"2"}]}}', "%s"),
        (CONDITIONS, "/conditions/0/else/1/change", '{"hide":["read","help"]}', '{"hide":["read"]},{"change":%s}'),
        (ACTIVITIES, "/activities/2/on-completion/change/0", '{"property":"score","value":{"integer":"7"}}', "%s"),
        (UNIT, f"{ACT}/on-completion/change/0", '{"property":"over","value":{"boolean":"true"}}', "%s"),
        (UNIT, "/method/plays/2/on-completion/change/1", '{"property":"over","value":{"boolean":"false"}}',
         '{"property":"over","value":{"boolean":"false"}},%s'),
        (UNIT, "/method/on-completion/change/0", FEEDBACK % ("f3", "f"), '{"change":[%s]}'),
    ],
    "notices": [
        (CONDITIONS, "/conditions/0/then/2/notify", '{"roles":["learner"],"subject":"Well","activity":"read"}', "%s"),
        (ACTIVITIES, "/activities/2/on-completion/notify/0",
         '{"roles":["learner","tutor"],"subject":"Counted","activity":"read"}', "%s"),
        (UNIT, f"{ACT}/on-completion/notify/0", '{"roles":["tutor"],"subject":"Over","activity":"mark"}', "%s"),
        (UNIT, "/method/plays/0/on-completion/notify/0", FEEDBACK % ("f2", "f"), '{"notify":[%s]}'),
        (UNIT, "/method/on-completion/notify/1", FEEDBACK % ("f3", "f"), '{"notify":[{"roles":["tutor"]},%s]}'),
    ],
    "actions": [
        (CONDITIONS, "/conditions/0/then/0", '{"show":["read"]}', "%s"),
        (CONDITIONS, "/conditions/0/else/0", '{"hide":["read","help"]}', "%s"),
        (CONDITIONS, "/conditions/1/then/1", '{"hide":["some"]}', '{"hide":["some"]},%s'),
    ],
    "conditions": [
        (CONDITIONS, "/conditions/1",
         '{"if":{"users-in-role":{"role":"tutor","expression":{"complete":"read"}}},"then":[{"hide":["some"]}]}', "%s"),
    ],
    "follows": [
        (ACTIVITIES, "/activities/0/on-completion", FEEDBACK % ("well", "well"), "%s"),
        (UNIT, "/method/plays/0/acts/0/on-completion", FEEDBACK % ("f1", "f"), "%s"),
        (UNIT, "/method/plays/0/on-completion", FEEDBACK % ("f2", "f"), "%s"),
        (UNIT, "/method/on-completion", FEEDBACK % ("f3", "f"), "%s"),
    ],
    "property": [
        (PROPERTIES, "/properties/3", '{"identifier":"over","kind":"loc","datatype":"boolean"}', "%s"),
    ],
    "restrictions": [
        (PROPERTIES, "/properties/0/restrictions",
         '{"minInclusive":"0","maxInclusive":"100","enumeration":["0","50","100"]}', "%s"),
        (PROPERTIES, "/properties/1/restrictions", '{"minLength":1,"maxLength":9}', "%s"),
    ],
}


def told(file, place, fault, first):
    """The fault of the folder, where an object at the place has this fault, or the first one of another document."""
    if fault == "-":
        return first
    below, code = fault.split()
    return f"{file} {place}{'' if below == '.' else below} {code}"


def cases():
    for table, hosts in HOSTS.items():
        for name, [value, fault] in rows(f"{table}.parts"):
            for file, place, piece, around in hosts:
                documents, first = others(file)
                text = replaced(FULL[file], piece, around.replace("%s", value))
                yield f"{name} in {file} {place}", told(file, place, fault, first), encoded({**documents, file: text})
