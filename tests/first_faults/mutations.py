"""Changes of one place in the documents of a folder, by chance: of shapes, of names, of words and of whole files."""
import json

# Words that documents have, and some that they don't.
WORDS = [
    "A", "B", "C", "learner", "staff", "learning", "support", "sequence", "selection", "monitor", "loc", "locpers",
    "locrole", "globpers", "glob", "string", "uri", "boolean", "integer", "datetime", "duration", "real", "file", "allowed",
    "none", "", "9", "x y", "true", "-5", "00", "P", "PT1H", "2023-02-29T00:00:00Z", "2024-01-01T00:00:00Z", "urn:x",
    "exclusively-in-roles"]
JUNK = [None, True, False, 0, 1, -1, 1.5, 2**64, "", "x", [], {}, [[]], ["u"], {"": 0}]
MEMBERS = [
    "identifier", "title", "visible", "kind", "items", "supports", "role", "uri", "initial", "restrictions", "sort", "more",
    "unit-of-learning-href", "number-to-select", "roles", "environments", "complete", "on-completion", "pattern",
    "totalDigits", "minLength", "minInclusive", "change", "notify", "else", "value", "user-choice", "time-limit",
    "property", "integer", "text", "is", "show", "current-datetime", "feedback", "create-new", "min-persons"]
LITERALS = ["text", "integer", "boolean", "datetime", "duration"]
TERMS = {*LITERALS, "property", "sum", "subtract", "multiply", "divide", "current-datetime", "datetime-activity-started",
         "time-unit-of-learning-started"}
NOW = {"current-datetime": True}
EXTRA = [NOW, {"sum": [NOW, {"duration": "PT1H"}]}, {"text": "x"}, {"integer": "x"}, {"datetime-activity-started": "a1"},
         {"divide": [{"integer": "1"}, {"duration": "PT1H"}]}]


def nodes(value, found, inside=None, key=None):
    """All values below this one, each with the object or the list that it stands in and its name or number there."""
    found.append((inside, key, value))
    for name, each in value.items() if isinstance(value, dict) else enumerate(value) if isinstance(value, list) else []:
        nodes(each, found, value, name)
    return found


def texts_of(found, wanted=None):
    return [node for node in found if isinstance(node[2], str) and (wanted is None or node[1] == wanted)]


def change_shape(dice, found):
    inside, key, value = dice.choice(found[1:])
    way = dice.choice(["junk", "remove", "more", "rename", "empty", "twice", "drop"])
    if way == "junk":
        inside[key] = dice.choice(JUNK)
    elif isinstance(inside, dict) and way in ("remove", "rename"):
        del inside[key]
        if way == "rename":
            inside[dice.choice(MEMBERS)] = value
    elif isinstance(value, dict) and way == "more":
        value[dice.choice(MEMBERS)] = dice.choice(JUNK + WORDS)
    elif isinstance(value, list):
        if way == "empty":
            value.clear()
        elif way == "twice" and value:
            value.append(dice.choice(value))
        elif value:
            del value[dice.randrange(len(value))]


def change_text(dice, found):
    """Another text: a word of the documents, or a text that stands elsewhere, so that names get mixed up."""
    texts = texts_of(found)
    inside, key, _ = dice.choice(texts)
    inside[key] = dice.choice([dice.choice(WORDS), dice.choice(texts)[2], dice.choice(texts)[2]])


def change_identifier(dice, found):
    inside, key, _ = dice.choice(texts_of(found, "identifier"))
    inside[key] = dice.choice(texts_of(found, "identifier"))[2]


def change_term(dice, found):
    """Another term in the place of one, or a test within `users-in-role`."""
    terms = [node for node in found if isinstance(node[2], dict) and len(node[2]) == 1 and node[0] is not None]
    if not terms:
        return
    inside, key, value = dice.choice(terms)
    inside[key] = dice.choice([*EXTRA, {"users-in-role": {"role": "r1", "expression": value}}, {"not": value}])


def is_term(value):
    return isinstance(value, dict) and len(value) == 1 and next(iter(value)) in TERMS


def swap_terms(dice, found):
    """Two terms in each other's place: right shapes and names, and often wrong types."""
    terms = [node for node in found if is_term(node[2])]
    if len(terms) > 1:
        (one, at, value), (other, to, term) = dice.sample(terms, 2)
        one[at], other[to] = json.loads(json.dumps([term, value]))


def change_datatype(dice, found):
    """Another datatype or kind of a property, or another word of a literal."""
    inside, key, value = dice.choice(found[1:])
    if is_term(value) and next(iter(value)) in LITERALS:
        inside[key] = {dice.choice(LITERALS): next(iter(value.values()))}
    for owner, name, _ in [dice.choice(texts_of(found, "datatype") or [({}, "", "")])]:
        owner[name] = dice.choice(["string", "uri", "boolean", "integer", "datetime", "duration"])


def change_kind(dice, found):
    """A property of the run becomes one of a person, or the other way round."""
    for owner, name, value in texts_of(found, "kind"):
        if value in ("loc", "locpers"):
            owner[name] = dice.choice(["loc", "locpers"])


def lead_back(dice, found):
    """One more way between environments, or between structures, which may lead back to where it begins."""
    lists = [node for node in found if node[1] in ("environments", "children") and isinstance(node[2], list)
             and any(isinstance(each, str) for each in node[2])]
    names = [value for _, _, value in texts_of(found, "identifier")]
    if lists:
        inside, key, value = dice.choice(lists)
        letter = "e" if key == "environments" else "s"
        value.append(dice.choice([name for name in names if name.startswith(letter)] or names or ["x"]))


def same_uri(dice, found):
    uris = texts_of(found, "uri")
    if uris:
        inside, key, _ = dice.choice(uris)
        inside[key] = dice.choice(uris)[2]


def drop_rule(dice, found):
    """What completes a thing is no longer said."""
    rules = [node for node in found if node[1] == "complete" and isinstance(node[2], dict)]
    if rules:
        inside, key, _ = dice.choice(rules)
        del inside[key]


def lower_level(dice, found):
    for inside, key, _ in texts_of(found, "level"):
        inside[key] = dice.choice("AB")


WAYS = [change_shape, change_shape, change_text, change_identifier, change_term, change_term, swap_terms, swap_terms,
        change_datatype, change_datatype, change_kind, drop_rule, lower_level, lead_back, same_uri]


def mutate(dice, documents):
    """The documents with one change; a file may be cut, or not be there."""
    documents = json.loads(json.dumps(documents))
    if dice.random() < 0.03:
        name = dice.choice(list(documents))
        documents[name] = None
        return {each: document for each, document in documents.items() if document is not None}
    found = nodes(documents, [])
    dice.choice(WAYS)(dice, found)
    return documents


def cut(dice, documents):
    """The bytes of the documents, rarely with one of them cut short."""
    files = {name: json.dumps(document, ensure_ascii=dice.random() < 0.5).encode() for name, document in documents.items()}
    if files and dice.random() < 0.01:
        name = dice.choice(list(files))
        files[name] = files[name][:dice.randrange(len(files[name]))]
    return files
