"""Makes the documents of units. A member's name is written with `_` for `-`; the value None leaves it out."""


def members(given):
    """An object of these members, those that are None left out."""
    return {name.replace("_", "-"): value for name, value in given.items() if value is not None}


def named(identifier, **more):
    """An object with an identifier: an environment, a nested role, a learning object."""
    return members({"identifier": identifier, **more})


def role(identifier, **more):
    return members({"identifier": identifier, "kind": "learner", **more})


def item(identifier, **more):
    return members({"identifier": identifier, "href": "x.html", **more})


def items(prefix, count):
    return [item(f"{prefix}{n}") for n in range(count)]


def service(identifier, kind="index-search", **more):
    return members({"identifier": identifier, "kind": kind, **more})


def services(prefix, count):
    return [service(f"{prefix}{n}") for n in range(count)]


def activity(identifier="read", **more):
    """A learning activity that is completed by choice."""
    return members({"identifier": identifier, "complete": {"user-choice": True}, **more})


def activities(prefix, count):
    return [activity(f"{prefix}{n}") for n in range(count)]


def structure(identifier, *children, **more):
    return members({"identifier": identifier, "kind": "sequence", "children": list(children), **more})


def part(identifier="rp", **more):
    return members({"identifier": identifier, "role": "learner", "ref": "read", **more})


def parts(prefix, count, **more):
    return [part(f"{prefix}{n}", **more) for n in range(count)]


def act(identifier="a", role_parts=None, **more):
    return members({"identifier": identifier, "role-parts": role_parts or [part()], **more})


def play(identifier="p", acts=None, **more):
    return members({"identifier": identifier, "acts": acts or [act()], **more})


def follows(*feedback, **more):
    """What follows a completion: feedback and, by name, changes and notices."""
    return members({"feedback": list(feedback), **more})


def prop(identifier, datatype="integer", kind="loc", **more):
    """A property; one of a role or for all has what its kind needs."""
    needs = {"locrole": {"role": "learner"}, "glob": {"uri": f"urn:{identifier}"}, "globpers": {"uri": f"urn:{identifier}"}}
    return members({"identifier": identifier, "kind": kind, "datatype": datatype, **needs.get(kind, {}), **more})


def change(identifier, term):
    return {"property": identifier, "value": term}


def notice(*roles, **more):
    return {"roles": list(roles), **more}


def condition(test, *then, **more):
    """A condition that, where it is not said otherwise, shows the activity."""
    return {"if": test, "then": list(then) or [{"show": ["read"]}], **more}


def folder(roles=None, environments=None, activities=None, structures=None, plays=None, method=None, files=None,
           properties=None, conditions=None, **unit):
    """The documents of a folder by the names of their files: the least unit with what is given in its place.

    `method` has more members of the method, `files` whole documents (None: no such file), and other words
    are members of the unit.
    """
    documents = {"roles.json": {"roles": roles or [role("learner")]}}
    if properties is not None:
        documents["properties.json"] = {"properties": properties}
    if environments is not None:
        documents["environments.json"] = {"environments": environments}
    documents["activities.json"] = {"activities": activities or [activity()]}
    if structures is not None:
        documents["activities.json"]["structures"] = structures
    method = members({"plays": plays or [play()], **(method or {})})
    documents["unit.json"] = members({"format": 1, "identifier": "u", "level": "A", **unit, "method": method})
    if conditions is not None:
        documents["conditions.json"] = {"conditions": conditions}
    documents.update(files or {})
    return {name: document for name, document in documents.items() if document is not None}


def one_act(role_parts=None, **more):
    """The plays of a unit with one act."""
    return [play(acts=[act(role_parts=role_parts, **more)])]


def graph(make, prefix, ways):
    """Environments or structures by the numbers to which each leads."""
    return [make(f"{prefix}{n}", [f"{prefix}{to}" for to in leads]) for n, leads in enumerate(ways)]


def environment_of(identifier, references):
    return named(identifier, environments=references)


def structure_of(identifier, references):
    """A structure with these children and, before and behind them, an activity."""
    return structure(identifier, *references, "read")


def environments_of(ways):
    return graph(environment_of, "e", ways)


def structures_of(ways):
    return graph(structure_of, "s", ways)


def sized(identifier, size):
    """Environments whose first one has this identifier and expands to this size.

    Each of the others leads to all behind it, so that the last one has the size 1, the one before it 2, then
    4, 8 and so on. The first one leads to those whose sizes add up to the rest.
    """
    bits = (size - 1).bit_length()
    powers = [f"{identifier}.{n}" for n in range(bits)]
    chosen = [powers[n] for n in range(bits) if (size - 1) >> n & 1]
    doubled = [named(powers[n], environments=powers[:n]) for n in reversed(range(bits))]
    return [named(identifier, environments=chosen)] + doubled
