"""The parts of a unit, by its documents, after docs/FORMATS.md and docs/MEANING.md."""

# How many turns a settling has where the unit does not say.
TURNS = 64
# The members that are lists of things with visibility, wherever they stand.
LISTS_OF_ITEMS = ["learning-objectives", "prerequisites", "items", "feedback"]


def nested(roles, outer=None):
    """The roles in document order, each before those within it, and each with the one right around it or None."""
    pairs = []
    for role in roles:
        pairs.append((role, outer))
        pairs.extend(nested(role.get("roles", []), role))
    return pairs


def by_identifier(things):
    """The things by their identifiers."""
    return {thing["identifier"]: thing for thing in things}


def items_within(value):
    """All items that stand anywhere in a document, in its lists of items."""
    if isinstance(value, list):
        return [item for each in value for item in items_within(each)]
    if not isinstance(value, dict):
        return []
    items = []
    for name, each in value.items():
        items.extend(each if name in LISTS_OF_ITEMS else items_within(each))
    return items


def feedback_of(thing):
    """The items that are shown when the thing is completed."""
    return thing.get("on-completion", {}).get("feedback", [])


class Unit:
    """A unit: lists of its parts in document order, and what its identifiers name."""

    def __init__(self, documents):
        self.document = documents["unit.json"]
        self.identifier = self.document["identifier"]
        self.turns = self.document.get("turns", TURNS)
        self.method = self.document["method"]
        self.plays = self.method["plays"]
        self.acts = [act for play in self.plays for act in play["acts"]]
        self.parts = [part for act in self.acts for part in act["role-parts"]]
        self.activities = documents["activities.json"].get("activities", [])
        self.structures = documents["activities.json"].get("structures", [])
        self.environments = documents.get("environments.json", {}).get("environments", [])
        self.properties = documents.get("properties.json", {}).get("properties", [])
        self.conditions = documents.get("conditions.json", {}).get("conditions", [])
        self.name(documents)
        self.relate(documents["roles.json"]["roles"])
        self.rules = self.all_rules()

    def name(self, documents):
        """Keeps what is named by the identifiers of each kind, and the things with visibility."""
        inner = [each for environment in self.environments for name in ("learning-objects", "services")
                 for each in environment.get(name, [])]
        self.activity = by_identifier(self.activities)
        self.structure = by_identifier(self.structures)
        self.environment = by_identifier(self.environments)
        self.property = by_identifier(self.properties)
        self.act = by_identifier(self.acts)
        self.play = by_identifier(self.plays)
        self.visible = (self.plays + self.activities + self.structures + self.environments + inner
                        + items_within(list(documents.values())))

    def relate(self, roles):
        """Keeps how roles stand within each other, what role-parts reach, and the act of each of them."""
        pairs = nested(roles)
        self.roles = [role for role, _ in pairs]
        self.role = by_identifier(self.roles)
        self.outer = {role["identifier"]: outer for role, outer in pairs}
        self.within = {role["identifier"]: [each["identifier"] for each, _ in nested([role])] for role in self.roles}
        self.act_of = {part["identifier"]: act for act in self.acts for part in act["role-parts"]}
        self.play_of = {act["identifier"]: play for play in self.plays for act in play["acts"]}
        reached = [(part["role"], self.reached(part["ref"])) for part in self.parts]
        self.roles_that_reach = {name: [role for role, names in reached if name in names] for name in self.activity}

    def reached(self, name):
        """What a reference of a role-part reaches: what it names, and of a structure all children, theirs too."""
        names = {name}
        for child in self.structure.get(name, {}).get("children", []):
            names |= self.reached(child)
        return names

    def outwards(self, role):
        """A role, the one right around it, the one around that, and so on."""
        roles = [self.role[role]]
        while self.outer[roles[-1]["identifier"]] is not None:
            roles.append(self.outer[roles[-1]["identifier"]])
        return roles

    def all_rules(self):
        """The rules in their order, each with its kind, its name and what it is about."""
        rules = [("activity", activity["identifier"], activity) for activity in self.activities]
        rules += [("structure", structure["identifier"], structure) for structure in self.structures]
        for play in self.plays:
            for act in play["acts"]:
                rules.append(("opening", ("opening", act["identifier"]), act))
                rules += [("part", part["identifier"], part) for part in act["role-parts"]]
                rules += [("act", act["identifier"], act)] if "complete" in act else []
            rules += [("play", play["identifier"], play)] if "complete" in play else []
        rules += [("unit", self.identifier, self.method)] if "complete" in self.method else []
        return rules + [("condition", number, condition) for number, condition in enumerate(self.conditions)]
