"""Random folders of all levels: units that mostly have no fault."""
from units import members

VALUES = {
    "string": ["", "a", "two words", "é"], "text": ["", "b", "some text"], "uri": ["urn:a", "x"],
    "boolean": ["true", "false"], "integer": ["0", "-1", "7", "007", "50", "9223372036854775807"],
    "datetime": ["2024-01-01T00:00:00Z", "2024-02-29T12:00:00Z", "0001-01-01T00:00:00Z"],
    "duration": ["PT0S", "P1D", "PT90M", "P1DT2H3M4S"],
}
TYPES = {"string": "text", "text": "text", "uri": "text"}
PERSONAL = ["locpers", "globpers"]
HOW = {
    "integer": [("sum", ["integer"] * 2), ("sum", ["integer"] * 3), ("subtract", ["integer"] * 2),
                ("multiply", ["integer"] * 2), ("divide", ["integer"] * 2)],
    "datetime": [("sum", ["datetime", "duration"]), ("subtract", ["datetime", "duration"])],
    "duration": [("sum", ["duration"] * 2), ("subtract", ["datetime"] * 2), ("subtract", ["duration"] * 2)],
}


KINDS = ["role", "environment", "activity", "structure", "role-part", "act", "play", "shown"]
OPTIONAL = ["properties.json", "environments.json", "conditions.json"]


class Course:
    """One random unit, made with the dice that are given."""

    def __init__(self, dice):
        self.dice = dice
        self.level = dice.choice("AABCCC")
        self.count = 0
        self.of = {kind: [] for kind in KINDS}
        self.properties = []

    def name(self, kind, *also):
        self.count += 1
        name = f"{kind[0]}{self.count}"
        for each in (kind, *also):
            self.of.setdefault(each, []).append(name)
        return name

    def maybe(self, make, chance=0.4):
        return make() if self.dice.random() < chance else None

    def some(self, names, least=0):
        """Some of the names, each once, or None where there are none."""
        if len(names) < max(least, 1):
            return None
        return self.dice.sample(names, self.dice.randint(least, min(len(names), 3)))

    def common(self):
        return {"title": self.maybe(lambda: self.dice.choice(["T", "Tïtle", "a \"b\""]), 0.2),
                "visible": self.maybe(lambda: self.dice.choice([True, True, False]), 0.3)}

    def items(self):
        return [members({"identifier": self.name("item", "shown"), "href": "x.html", **self.common()})
                for _ in range(self.dice.choice([0, 1, 1, 2]))]

    # ---- roles, properties, environments

    def role(self, depth):
        rest = {"match-persons": self.maybe(lambda: self.dice.choice(["exclusively-in-roles", "not-exclusively"]), 0.2),
                "min-persons": self.maybe(lambda: self.dice.choice([0, 1, 1_000_000]), 0.2),
                "max-persons": self.maybe(lambda: self.dice.choice([0, 5, 1_000_000]), 0.1)}
        kind = {"kind": self.dice.choice(["learner", "staff"])} if depth == 0 else {}
        own = {"identifier": self.name("role"), **kind, "title": self.common()["title"], **rest}
        inner = [self.role(depth + 1) for _ in range(self.dice.choice([0, 0, 1, 2]))] if depth < 2 else []
        return members({**own, "roles": inner or self.maybe(list, 0.1)})

    def property(self):
        datatype = self.dice.choice(list(VALUES))
        kind = self.dice.choice(["loc", "locpers", "locrole", "globpers", "glob"])
        name = self.name("property")
        more = {"role": self.dice.choice(self.of["role"])} if kind == "locrole" else {}
        if kind in ("glob", "globpers"):
            more = {"uri": f"urn:{name}"}
        self.properties.append((name, TYPES.get(datatype, datatype), kind in PERSONAL, datatype))
        value = self.dice.choice(VALUES[datatype])
        return members({
            "identifier": name, "kind": kind, "datatype": datatype, "title": self.common()["title"], **more,
            "initial": self.maybe(lambda: value), "restrictions": self.maybe(lambda: self.restrictions(datatype, value))})

    def restrictions(self, datatype, value):
        bound = self.maybe(lambda: value, 0.3) if datatype in ("integer", "datetime", "duration") else None
        length = self.maybe(lambda: len(value), 0.4) if datatype in TYPES else None
        return members({
            "minInclusive": bound, "maxInclusive": bound and self.maybe(lambda: value), "minLength": length,
            "maxLength": length, "enumeration": self.maybe(lambda: [value, *self.dice.sample(VALUES[datatype], 2)], 0.3)})

    def environment(self):
        inner = self.some(self.of["environment"])
        name = self.name("environment", "shown")
        kinds = ["send-mail", "conference", "index-search"] + ["monitor"] * (self.level != "A")
        objects = [members({"identifier": self.name("object", "shown"), **self.common(), "items": self.maybe(self.items)})
                   for _ in range(self.dice.choice([0, 0, 1]))]
        services = [members({"identifier": self.name("service", "shown"), "kind": self.dice.choice(kinds), **self.common()})
                    for _ in range(self.dice.choice([0, 0, 1]))]
        return members({"identifier": name, **self.common(), "learning-objects": objects or None,
                        "services": services or None, "environments": inner})

    # ---- terms and tests

    def named(self, kind, run):
        found = [name for name, of, personal, _ in self.properties if of == kind and not (run and personal)]
        return {"property": self.dice.choice(found)} if found else None

    def term(self, kind, depth, run=False):
        """A term of this type, at the run's place or at a person's."""
        if depth > 0 and kind in HOW and self.dice.random() < 0.4:
            operator, kinds = self.dice.choice(HOW[kind])
            return {operator: [self.term(each, depth - 1, run) for each in kinds]}
        if kind == "datetime" and self.dice.random() < 0.3:
            started = {"datetime-activity-started": self.dice.choice(self.of["activity"])}
            return {"time-unit-of-learning-started": True} if run else started
        return self.maybe(lambda: self.named(kind, run), 0.6) or {kind: self.dice.choice(VALUES[kind])}

    def comparison(self, depth):
        kind = self.dice.choice(["text", "boolean", "integer", "datetime", "duration"])
        word = self.dice.choice(["is", "is-not"] + ["greater-than", "less-than"] * (kind not in ("text", "boolean")))
        terms = [self.term(kind, depth), self.term(kind, depth)]
        if kind == "datetime" and self.dice.random() < 0.4:
            terms[self.dice.randrange(2)] = {"current-datetime": True}
        return {word: terms}

    def test(self, depth, quantified=False):
        dice = self.dice
        if depth > 0 and dice.random() < 0.4:
            word = dice.choice(["and", "or", "not"] + ["users-in-role"] * (not quantified))
            if word == "not":
                return {"not": self.test(depth - 1, quantified)}
            if word == "users-in-role":
                return {word: self.each_member(depth - 1)}
            return {word: [self.test(depth - 1, quantified) for _ in range(dice.choice([2, 2, 3]))]}
        done = self.of["activity"] + self.of["structure"] + self.of["role-part"] + self.of["act"] + self.of["play"] + ["u"]
        word = dice.choice(["compare", "compare", "complete", "is-member-of-role"] + ["no-value"] * bool(self.properties))
        if word == "compare":
            return self.comparison(2)
        names = {"complete": done, "is-member-of-role": self.of["role"], "no-value": [each[0] for each in self.properties]}
        return {word: dice.choice(names[word])}

    def each_member(self, depth):
        return {"role": self.dice.choice(self.of["role"]), "expression": self.test(depth, True)}

    def change(self, of_run):
        name, kind, personal, _ = self.dice.choice(self.properties)
        return {"property": name, "value": self.term(kind, 2, of_run and not personal)}

    def notice(self):
        return members({
            "roles": self.some(self.of["role"], 1), "subject": self.maybe(lambda: "S"),
            "activity": self.maybe(lambda: self.dice.choice(self.of["activity"]))})

    # ---- completion

    def set_rule(self, of_run):
        found = [each for each in self.properties if not (of_run and each[2])]
        if not found or self.level == "A":
            return {"time-limit": self.dice.choice(VALUES["duration"])}
        name, _, _, datatype = self.dice.choice(found)
        value = self.maybe(lambda: self.dice.choice(VALUES[datatype]))
        return {"when-property-value-is-set": members({"property": name, "value": value})}

    def follows(self, of_run):
        changes = [self.change(of_run) for _ in range(self.dice.choice([0, 1, 2]))] if self.properties else []
        notices = [self.notice() for _ in range(self.dice.choice([0, 1]))] if self.level == "C" else []
        return members({"feedback": self.maybe(self.items), "change": changes or self.maybe(list, 0.1),
                        "notify": notices or self.maybe(list, 0.1)})

    def completed(self, *rules, of_run=True):
        """A rule and what follows; the rules are those that the thing has beside time and properties."""
        rule = self.maybe(lambda: self.dice.choice([*rules, {"time-limit": "P1D"}, self.set_rule(of_run)]), 0.6)
        return {"complete": rule, "on-completion": rule and self.maybe(lambda: self.follows(of_run), 0.3)}

    # ---- activities and the method

    def activity(self):
        name = self.name("activity", "shown")
        support = self.dice.random() < 0.2
        return members({
            "identifier": name, "kind": "support" if support else self.maybe(lambda: "learning", 0.2), **self.common(),
            "learning-objectives": self.maybe(self.items, 0.2), "prerequisites": self.maybe(self.items, 0.1),
            "supports": self.some(self.of["role"]) if support else None, "environments": self.some(self.of["environment"]),
            "items": self.maybe(self.items), **self.completed({"user-choice": True}, {"user-choice": True}, of_run=False)})

    def structure(self):
        children = self.some(self.of["activity"] + self.of["structure"], 1)
        kind = self.dice.choice(["sequence", "selection"])
        number = self.maybe(lambda: self.dice.randint(1, len(children))) if kind == "selection" else None
        return members({"identifier": self.name("structure", "shown"), "kind": kind, **self.common(),
                        "number-to-select": number, "environments": self.some(self.of["environment"]), "children": children})

    def part(self):
        reached = self.of["activity"] * 2 + self.of["structure"] + self.of["environment"]
        return members({"identifier": self.name("role-part"), "title": self.common()["title"],
                        "role": self.dice.choice(self.of["role"]), "ref": self.dice.choice(reached)})

    def act(self):
        parts = [self.part() for _ in range(self.dice.choice([1, 1, 2]))]
        rules = [{"when-role-part-completed": self.some([each["identifier"] for each in parts], 1)}]
        if self.level != "A":
            rules.append({"when-condition-true": self.each_member(2)})
        return members({"identifier": self.name("act"), "title": self.common()["title"], "role-parts": parts,
                        **self.completed(*rules)})

    def play(self):
        acts = [self.act() for _ in range(self.dice.choice([1, 1, 2]))]
        return members({"identifier": self.name("play", "shown"), **self.common(), "acts": acts,
                        **self.completed({"when-last-act-completed": True})})

    def action(self):
        word = self.dice.choice(
            ["show", "hide"] + ["change"] * bool(self.properties) + ["notify"] * (self.level == "C"))
        if word == "change":
            return {word: self.change(False)}
        return {word: self.notice() if word == "notify" else self.some(self.of["shown"], 1)}

    def condition(self):
        actions = [self.action() for _ in range(self.dice.choice([1, 1, 2]))]
        others = self.maybe(lambda: [self.action() for _ in range(self.dice.choice([0, 1, 2]))])
        return members({"if": self.test(3), "then": actions, "else": others})

    def documents(self):
        dice, above = self.dice, self.level != "A"
        roles = [self.role(0) for _ in range(dice.choice([1, 1, 2, 3]))]
        properties = [self.property() for _ in range(dice.choice([0, 1, 3, 6]))] if above else []
        environments = [self.environment() for _ in range(dice.choice([0, 0, 1, 3]))]
        activities = [self.activity() for _ in range(dice.choice([1, 2, 3]))]
        structures = [self.structure() for _ in range(dice.choice([0, 0, 1, 3]))]
        plays = [self.play() for _ in range(dice.choice([1, 1, 2]))]
        played = self.completed({"when-play-completed": self.some([each["identifier"] for each in plays], 1)})
        unit = {"format": 1, "identifier": "u", "level": self.level, "title": self.common()["title"],
                "turns": self.maybe(lambda: dice.choice([1, 64, 256]), 0.2), "metadata": self.maybe(lambda: "m", 0.1),
                "learning-objectives": self.maybe(self.items, 0.2), "prerequisites": self.maybe(self.items, 0.1),
                "method": members({"plays": plays, **played})}
        conditions = [self.condition() for _ in range(dice.choice([0, 1, 2, 3]))] if above else []
        whole = {"roles.json": {"roles": roles}, "properties.json": {"properties": properties},
                 "environments.json": {"environments": environments},
                 "activities.json": members({"activities": activities, "structures": structures or None}),
                 "unit.json": members(unit), "conditions.json": {"conditions": conditions}}
        empty = [name for name in OPTIONAL if not any(whole[name].values())]
        return {name: document for name, document in whole.items() if name not in empty or dice.random() < 0.3}


def plain(dice):
    """A small unit: one role-part, its activity, and items."""
    def items():
        return [{"identifier": f"i{dice.randrange(10**9)}", "href": "x"} for _ in range(dice.choice([0, 0, 1, 2]))]
    activity = members({"identifier": "read", "items": items() or None, "complete": {"user-choice": True},
                        "prerequisites": items() or None})
    part = {"identifier": "rp", "role": "learner", "ref": "read"}
    plays = [{"identifier": "p", "acts": [{"identifier": "a", "role-parts": [part]}]}]
    return {"roles.json": {"roles": [{"identifier": "learner", "kind": "learner"}]},
            "activities.json": {"activities": [activity]},
            "unit.json": {"format": 1, "identifier": "u", "level": dice.choice("ABC"), "method": {"plays": plays}}}
