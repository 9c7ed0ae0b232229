"""The words of commands: right ones, by which a verb makes sense, and wrong ones, by which most are refused."""
from choices import some_person, to_assign, to_do, to_drop, to_enrol, to_set, value_to_set
from names import ADDRESS, TITLE, happens, neighbour, new_name, plain_name
from samples import sample


def some_names(draw, unit):
    """Some names of a unit."""
    names = [*unit.role, *unit.activity, *unit.structure, *unit.property, *unit.act]
    return [unit.identifier, unit.parts[0]["identifier"], *draw.sample(names, min(6, len(names)))]


class Author:
    """Draws words with an eye on the world as it is. `wishes` has how each run is treated."""

    def __init__(self, draw, world, era, count):
        self.draw = draw
        self.world = world
        self.era = era
        self.units = world.units
        self.globals = {each["uri"]: each for unit in self.units.values() for each in unit.properties if "uri" in each}
        self.others = [name for unit in self.units.values() for name in some_names(draw, unit)]
        self.pool = self.persons(count)
        self.wishes = {}

    def persons(self, count):
        """So many persons by names of their own, of whom one may be named as a thing of a unit is."""
        used = [self.draw.choice(self.others)] if happens(self.draw, 0.3) else []
        while len(used) < count:
            used.append(new_name(self.draw, used))
        return used

    # Right words.

    def new_run(self):
        """A name for a run: one that is new, or that of a person or a thing of a unit."""
        if happens(self.draw, 0.3):
            return self.draw.choice(self.others + self.pool)
        return new_name(self.draw, list(self.wishes))

    def right(self, verb, name):
        """The words by which the verb makes sense, of the run of this name or of a run that is not there (None)."""
        if verb == "create":
            return {"run": self.new_run(), "unit": self.draw.choice(list(self.units))}
        if verb in ("global-set", "global-get"):
            return self.right_of_global(verb)
        run = self.world.runs.get(name)
        if run is None:
            return {}
        return {"run": name, **self.right_of_run(verb, run, self.wishes[name])}

    def right_of_global(self, verb):
        """The words for a global property, where there is one."""
        if not self.globals:
            return {}
        declared = self.globals[self.draw.choice(list(self.globals))]
        made = {"uri": declared["uri"], "owner": self.draw.choice(self.pool) if declared["kind"] == "globpers" else ""}
        return {**made, "value": value_to_set(self.draw, self.era, declared, [])} if verb == "global-set" else made

    def right_of_run(self, verb, run, wish):
        """The words behind the run's name."""
        if verb in ("start", "report", "tick", "next"):
            return {}
        if verb in ("assign", "drop"):
            person, role = (to_assign if verb == "assign" else to_drop)(self.draw, wish, run)
            return {"person": person, "role": role}
        if verb in ("open", "complete"):
            person, activity = to_do(self.draw, wish, run, verb)
            return {"person": person, "activity": activity}
        if verb in ("set", "clear", "get") and run.unit.properties:
            person, named = to_set(self.draw, wish, run, verb)
            made = {"person": person, "property": named}
            if verb == "set":
                asked = wish.interest.texts.get(named)
                made["value"] = value_to_set(self.draw, self.era, run.unit.property[named], asked)
            return made
        return {"person": (to_enrol if verb == "enrol" else some_person)(self.draw, wish, run)}

    # Wrong words.

    def unknown(self, known):
        """A name that is hardly known: nearly a known one, one of another kind or of another unit, or any."""
        near = neighbour(self.draw, self.draw.choice(known or self.others)) or "x"
        return self.draw.choice([near, self.draw.choice(self.others), plain_name(self.draw)])

    def known_or_not(self, known):
        """A name of this kind, mostly, or another."""
        return self.draw.choice(known) if known and happens(self.draw, 0.6) else self.unknown(known)

    def wrong(self, word, verb, name):
        """A word of this kind, by which the verb has a cause of refusal or makes sense by chance."""
        run = self.world.runs.get(name)
        unit = run.unit if run else self.draw.choice(list(self.units.values()))
        if word == "run":
            is_there = name and (verb == "create" or happens(self.draw, 0.7))
            return name if is_there else self.unknown(list(self.wishes))
        if word == "unit":
            return self.unknown(list(self.units))
        if word in ("role", "activity", "property"):
            return self.known_or_not(list(getattr(unit, word)))
        if word == "uri":
            return self.uri()
        if word == "value":
            return self.value()
        return "" if word == "owner" and happens(self.draw, 0.4) else self.known_or_not(self.pool)

    def uri(self):
        """A uri of 1 to 4,096 bytes, or the name of a thing."""
        length = self.draw.choice([1, 2, 8, 8, 20, 1_024, 4_096])
        any_uri = "".join(self.draw.choices(ADDRESS, k=length))
        return self.draw.choice([any_uri, "urn:9", self.draw.choice(self.others), *self.globals])

    def value(self):
        """Any text: a value of some datatype, or one that is short or long, or no Unicode."""
        if happens(self.draw, 0.6):
            return sample(self.draw, self.draw.choice(["integer", "boolean", "datetime", "duration"]), self.era)
        long = self.draw.choice([0, 1, 2, 6, 20, 300]) if happens(self.draw, 0.95) else 5_000
        text = "".join(self.draw.choices(TITLE, k=long))
        return self.draw.choice(["", "\ud83d", "\ude00\ud83d!", "\ud83d\ude00", text, text, text, text, text])
