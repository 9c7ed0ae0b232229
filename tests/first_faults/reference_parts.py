"""All parts of a unit in document order, as docs/FORMATS.md has it: file by file, an object before its parts.

The documents are free of faults of shape here. A part is what it is, its file and place, what stands there, and what
checks want to know of where it stands.
"""
from typing import NamedTuple

FILES = ["roles.json", "properties.json", "environments.json", "activities.json", "unit.json", "conditions.json"]
COMPARISONS = ["is", "is-not", "greater-than", "less-than"]
ARITHMETIC = ["sum", "subtract", "multiply", "divide"]
VISIBLE = {"play", "activity", "structure", "environment", "object", "service", "item"}
COMPLETED = {"activity", "structure", "role-part", "act", "play", "unit"}


class Part(NamedTuple):
    what: str
    file: str
    at: str
    value: object
    more: dict


def only(value):
    """The name and the value of the only member."""
    (name, inner), = value.items()
    return name, inner


def has_now(term):
    """Whether there is a `current-datetime` in the term."""
    name, value = only(term)
    return name == "current-datetime" or name in ARITHMETIC and any(map(has_now, value))


class Walk:
    """The parts of one document."""

    def __init__(self, file):
        self.file = file

    def part(self, what, at, value, **more):
        return Part(what, self.file, at, value, more)

    def reference(self, at, value, *wants, **more):
        yield self.part("reference", at, value, wants=wants, **more)

    def references(self, owner, name, at, *wants, **more):
        """A list of references, in which each thing is named once."""
        given = owner.get(name, [])
        yield self.part("references", f"{at}/{name}", given)
        for number, each in enumerate(given):
            yield from self.reference(f"{at}/{name}/{number}", each, *wants, **more)

    def items(self, owner, name, at):
        for number, item in enumerate(owner.get(name, [])):
            yield self.part("item", f"{at}/{name}/{number}", item)

    # ---- roles, properties, environments

    def roles(self, owner, at):
        for number, role in enumerate(owner.get("roles", [])):
            place = f"{at}/roles/{number}"
            yield self.part("role", place, role)
            yield from self.roles(role, place)

    def properties(self, document):
        for number, each in enumerate(document.get("properties", [])):
            place = f"/properties/{number}"
            yield self.part("property", place, each)
            if "role" in each:
                yield from self.reference(f"{place}/role", each["role"], "role")

    def environments(self, document):
        for number, environment in enumerate(document.get("environments", [])):
            place = f"/environments/{number}"
            yield self.part("environment", place, environment)
            for inner, thing in enumerate(environment.get("learning-objects", [])):
                yield self.part("object", f"{place}/learning-objects/{inner}", thing)
                yield from self.items(thing, "items", f"{place}/learning-objects/{inner}")
            for inner, service in enumerate(environment.get("services", [])):
                yield self.part("service", f"{place}/services/{inner}", service)
            yield from self.references(environment, "environments", place, "environment")

    # ---- tests, terms, and what is done

    def term(self, term, at, **more):
        yield self.part("term", at, term, **more)
        name, value = only(term)
        if name == "property":
            yield from self.reference(f"{at}/property", value, "property")
        elif name == "datetime-activity-started":
            yield from self.reference(f"{at}/{name}", value, "activity")
        elif name in ARITHMETIC:
            for number, each in enumerate(value):
                yield from self.term(each, f"{at}/{name}/{number}", **{**more, "now": False})

    def test(self, test, at, quantified):
        yield self.part("test", at, test, quantified=quantified)
        name, value = only(test)
        place = f"{at}/{name}"
        if name in COMPARISONS:
            for number, each in enumerate(value):
                free = not has_now(value[1 - number])
                yield from self.term(each, f"{place}/{number}", quantified=quantified, now=free, target=None)
        elif name in ("and", "or"):
            for number, each in enumerate(value):
                yield from self.test(each, f"{place}/{number}", quantified)
        elif name == "not":
            yield from self.test(value, place, quantified)
        elif name == "users-in-role":
            yield from self.each_member(value, place)
        else:
            wants = {"no-value": ["property"], "is-member-of-role": ["role"], "complete": sorted(COMPLETED)}[name]
            yield from self.reference(place, value, *wants)

    def each_member(self, value, at):
        yield from self.reference(f"{at}/role", value["role"], "role")
        yield from self.test(value["expression"], f"{at}/expression", True)

    def change(self, change, at, of_run):
        """A change; where the run's completion brings it, a property of the run is computed for the run."""
        yield self.part("change", at, change)
        yield from self.reference(f"{at}/property", change["property"], "property")
        target = change["property"] if of_run else None
        yield from self.term(change["value"], f"{at}/value", quantified=False, now=False, target=target)

    def notice(self, notice, at):
        yield self.part("notice", at, notice)
        yield from self.references(notice, "roles", at, "role")
        if "activity" in notice:
            yield from self.reference(f"{at}/activity", notice["activity"], "activity")

    def action(self, action, at):
        yield self.part("action", at, action)
        name, value = only(action)
        if name == "change":
            yield from self.change(value, f"{at}/change", False)
        elif name == "notify":
            yield from self.notice(value, f"{at}/notify")
        else:
            yield from self.references(action, name, at, *sorted(VISIBLE))

    def conditions(self, document):
        for number, condition in enumerate(document.get("conditions", [])):
            place = f"/conditions/{number}"
            yield self.part("condition", place, condition)
            yield from self.test(condition["if"], f"{place}/if", False)
            for branch in ("then", "else"):
                for inner, action in enumerate(condition.get(branch, [])):
                    yield from self.action(action, f"{place}/{branch}/{inner}")

    # ---- completion

    def completed(self, owner, at, what):
        """What completes a thing, and what follows."""
        if "complete" in owner:
            yield self.part("complete", f"{at}/complete", owner["complete"], of=what)
            yield from self.completion(owner, at, what)
        if "on-completion" in owner:
            yield from self.follows(owner, f"{at}/on-completion", what)

    def completion(self, owner, at, what):
        name, value = only(owner["complete"])
        place = f"{at}/complete/{name}"
        if name == "when-property-value-is-set":
            yield self.part("value-set", place, value, of=what)
            yield from self.reference(f"{place}/property", value["property"], "property")
        elif name == "when-condition-true":
            yield from self.each_member(value, place)
        elif name == "when-role-part-completed":
            own = {part["identifier"] for part in owner["role-parts"]}
            yield from self.references(owner["complete"], name, f"{at}/complete", "role-part", own=own)
        elif name == "when-play-completed":
            yield from self.references(owner["complete"], name, f"{at}/complete", "play")

    def follows(self, owner, at, what):
        follows = owner["on-completion"]
        yield self.part("on-completion", at, follows, completes="complete" in owner)
        yield from self.items(follows, "feedback", at)
        yield self.part("changes", f"{at}/change", follows.get("change", []))
        for number, change in enumerate(follows.get("change", [])):
            yield from self.change(change, f"{at}/change/{number}", what != "activity")
        yield self.part("notices", f"{at}/notify", follows.get("notify", []))
        for number, notice in enumerate(follows.get("notify", [])):
            yield from self.notice(notice, f"{at}/notify/{number}")

    # ---- activities and the unit

    def activities(self, document):
        for number, activity in enumerate(document.get("activities", [])):
            place = f"/activities/{number}"
            yield self.part("activity", place, activity)
            yield from self.items(activity, "learning-objectives", place)
            yield from self.items(activity, "prerequisites", place)
            yield from self.references(activity, "supports", place, "role")
            yield from self.references(activity, "environments", place, "environment")
            yield from self.items(activity, "items", place)
            yield from self.completed(activity, place, "activity")
        for number, structure in enumerate(document.get("structures", [])):
            place = f"/structures/{number}"
            yield self.part("structure", place, structure)
            yield from self.references(structure, "environments", place, "environment")
            yield from self.references(structure, "children", place, "activity", "structure")

    def unit(self, unit):
        yield self.part("unit", "", unit)
        yield from self.items(unit, "learning-objectives", "")
        yield from self.items(unit, "prerequisites", "")
        method = unit["method"]
        yield self.part("method", "/method", method)
        for number, play in enumerate(method["plays"]):
            yield from self.play(play, f"/method/plays/{number}")
        yield from self.completed(method, "/method", "unit")

    def play(self, play, at):
        yield self.part("play", at, play)
        for number, act in enumerate(play["acts"]):
            yield from self.act(act, f"{at}/acts/{number}")
        yield from self.completed(play, at, "play")

    def act(self, act, at):
        yield self.part("act", at, act)
        for number, part in enumerate(act["role-parts"]):
            place = f"{at}/role-parts/{number}"
            yield self.part("role-part", place, part)
            yield from self.reference(f"{place}/role", part["role"], "role")
            yield from self.reference(f"{place}/ref", part["ref"], "activity", "structure", "environment")
        yield from self.completed(act, at, "act")


def parts_of(documents):
    """The parts of the unit that these documents are; one that is not there is empty."""
    walks = [
        lambda walk, document: walk.roles(document, ""), Walk.properties, Walk.environments, Walk.activities,
        Walk.unit, Walk.conditions]
    return [part for file, parts in zip(FILES, walks) for part in parts(Walk(file), documents.get(file, {}))]
