"""The state of a run and what it says of persons and roles, after docs/MEANING.md, "The state of a run".

A cell is named by a tuple of its kind, what it is of, and its owner, who is a person or None for the run as a whole.
A cell without a value has None.
"""
from values import first_value

# The kinds of properties of which each person has one, and those that all runs share.
PERSONAL = ["locpers", "globpers"]
SHARED = ["glob", "globpers"]
# The kinds of rules that have a site with each person.
RULES_OF_PERSONS = ["activity", "structure", "condition"]


def is_personal(declared):
    """Whether each person has a property of this declaration."""
    return declared["kind"] in PERSONAL


def is_shared(declared):
    """Whether all runs share a property of this declaration."""
    return declared["kind"] in SHARED


def owner_of(declared, person):
    """Whose property a person means: the person's own one or the run's."""
    return person if is_personal(declared) else None


class Run:
    """A run: its unit, last moment, persons in the order of enrolment, who holds what, its notices and its cells."""

    def __init__(self, unit, moment, store):
        self.unit = unit
        self.now = moment
        self.persons = []
        self.held = set()
        self.outbox = []
        self.cells = {"Started": None}
        for act in unit.acts:
            self.cells["ActOpened", act["identifier"]] = None
        self.begin(None, store)

    def copy(self):
        """The same state once more, so that a command that is refused leaves the first as it was."""
        other = object.__new__(Run)
        other.unit, other.now = self.unit, self.now
        other.persons, other.held = list(self.persons), set(self.held)
        other.outbox, other.cells = list(self.outbox), dict(self.cells)
        return other

    def begin(self, owner, store):
        """The marks and properties of the run, or of a person, begin."""
        for kind, name, _ in self.unit.rules:
            if (kind in RULES_OF_PERSONS) == (owner is not None):
                self.cells["Mark", name, owner] = None if kind == "condition" else False
        for declared in self.unit.properties:
            if is_personal(declared) == (owner is not None):
                value = store.value(declared, owner) if is_shared(declared) else first_value(declared)
                self.cells["Prop", declared["identifier"], owner] = value

    def join(self, person, store):
        """A person joins without a role, last of all, and the person's cells begin."""
        self.persons.append(person)
        self.begin(person, store)
        for thing in self.unit.visible:
            self.cells["Vis", thing["identifier"], person] = thing.get("visible", True)
        for activity in self.unit.activities:
            self.cells["Chosen", activity["identifier"], person] = False
            self.cells["Opened", activity["identifier"], person] = None

    # Persons and roles.

    def is_member(self, person, role):
        """A person is a member of a role that the person holds, and of each within which that one stands."""
        return any((person, each) in self.held for each in self.unit.within[role])

    def members(self, role):
        """The members of a role, each once, in the order of enrolment."""
        return [person for person in self.persons if self.is_member(person, role)]

    # What cells say.

    def is_started(self):
        """A run is started once it keeps the moment of its start."""
        return self.cells["Started"] is not None

    def property(self, name, person):
        """The value of a property for a person, or for the run (None)."""
        return self.cells["Prop", name, owner_of(self.unit.property[name], person)]

    def is_opened(self, act):
        """Whether an act was opened."""
        return self.cells["ActOpened", act] is not None

    def is_done(self, name, owner=None):
        """Whether the mark of the rule of this name says yes; what has no rule is never done."""
        return self.cells.get(("Mark", name, owner)) is True

    def is_done_for(self, name, person):
        """Whether what an identifier names is done: of an activity or a structure, for the person."""
        return self.is_done(name, person if name in self.unit.activity or name in self.unit.structure else None)

    def is_visible(self, thing, person):
        """Whether the person sees the thing."""
        return self.cells["Vis", thing["identifier"], person]
