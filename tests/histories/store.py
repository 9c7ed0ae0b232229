"""The store of global values that all runs share, after docs/MEANING.md, "The store of global values"."""
from runs import is_personal, is_shared, owner_of
from values import first_value


class Store:
    """What was written last of each uri: for all (None) or for one person by name. A value may be none."""

    def __init__(self):
        self.written = {}

    def value(self, declared, person):
        """The value of a global property for a person; what was never written is the declaration's `initial`."""
        return self.written.get((declared["uri"], owner_of(declared, person)), first_value(declared))

    def write(self, declared, person, value):
        """Keeps the value of a global property for all or for a person."""
        self.written[declared["uri"], owner_of(declared, person)] = value


def owners_of(run, declared):
    """Whose cells a run has of a property."""
    return run.persons if is_personal(declared) else [None]


def shared_cells(run):
    """The declaration and the owner of each cell of the run that is of a global property."""
    return [(declared, owner) for declared in run.unit.properties if is_shared(declared)
            for owner in owners_of(run, declared)]


def take_in(run, store):
    """The cells of global properties take the values that the store has."""
    for declared, owner in shared_cells(run):
        run.cells["Prop", declared["identifier"], owner] = store.value(declared, owner)


def give_back(run, store):
    """The store takes the values of those cells, none included."""
    for declared, owner in shared_cells(run):
        store.write(declared, owner, run.cells["Prop", declared["identifier"], owner])
