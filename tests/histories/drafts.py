"""A unit while it is made: its plan, its names, and the parts that it has so far."""
from names import address, happens, title


class Draft:
    """A unit while it is made. Its lists have identifiers, but for its properties, of which they have declarations."""

    def __init__(self, draw, names, plan, era):
        self.draw = draw
        self.names = names
        self.plan = plan
        self.era = era
        self.left = dict(plan.left)
        self.roles, self.properties, self.environments, self.activities, self.structures = [], [], [], [], []
        # The identifiers of the parts of the method: plays, each a list of acts, each a list of role-parts.
        self.plays, self.acts, self.parts = [], [], []
        # The things with visibility, the chief ones (no items, learning objects and services) apart.
        self.chief, self.visible = [], []
        # Properties for conditions that fire one behind another, for two that undo each other, and for arithmetic.
        self.chain, self.loop, self.workings = [], [], []
        # The sizes of environments, activities and structures.
        self.sizes = {}
        self.is_quantified = False

    def has(self, least):
        """Whether the plan is at that level or above."""
        return self.plan.level >= least

    def happens(self, chance):
        """Whether something of this chance happens."""
        return happens(self.draw, chance)

    def some(self, things, most=3):
        """One to so many of the things, each once."""
        return self.draw.sample(things, self.draw.randint(1, min(most, len(things))))

    def take(self, what, wanted):
        """As many as are wanted and may be made yet, which then are made."""
        taken = min(wanted, self.left[what])
        self.left[what] -= taken
        return taken

    def leaf(self):
        """Counts a leaf of a test or a term."""
        self.left["leaves"] -= 1
        if self.is_quantified:
            self.left["quantified"] -= 1

    def is_wordy(self):
        """Whether there is room for another test or change, the leaves of which are 30 at most."""
        return self.left["leaves"] >= 30 and (not self.is_quantified or self.left["quantified"] >= 30)

    def thing(self, identifier=None, **members):
        """An object with an identifier, a new one unless it is given, these members, and perhaps a title."""
        made = {"identifier": identifier or self.names.new(), **members}
        if self.happens(self.plan.titled):
            made["title"] = title(self.draw)
        return made

    def visible_thing(self, identifier=None, is_chief=True, **members):
        """The same of a thing with visibility, which may be hidden at first."""
        made = self.thing(identifier, **members)
        self.visible.append(made["identifier"])
        if is_chief:
            self.chief.append(made["identifier"])
        if self.happens(self.plan.hidden):
            made["visible"] = False
        elif self.happens(0.1):
            made["visible"] = True
        return made

    def items(self):
        """A few items, or none."""
        count = self.take("items", self.draw.randrange(self.plan.items + 1))
        return [self.visible_thing(is_chief=False, href=address(self.draw)) for _ in range(count)]

    def with_some(self, made, chance, **members):
        """The object with each of the members that happens; a member's name is written with `_` for `-`."""
        for name, value in members.items():
            if self.happens(chance):
                made[name.replace("_", "-")] = value
        return made

    def within(self, kind, first, names):
        """As many of the names as the size of a thing of the kind, which begins as `first`, allows; and that size."""
        size, kept = first, []
        for name in names:
            if size + self.sizes[name] <= self.plan.sizes[kind]:
                size += self.sizes[name]
                kept.append(name)
        return kept, size
