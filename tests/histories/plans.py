"""What a random unit is to have: how many of each part, within the limits of docs/FORMATS.md, "Limits"."""


class Plan:
    """Counts of the parts of a unit, and how often something is so in it."""

    def __init__(self, draw):
        self.level = draw.choice("AABBBCCC")
        self.hidden = draw.choice([0, 0, 0, 0.05, 0.15, 0.3])
        self.titled = draw.choice([0.1, 0.3, 0.6])
        self.turns = draw.choice([None] * 6 + [256, 64, 8, 5, 4, 4, 3, 3, 2, 2, 1])
        # How many of these may be made at all.
        self.left = {"items": 60, "inner things": 12, "leaves": 150, "quantified": 40}
        # The greatest size of an environment, an activity, a structure, a role-part and the unit.
        self.sizes = {"environment": 15, "activity": 20, "structure": 50, "part": 60, "unit": 150}
        self.chain = self.loop = self.workings = 0
        # How deep a condition's test is at most, and how many items a list has at most.
        self.depth, self.items = 2, 3
        # Whether it is at the shape of the limits, and whether each environment and structure refers to the one before.
        self.is_vast = self.is_deep = False

    def count(self, **counts):
        """Sets the counts of parts."""
        self.counts = counts
        if self.level == "A":
            self.counts = {**counts, "properties": 0, "conditions": 0}
        return self


def tiny(draw):
    """The least units, and nearly those."""
    return Plan(draw).count(
        roles=draw.choice([1, 1, 2]), properties=draw.choice([0, 1, 2]), environments=draw.choice([0, 0, 1]),
        activities=draw.choice([1, 1, 2]), structures=draw.choice([0, 0, 1]), plays=1, acts=1, parts=1,
        conditions=draw.choice([0, 1, 2]))


def rounds(draw, plan):
    """So many rounds of a loop, each of two turns, that about all turns of the unit are taken."""
    return max(1, (plan.turns or 64) // 2 * draw.choice([1, 1, 2]) + draw.choice([-1, 0, 0, 0, 1]))


def small(draw):
    """Units of a few parts of each kind."""
    plan = Plan(draw).count(
        roles=draw.choice([1, 2, 2, 3, 4, 5]), properties=draw.randint(1, 7), environments=draw.choice([0, 0, 1, 2, 3]),
        activities=draw.randint(1, 6), structures=draw.choice([0, 1, 1, 2, 3]), plays=draw.choice([1, 1, 1, 2, 3]),
        acts=draw.choice([1, 2, 2, 3]), parts=draw.choice([1, 1, 2, 3]), conditions=draw.randint(0, 7))
    if plan.level != "A":
        plan.chain = draw.choice([0, 0, 0, 2, 3, 5])
        plan.loop = draw.choice([0, 0, 0, 1, 2, rounds(draw, plan), rounds(draw, plan)])
        plan.workings = draw.choice([0, 1, 2, 4])
    return plan


def rich(draw):
    """Units of many parts."""
    plan = Plan(draw).count(
        roles=draw.randint(3, 9), properties=draw.randint(3, 20), environments=draw.randint(1, 7),
        activities=draw.randint(4, 14), structures=draw.randint(1, 6), plays=draw.randint(1, 4),
        acts=draw.randint(1, 4), parts=draw.randint(1, 4), conditions=draw.randint(2, 16))
    plan.left = {"items": 150, "inner things": 40, "leaves": 400, "quantified": 80}
    plan.sizes = {"environment": 40, "activity": 60, "structure": 150, "part": 200, "unit": 500}
    if plan.level != "A":
        plan.chain = draw.choice([0, 2, 4, 7])
        plan.loop = draw.choice([0, 0, 2, rounds(draw, plan)])
        plan.workings = draw.choice([0, 3, 6])
    return plan


def vast(draw):
    """Units at the shape of the limits: as many of some parts as there may be, and nearly as many of the others.

    The rules are at most 600: of 300 activities and 100 structures, of the method with some 80, and of conditions.
    """
    plan = Plan(draw).count(roles=60, properties=288, environments=400, activities=300, structures=100, plays=2, acts=5,
                            parts=4, conditions=110)
    plan.titled = 0.1
    plan.turns = None
    plan.depth = 5
    plan.left = {"items": 4_000, "inner things": 1_000, "leaves": 3_500, "quantified": 100}
    plan.sizes = draw.choice([
        {"environment": 200, "activity": 400, "structure": 1_500, "part": 4_000, "unit": 60_000},
        {"environment": 4_000, "activity": 6_000, "structure": 15_000, "part": 20_000, "unit": 199_000}])
    plan.is_vast, plan.is_deep = True, draw.choice([True, False])
    plan.items = 1 if plan.is_deep else 8
    if plan.level != "A":
        plan.chain, plan.loop, plan.workings = 4, 2, 4
    return plan


def some_plan(draw, is_vast, is_crowd):
    """A plan: mostly a small one; a vast one where it is to be, and a tiny one where there are to be many persons."""
    if is_vast:
        return vast(draw)
    return tiny(draw) if is_crowd else draw.choices([tiny, small, rich], [25, 60, 15])[0](draw)
