"""What fires in a run, and how it settles, after docs/MEANING.md, "Firing, sweeping, settling"."""
import collections

from runs import is_personal, owner_of
from sites import site_test, sites_of
from terms import term_value
from values import meets


class Sums:
    """What a command did so far: sweeps that fired, firings (of each kind of rule, too), rejected changes, notices."""

    def __init__(self):
        self.turns = self.fired = self.rejected = self.sent = 0
        self.firings = collections.Counter()


def show(run, things, person, is_visible):
    """Each of the things becomes visible, or not, for the person alone."""
    for name in things:
        run.cells["Vis", name, person] = is_visible


def change_for(run, sums, change, person):
    """A change for one person or for the run: without a value that fits the property stays as it is."""
    declared = run.unit.property[change["property"]]
    found = term_value(run, change["value"], person)
    if found is None or not meets(declared, found[1]):
        sums.rejected += 1
    else:
        run.cells["Prop", change["property"], owner_of(declared, person)] = found[1]


def do_change(run, sums, change, owner):
    """A change at a site with a person is that person's; else one of a person's property is made for each person."""
    if owner is None and is_personal(run.unit.property[change["property"]]):
        for person in run.persons:
            change_for(run, sums, change, person)
    else:
        change_for(run, sums, change, owner)


def notify(run, sums, notice):
    """A notice goes to the members of any of its roles, each once, in the order of enrolment."""
    persons = [person for person in run.persons if any(run.is_member(person, role) for role in notice["roles"])]
    run.outbox.append({"moment": run.now, "subject": notice.get("subject"), "activity": notice.get("activity"),
                       "persons": persons})
    sums.sent += 1


def complete(run, sums, thing, owner):
    """What follows a completion: its changes in order, and then its notices in order."""
    follows = thing.get("on-completion", {})
    for change in follows.get("change", []):
        do_change(run, sums, change, owner)
    for notice in follows.get("notify", []):
        notify(run, sums, notice)


def act_on(run, sums, action, person):
    """An action of a condition at its site with a person."""
    [(word, inner)] = action.items()
    if word in ("show", "hide"):
        show(run, inner, person, word == "show")
    elif word == "change":
        do_change(run, sums, inner, person)
    else:
        notify(run, sums, inner)


def fire(run, sums, site, answer):
    """The mark takes the test's answer, and then what follows is done."""
    (kind, name, thing), owner = site
    run.cells["Mark", name, owner] = answer
    sums.fired += 1
    sums.firings[kind if kind != "condition" else "condition yes" if answer else "condition no"] += 1
    if kind == "opening":
        run.cells["ActOpened", thing["identifier"]] = run.now
    elif kind == "condition":
        for action in thing["then"] if answer else thing.get("else", []):
            act_on(run, sums, action, owner)
    elif kind in ("activity", "act", "play", "unit"):
        complete(run, sums, thing, owner)


def sweep(run, sums):
    """All sites in their order; one fires where its test and its mark differ. Whether any fired is the answer."""
    before = sums.fired
    for site in sites_of(run):
        (_, name, _), owner = site
        answer = site_test(run, site)
        if answer != run.cells["Mark", name, owner]:
            fire(run, sums, site, answer)
    return sums.fired > before


def settle(run, sums):
    """Sweeps until one fires nothing. Whether it stays within its budget of sweeps that fire is the answer."""
    turns = 0
    while sweep(run, sums):
        turns += 1
        sums.turns += 1
        if turns > run.unit.turns:
            return False
    return True
