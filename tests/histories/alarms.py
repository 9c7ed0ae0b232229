"""The next alarm of a run, after docs/MEANING.md, "The next alarm".

The test of a site is asked where time alone may switch it: where a limit ends, where `current-datetime` is compared
with a moment, and a second later. `check` looks for no such moments: it asks all sites at each second of a short span.
"""
from holding import COMPARISONS
from sites import has_begun_at, site_test, sites_of
from terms import term_value
from values import LAST_MOMENT, value_of

# The seconds that are searched, and how often sites are asked for that at most.
SPAN = 40
MOST_ASKED = 4_000

NOW = {"current-datetime": True}


def switches_of_test(run, test, person):
    """The moments at which time alone may switch a test of the person's."""
    [(word, inner)] = test.items()
    if word in COMPARISONS:
        others = [term for term in inner if term != NOW] if NOW in inner else []
        for found in [term_value(run, term, person) for term in others]:
            if found is not None:
                yield from (found[1], found[1] + 1)
    elif word in ("and", "or"):
        for each in inner:
            yield from switches_of_test(run, each, person)
    elif word == "not":
        yield from switches_of_test(run, inner, person)
    elif word == "users-in-role":
        yield from switches_of_members(run, inner)


def switches_of_members(run, quantified):
    """The same of a test that is asked of each member of a role."""
    for member in run.members(quantified["role"]):
        yield from switches_of_test(run, quantified["expression"], member)


def switches_of(run, site):
    """The moments at which time alone may switch the test of a site."""
    (kind, _, thing), owner = site
    if kind == "condition":
        yield from switches_of_test(run, thing["if"], owner)
    elif kind in ("activity", "act", "play", "unit") and "complete" in thing:
        [(word, inner)] = thing["complete"].items()
        if word == "when-condition-true":
            yield from switches_of_members(run, inner)
        elif word == "time-limit" and (begun := has_begun_at(run, kind, thing, owner)) is not None:
            yield begun + value_of("duration", inner)


def is_due(run, site, moment):
    """Whether the test of a site differs from its mark where the moment alone is another one."""
    (_, name, _), owner = site
    before, run.now = run.now, moment
    answer = site_test(run, site)
    run.now = before
    return answer != run.cells["Mark", name, owner]


def alarm_of(run):
    """The first moment after the last one at which a site is due, or None."""
    found = None
    for site in sites_of(run):
        for moment in sorted({each for each in switches_of(run, site) if run.now < each <= LAST_MOMENT}):
            if found is not None and found <= moment:
                break
            if is_due(run, site, moment):
                found = moment
    return found


def plain_alarm_of(run, last):
    """The same by every second up to the last one."""
    sites = sites_of(run)
    seconds = range(run.now + 1, last + 1)
    return next((second for second in seconds if any(is_due(run, site, second) for site in sites)), None)


def check(run, alarm):
    """Stops where an alarm is another one than each second tells, in a run of few sites."""
    last = min(run.now + SPAN, LAST_MOMENT)
    if len(sites_of(run)) * SPAN <= MOST_ASKED:
        assert plain_alarm_of(run, last) == (alarm if alarm is not None and alarm <= last else None)
