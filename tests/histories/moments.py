"""Moments at which lines are given: near a run's last one, and near those at which something is to happen."""
from names import happens
from values import DAY, FIRST_MOMENT, LAST_MOMENT, moment_of, value_of

BEGINNINGS = [moment_of(text) for text in (
    "0001-01-01T00:00:00Z", "1582-10-04T23:59:58Z", "1969-12-31T23:59:50Z", "1999-12-31T23:59:59Z",
    "2000-02-28T23:59:30Z", "2024-02-29T12:00:00Z", "2024-06-01T08:00:00Z", "2024-06-01T08:00:00Z",
    "2024-06-01T08:00:00Z", "9999-12-31T23:59:00Z")]
WAITS = [0, 0, 0, 0, 1, 1, 2, 59, 60, 60, 3_600, DAY - 1, DAY, 31 * DAY]


def in_time(number):
    """The number of a moment, within the years that there are."""
    return min(max(number, FIRST_MOMENT), LAST_MOMENT)


def begun_limits(run):
    """When the limits of time end whose time has begun."""
    for kind, _, thing in run.unit.rules:
        if kind in ("activity", "act", "play", "unit") and "time-limit" in thing.get("complete", {}):
            limit = value_of("duration", thing["complete"]["time-limit"])
            name = thing.get("identifier")
            cells = [("Opened", name, person) for person in run.persons] if kind == "activity" else ["Started"]
            for cell in [("ActOpened", name)] if kind == "act" else cells:
                if run.cells[cell] is not None:
                    yield run.cells[cell] + limit


def moment_for(draw, run, literals):
    """A moment for a line of a run: mostly its last one or one a while later, sometimes near an end, seldom before."""
    if happens(draw, 0.03):
        return in_time(run.now - draw.choice([1, 1, 60, DAY]))
    if happens(draw, 0.25):
        ends = [number for number in [*begun_limits(run), *literals] if number >= run.now]
        if ends:
            return in_time(draw.choice(ends) + draw.choice([-1, 0, 0, 1]))
    return in_time(run.now + draw.choice(WAITS))
