"""Moments as the engine reads them, for instance `2024-01-01T09:00:00Z`. As texts they sort as they follow."""

import re
from datetime import datetime, timedelta, timezone

FORM = "%Y-%m-%dT%H:%M:%SZ"
DURATION = re.compile(r"P(?:(\d+)D)?(?:T(?:(\d+)H)?(?:(\d+)M)?(?:(\d+)S)?)?")
LAST = "9999-12-31T23:59:59Z"
UNITS = (86400, 3600, 60, 1)


def present() -> str:
    return datetime.now(timezone.utc).strftime(FORM)


def after(moment: str, seconds: int) -> str:
    """The moment so many seconds later; the last one that there is, where that would be beyond it."""
    try:
        later = datetime.strptime(moment, FORM) + timedelta(seconds=seconds)
    except OverflowError:
        return LAST
    return later.strftime(FORM)


def seconds_of(duration: str) -> int:
    """The seconds of a duration such as `P1DT2H`."""
    found = DURATION.fullmatch(duration)
    parts = found.groups() if found else ()
    return sum(int(part) * unit for part, unit in zip(parts, UNITS) if part)


def in_words(moment: str) -> str:
    """The moment as a person reads it, without what the page's script makes of it."""
    return moment.replace("T", " ").removesuffix("Z") + " UTC"
