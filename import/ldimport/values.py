"""Value texts of XML Schema as value texts of the engine (docs/FORMATS.md, "Values")."""

import re
from collections.abc import Callable
from datetime import datetime, timedelta, timezone

TEXTS = ("string", "text", "uri")
ORDERED = ("integer", "datetime", "duration")
LONGEST = 4096
LONGEST_SPAN = 999_999_999_999
DAY = 86_400

DURATION = re.compile(
    r"(-?)P(?:(\d+)Y)?(?:(\d+)M)?(?:(\d+)W)?(?:(\d+)D)?(?:T(?:(\d+)H)?(?:(\d+)M)?(?:(\d+)(\.\d+)?S)?)?$", re.ASCII
)
MOMENT = re.compile(r"(\d{4})-(\d\d)-(\d\d)(?:T(\d\d):(\d\d)(?::(\d\d)(\.\d+)?)?)?(Z|[+-]\d\d:\d\d)?$", re.ASCII)
WHOLE = re.compile(r"([+-]?)(\d+)(?:\.(0*))?$", re.ASCII)
FITTING = re.compile(r"[\x21-\x7e]*")
REAL = re.compile(r"[+-]?(\d+\.?\d*|\.\d+)$", re.ASCII)

# The engine's text, and what it does not say of the given one.
Value = tuple[str, str | None]


class BadValue(Exception):
    """A text is no value of its datatype."""


def duration(text: str) -> Value:
    match = DURATION.match(text)
    if not match or text.endswith("T") or not any(match.groups()[1:8]):
        raise BadValue(f"'{text}' is no duration")
    sign, *parts, fraction = match.groups()
    years, months, weeks, days, hours, minutes, seconds = (int(part or 0) for part in parts)
    total = (years * 365 + months * 30 + weeks * 7 + days) * DAY + hours * 3600 + minutes * 60 + seconds
    if (sign and total) or total > LONGEST_SPAN:
        raise BadValue(f"'{text}' is negative or too long")
    remark = None
    if years or months:
        remark = f"'{text}' has years or months: a year is taken as 365 days, a month as 30"
    elif fraction and int(fraction[1:]):
        remark = f"'{text}' has parts of a second, which are left out"
    return print_duration(total), remark


def print_duration(total: int) -> str:
    if not total:
        return "PT0S"
    days, rest = divmod(total, DAY)
    hours, rest = divmod(rest, 3600)
    minutes, seconds = divmod(rest, 60)
    time = "".join(f"{number}{unit}" for number, unit in ((hours, "H"), (minutes, "M"), (seconds, "S")) if number)
    return "P" + (f"{days}D" if days else "") + ("T" + time if time else "")


def seconds_of(text: str) -> int:
    """The length of a duration in the engine's form."""
    match = DURATION.match(text)
    assert match
    days, hours, minutes, seconds = (int(part or 0) for part in match.group(5, 6, 7, 8))
    return days * DAY + hours * 3600 + minutes * 60 + seconds


def moment(text: str) -> Value:
    match = MOMENT.match(text)
    if not match:
        raise BadValue(f"'{text}' is no date with a time")
    _, _, _, hour, _, _, fraction, zone = match.groups()
    remarks = []
    if hour is None:
        remarks.append("has no time: midnight is taken")
    if not zone:
        remarks.append("has no time zone: Z is taken")
    if fraction and int(fraction[1:]):
        remarks.append("has parts of a second, which are left out")
    try:
        at = in_utc(match)
    except (ValueError, OverflowError):
        raise BadValue(f"'{text}' is no date with a time") from None
    told = f"'{text}' " + " and ".join(remarks) if remarks else None
    return at.strftime("%Y").rjust(4, "0") + at.strftime("-%m-%dT%H:%M:%SZ"), told


def in_utc(match: re.Match[str]) -> datetime:
    """The moment of a match; 24:00:00 is the beginning of the next day."""
    year, month, day, hour, minute, second = (int(part or 0) for part in match.groups()[:6])
    over = hour == 24 and not minute and not second
    at = datetime(year, month, day, 0 if over else hour, minute, second, tzinfo=timezone.utc) + timedelta(days=over)
    zone = match.group(8)
    if not zone or zone == "Z":
        return at
    away = timedelta(hours=int(zone[1:3]), minutes=int(zone[4:]))
    if int(zone[4:]) > 59 or away > timedelta(hours=14):
        raise ValueError
    return at - away if zone[0] == "+" else at + away


def integer(text: str) -> Value:
    match = WHOLE.match(text)
    if not match:
        raise BadValue(f"'{text}' is no whole number")
    value = int(match[1] + match[2])
    if not -(2**63) <= value < 2**63:
        raise BadValue(f"'{text}' is out of range")
    return str(value), None


def boolean(text: str) -> Value:
    if text not in ("true", "false", "1", "0"):
        raise BadValue(f"'{text}' is neither true nor false")
    return {"1": "true", "0": "false"}.get(text, text), None


def uri(text: str) -> Value:
    fitting = percent(text)
    if not 1 <= len(fitting) <= LONGEST:
        raise BadValue("a uri has 1 to 4,096 bytes")
    return fitting, None if fitting == text else f"'{text}' is written as '{fitting}'"


def plain(text: str) -> Value:
    if len(text.encode()) > LONGEST:
        raise BadValue("a text has at most 4,096 bytes")
    return text, None


READERS: dict[str, Callable[[str], Value]] = {
    "integer": integer,
    "boolean": boolean,
    "datetime": moment,
    "duration": duration,
    "uri": uri,
    "string": plain,
    "text": plain,
}


def value(datatype: str, text: str) -> Value:
    """The text as a value text of the datatype, and what was changed, if anything."""
    if len(text) > LONGEST:
        raise BadValue("a value has at most 4,096 bytes")
    return READERS[datatype](text)


def percent(text: str) -> str:
    """The text with every byte outside 0x21 to 0x7E written as %XX."""
    if FITTING.fullmatch(text):
        return text
    return "".join(chr(byte) if 0x21 <= byte <= 0x7E else f"%{byte:02X}" for byte in text.encode())


def guess(text: str) -> str:
    """The datatype of a literal where nothing else says it."""
    if WHOLE.match(text):
        return "integer"
    if text in ("true", "false"):
        return "boolean"
    if MOMENT.match(text) and "T" in text:
        return "datetime"
    if text.startswith("P") and DURATION.match(text):
        return "duration"
    return "text"


def family(datatype: str) -> str:
    """The type of a datatype: string, text and uri are one."""
    return "text" if datatype in TEXTS else datatype


def order(datatype: str, text: str) -> int | str:
    """What orders value texts in the engine's form; moments stand in the order of their texts."""
    if datatype == "integer":
        return int(text)
    return seconds_of(text) if datatype == "duration" else text
