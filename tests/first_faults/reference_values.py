"""Values of docs/FORMATS.md: which texts are values, and which values fit restrictions."""
import calendar
import datetime
import re

TYPES = {"string": "text", "text": "text", "uri": "text", "boolean": "boolean", "integer": "integer",
         "datetime": "datetime", "duration": "duration"}
MOMENT = re.compile(r"([0-9]{4})-([0-9]{2})-([0-9]{2})T([0-9]{2}):([0-9]{2}):([0-9]{2})Z")
DURATION = re.compile(r"P(?:([0-9]{1,12})D)?(T(?:([0-9]{1,12})H)?(?:([0-9]{1,12})M)?(?:([0-9]{1,12})S)?)?")
LONGEST = 999_999_999_999


def is_printable(text, most):
    """Whether the text has 1 to so many bytes, each from 0x21 to 0x7E."""
    return 1 <= len(text) <= most and all("!" <= each <= "~" for each in text)


def integer_of(text):
    if re.fullmatch(r"-?[0-9]{1,19}", text) is None:
        return None
    return int(text) if -2**63 <= int(text) < 2**63 else None


def moment_of(text):
    """The seconds since 1970, or None."""
    found = MOMENT.fullmatch(text)
    if found is None:
        return None
    try:
        return calendar.timegm(datetime.datetime(*map(int, found.groups())).timetuple())
    except ValueError:
        return None


def duration_of(text):
    """The seconds, or None."""
    found = DURATION.fullmatch(text)
    if found is None or text == "P" or found[2] == "T":
        return None
    days, hours, minutes, seconds = (int(found[part] or 0) for part in (1, 3, 4, 5))
    total = 86_400 * days + 3_600 * hours + 60 * minutes + seconds
    return total if total <= LONGEST else None


def value_of(datatype, text):
    """The value that the text has as one of the datatype, or None."""
    kind = TYPES[datatype]
    if datatype == "uri":
        return text if is_printable(text, 4096) else None
    if kind == "text":
        return text if len(text.encode()) <= 4096 else None
    if kind == "boolean":
        return {"true": True, "false": False}.get(text)
    return {"integer": integer_of, "datetime": moment_of, "duration": duration_of}[kind](text)


def has_order(datatype):
    return TYPES[datatype] in ("integer", "datetime", "duration")


def fits(datatype, restrictions, value):
    """Whether the value meets each restriction that is a value; an enumeration is met by one of its values."""
    if TYPES[datatype] == "text":
        if not restrictions.get("minLength", 0) <= len(value) <= restrictions.get("maxLength", len(value)):
            return False
    for name, is_met in [("minInclusive", lambda bound: bound <= value), ("maxInclusive", lambda bound: value <= bound)]:
        bound = value_of(datatype, restrictions[name]) if name in restrictions else None
        if bound is not None and not (has_order(datatype) and is_met(bound)):
            return False
    given = restrictions.get("enumeration")
    return given is None or any(value_of(datatype, each) == value for each in given)
