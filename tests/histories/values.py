"""The values of each datatype, after docs/FORMATS.md, "Values".

A value is kept as that by which it is compared: a text, a truth value, or a number, which is the second of a moment or
the length of a span. Where a text is no value, the answer is None.
"""
import datetime
import functools
import re

LONGEST_TEXT = 4_096
LEAST_INTEGER, MOST_INTEGER = -2**63, 2**63 - 1
LONGEST_SPAN = 999_999_999_999
DAY = 86_400

INTEGER = re.compile("-?[0-9]{1,19}")
URI = re.compile("[!-~]{1,4096}")
MOMENT = re.compile("([0-9]{4})-([0-9]{2})-([0-9]{2})T([0-9]{2}):([0-9]{2}):([0-9]{2})Z")
SPAN = re.compile("P(?:([0-9]{1,12})D)?(T(?:([0-9]{1,12})H)?(?:([0-9]{1,12})M)?(?:([0-9]{1,12})S)?)?")

# The datatypes whose values are texts.
TEXTS = ["string", "text", "uri"]


def text_of(text):
    """A text has up to 4,096 bytes."""
    return text if len(text.encode()) <= LONGEST_TEXT else None


def uri_of(text):
    """A uri has 1 to 4,096 bytes that are printed."""
    return text if URI.fullmatch(text) else None


def boolean_of(text):
    """A truth value is written by one of two words."""
    return {"true": True, "false": False}.get(text)


def integer_of(text):
    """A number has 1 to 19 digits, perhaps a minus before them, and 64 bits."""
    if INTEGER.fullmatch(text) is None:
        return None
    return in_range(int(text), LEAST_INTEGER, MOST_INTEGER)


def moment_of(text):
    """A moment is 86,400 times the number of its day plus the second of the day."""
    match = MOMENT.fullmatch(text)
    if match is None:
        return None
    year, month, day, hour, minute, second = [int(digits) for digits in match.groups()]
    if hour > 23 or minute > 59 or second > 59:
        return None
    try:
        number = datetime.date(year, month, day).toordinal() - datetime.date(1970, 1, 1).toordinal()
    except ValueError:
        return None
    return DAY * number + 3_600 * hour + 60 * minute + second


def span_of(text):
    """A span has days, and behind a T hours, minutes and seconds: at least one of all, and one behind the T."""
    match = SPAN.fullmatch(text)
    if match is None or text == "P" or match[2] == "T":
        return None
    days, hours, minutes, seconds = [int(match[place] or 0) for place in (1, 3, 4, 5)]
    return in_range(DAY * days + 3_600 * hours + 60 * minutes + seconds, 0, LONGEST_SPAN)


FIRST_MOMENT = moment_of("0001-01-01T00:00:00Z")
LAST_MOMENT = moment_of("9999-12-31T23:59:59Z")
READERS = {"string": text_of, "text": text_of, "uri": uri_of, "boolean": boolean_of, "integer": integer_of,
           "datetime": moment_of, "duration": span_of}
# The least and the greatest value of the datatypes that have such.
RANGES = {"integer": (LEAST_INTEGER, MOST_INTEGER), "datetime": (FIRST_MOMENT, LAST_MOMENT),
          "duration": (0, LONGEST_SPAN)}


def in_range(number, least, most):
    """The number, or None where it is out of the range."""
    return number if least <= number <= most else None


@functools.lru_cache(maxsize=100_000)
def value_of(datatype, text):
    """The value that a text has as one of a datatype, or None."""
    return READERS[datatype](text)


# How values are printed.

def text_of_moment(number):
    """The text of a moment, by its number."""
    moment = datetime.datetime(1970, 1, 1) + datetime.timedelta(seconds=number)
    return f"{moment.year:04}-{moment:%m-%dT%H:%M:%S}Z"


def text_of_span(number):
    """Days, hours below 24, minutes and seconds below 60, parts that are zero left out; no time at all is PT0S."""
    parts = [number // DAY, number // 3_600 % 24, number // 60 % 60, number % 60]
    days, *times = [f"{part}{letter}" if part else "" for part, letter in zip(parts, "DHMS")]
    time = "".join(times)
    if not days and not time:
        return "PT0S"
    return f"P{days}T{time}" if time else f"P{days}"


def printed(datatype, value):
    """The text of a value, as it is shown."""
    if datatype == "boolean":
        return "true" if value else "false"
    if datatype == "integer":
        return str(value)
    if datatype == "datetime":
        return text_of_moment(value)
    return text_of_span(value) if datatype == "duration" else value


# What a property takes.

def is_value(datatype, value):
    """Whether a value of the same type is one of this datatype: of texts, not each is a uri."""
    return value_of(datatype, value) is not None if datatype in TEXTS else True


def meets(declared, value):
    """Whether a value of the property's type is one of its datatype and meets its restrictions."""
    datatype, limits = declared["datatype"], declared.get("restrictions", {})

    def limit(name):
        return value_of(datatype, limits[name])

    return (is_value(datatype, value)
            and ("minInclusive" not in limits or limit("minInclusive") <= value)
            and ("maxInclusive" not in limits or value <= limit("maxInclusive"))
            and ("minLength" not in limits or limits["minLength"] <= len(value))
            and ("maxLength" not in limits or len(value) <= limits["maxLength"])
            and ("enumeration" not in limits or value in [value_of(datatype, each) for each in limits["enumeration"]]))


def value_for(declared, text):
    """The value that a text has as one of a property, or None where it is none that the property takes."""
    value = value_of(declared["datatype"], text)
    return value if value is not None and meets(declared, value) else None


def first_value(declared):
    """The value with which a property begins, or None."""
    return value_of(declared["datatype"], declared["initial"]) if "initial" in declared else None
