"""Reads JSON as docs/FORMATS.md says, which is as `serde_json` reads it."""
import itertools
import json
import math
import re

DEEPEST = 127


def read_integer(digits):
    """A number without point and exponent. One that has a sign or more than 64 bits is no whole number here."""
    if digits.startswith("-") or len(digits) > 20 or int(digits) >= 2**64:
        return read_float(digits)
    return int(digits)


def read_float(digits):
    number = float(digits)
    if math.isinf(number):
        raise ValueError("a number that is out of range")
    return number


def refuse(word):
    raise ValueError(f"{word} is no JSON")


def depth(text):
    """How deep lists and objects stand in each other."""
    brackets = re.findall(r"[\[\]{}]", re.sub(r'"(?:[^"\\]|\\.)*"', "", text, flags=re.DOTALL))
    return max(itertools.accumulate(1 if each in "[{" else -1 for each in brackets))


def has_surrogate(value):
    if isinstance(value, str):
        return any("\ud800" <= each <= "\udfff" for each in value)
    if isinstance(value, list):
        return any(map(has_surrogate, value))
    if isinstance(value, dict):
        return any(has_surrogate(name) or has_surrogate(each) for name, each in value.items())
    return False


def read_json(data):
    """The document of these bytes; a ValueError where they can't be read."""
    text = data.decode("utf-8")
    if text.startswith("\ufeff"):
        raise ValueError("a mark of the order of bytes is no JSON")
    if (text.count("[") + text.count("{")) > DEEPEST and depth(text) > DEEPEST:
        raise ValueError("too deep")
    value = json.loads(text, parse_int=read_integer, parse_float=read_float, parse_constant=refuse)
    if "\\u" in text and has_surrogate(value):
        raise ValueError("a text that is no Unicode")
    return value
