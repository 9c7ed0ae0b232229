"""The lines of an input and the command of each, after docs/COMMANDS.md."""
import json
import re

from values import URI, moment_of

LONGEST_LINE = 65_536

# The words of each verb, by what they name. An owner is the person of a global verb.
WORDS = {
    "create": ["run", "unit"],
    "enrol": ["run", "person"],
    "assign": ["run", "person", "role"],
    "drop": ["run", "person", "role"],
    "start": ["run"],
    "open": ["run", "person", "activity"],
    "complete": ["run", "person", "activity"],
    "set": ["run", "person", "property", "value"],
    "clear": ["run", "person", "property"],
    "get": ["run", "person", "property"],
    "tree": ["run", "person"],
    "outbox": ["run", "person"],
    "report": ["run"],
    "tick": ["run"],
    "next": ["run"],
    "global-set": ["uri", "owner", "value"],
    "global-get": ["uri", "owner"],
}

IDENTIFIER = re.compile("[A-Za-z_][A-Za-z0-9_.-]{0,63}")


def lines_of(data):
    """Lines end with a line feed; a last line without one counts."""
    lines = data.split(b"\n")
    return lines if lines[-1] else lines[:-1]


def is_over_long(line):
    """A line of more than 65,536 bytes, its line feed not counted, is a bad line, whatever it holds."""
    return len(line) > LONGEST_LINE


def is_passed_over(line):
    """A line of only spaces, tabs and carriage returns is passed over, if it is not over-long."""
    return not is_over_long(line) and line.strip(b" \t\r") == b""


def is_identifier(text):
    """An identifier has 1 to 64 characters of a few kinds and begins with a letter or `_`."""
    return IDENTIFIER.fullmatch(text) is not None


def has_form(name, text):
    """A URI has 1 to 4,096 printed bytes, a value is any text, an owner may be empty, and all else is an identifier."""
    if name == "uri":
        return URI.fullmatch(text) is not None
    if name == "value" or name == "owner" and text == "":
        return True
    return is_identifier(text)


def is_unicode(text):
    """Whether a text has no half of a pair of escapes, which Python's reader leaves and `serde_json` does not read."""
    return not any("\ud800" <= each <= "\udfff" for each in text)


def texts_of(line):
    """The texts of a line that is one JSON array of texts; None for any other line."""
    try:
        value = json.loads(line.decode("utf-8"))
    except (ValueError, RecursionError):
        return None
    if not isinstance(value, list) or not all(isinstance(element, str) for element in value):
        return None
    return value if all(is_unicode(text) for text in value) else None


def command_of(line):
    """A command line has a moment, a verb and as many words of the right forms as the verb has; None for a bad line."""
    texts = None if is_over_long(line) else texts_of(line)
    if texts is None or len(texts) < 2:
        return None
    moment, verb, words = moment_of(texts[0]), texts[1], texts[2:]
    if moment is None or verb not in WORDS or len(words) != len(WORDS[verb]):
        return None
    if not all(has_form(name, word) for name, word in zip(WORDS[verb], words)):
        return None
    return {"moment": moment, "verb": verb, **dict(zip(WORDS[verb], words))}
