"""Lines that are no commands, and words that no command has."""
import json

# Words that are no identifiers, or no verbs.
WORDS = [
    "", "1a", "-a", ".a", "a b", " a", "a ", "a\n", "a\0", "é", "aé", "ａ", "٣", "a٣", "a/b", "a:b", "a*",
    "a" * 65, "\ud800", "\x7f", "a\u200b", "9", "😀",
]
VERBS = ["finish", "Create", "START", "tree ", " tree", "creat", "enroll", "complete\n", "ok", "ｔree"]

# Moments that there are not.
MOMENTS = [
    "", "now", "0", "2024-01-01", "2024-01-01T09:00:00", "2024-01-01T09:00Z", "0000-01-01T00:00:00Z",
    "2023-02-29T00:00:00Z", "1900-02-29T00:00:00Z", "2100-02-29T00:00:00Z", "2024-02-30T00:00:00Z",
    "2024-04-31T00:00:00Z", "2024-13-01T00:00:00Z", "2024-00-01T00:00:00Z", "2024-01-00T00:00:00Z",
    "2024-01-32T00:00:00Z", "2024-01-01T24:00:00Z", "2024-01-01T00:60:00Z", "2024-01-01T23:59:60Z",
    "10000-01-01T00:00:00Z", "-2024-01-01T00:00:00Z", "+2024-01-01T00:00:00Z", "24-01-01T00:00:00Z",
    "2024-1-1T00:00:00Z", "2024-01-01T9:00:00Z", "2024/01/01T00:00:00Z", "2024-01-01T00.00.00Z",
]


def bad_moment(draw, moment):
    """No moment: one that does not exist, or a moment in another writing."""
    return draw.choice(MOMENTS + [
        moment.lower(), moment[:-1], moment + "Z", moment[:-1] + ".0Z", moment[:-1] + "+00:00", moment + "\n",
        " " + moment, moment + " ", moment.replace("T", " "), moment.replace("0", "０", 1), moment[1:],
    ])


def bad_word(draw, verb):
    """No identifier and no verb, or an identifier in a place where it makes no sense."""
    return draw.choice(WORDS + VERBS + [verb, verb.upper()])


def blank(draw):
    """Some spaces, tabs and carriage returns, or none; seldom other characters that look like space."""
    line = "".join(draw.choices(" \t\r", k=draw.choice([0, 0, 1, 2, 9])))
    return (line + draw.choice(["", "", "", "", "\x0b", "\x0c", "\0", "\u00a0", "\u2003", "\ufeff"])).encode()


def junk(draw):
    """Any bytes, in which a line feed ends a line more."""
    return bytes(draw.randrange(256) for _ in range(draw.choice([1, 2, 3, 10, 100])))


def not_texts(draw, words):
    """JSON that is no array of texts."""
    place = draw.randrange(len(words))
    other = draw.choice([None, True, 0, 1.5, [], {}, [words[place]], {"a": words[place]}])
    swapped = words[:place] + [other] + words[place + 1:]
    forms = [swapped, swapped, swapped, [words], {"command": words}, " ".join(words), [], [words[0]], other]
    return json.dumps(draw.choice(forms)).encode()


def inserted(draw, line, piece):
    """The line with a piece anywhere in it."""
    place = draw.randrange(len(line) + 1)
    return line[:place] + piece + line[place:]


def broken(draw, line):
    """A line with something that most likely makes it no JSON, or no UTF-8."""
    place = draw.randrange(len(line))
    pieces = [
        b"\xff", b"\xc0\xaf", b"\xed\xa0\x80", b"\x80", b"\xf4\x90\x80\x80", b"\xc3", b"\x00", b"\x01", b"\x7f",
        b",", b'"', b"\\", b"\\x41", b"\\u12", b"\\ud800", b"[", b"]", b"{", b"//", b"\xc2\xa0", b"\x0b",
        b"\xef\xbb\xbf", b"null", b"1e999", b"\n", b"\t", b"\r",
    ]
    forms = [
        line[:place], line[place:], line[:place] + line[place + 1:], line.replace(b'"', b"'"), line.replace(b'"', b""),
        line + line, line + b",", line + b" x", b"\xef\xbb\xbf" + line, line.strip()[:-1] + b",]", b"[" * 300 + line,
        line.decode("utf-8", "replace").encode("utf-16"), line.replace(b",", b";"), b"#" + line,
    ]
    return draw.choice(forms + [inserted(draw, line, piece) for piece in pieces])
