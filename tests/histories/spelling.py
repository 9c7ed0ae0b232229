"""How a command is written as a line: as a JSON array, closely or oddly, and with spaces around it."""
import json

from commands import LONGEST_LINE
from names import happens


def spelled(draw, words):
    """A command as a JSON array, closely or with odd spacing and escapes."""
    if happens(draw, 0.7):
        line = json.dumps(words, ensure_ascii=happens(draw, 0.8), separators=(",", ":"))
        return line.encode("utf-8", "surrogatepass")
    texts = [text(draw, word) if happens(draw, 0.3) else json.dumps(word) for word in words]
    inner = ",".join(gap(draw) + each + gap(draw) for each in texts)
    return f"{gap(draw)}[{inner}]{gap(draw)}".encode("utf-8", "surrogatepass")


def gap(draw):
    """What may stand between the parts of JSON on one line."""
    return "".join(draw.choices(" \t\r", k=draw.choice([0, 0, 0, 1, 2, 5])))


def text(draw, word):
    """A JSON text of which some characters are escaped by their numbers, and all that JSON escapes are."""
    return '"' + "".join(character(draw, each) for each in word) + '"'


def character(draw, each):
    """A character of a JSON text, escaped by its number or by two, or as JSON has it."""
    if happens(draw, 0.5):
        return json.dumps(each, ensure_ascii=happens(draw, 0.5))[1:-1]
    pairs = each.encode("utf-16-be", "surrogatepass").hex()
    digits = [pairs[place:place + 4] for place in range(0, len(pairs), 4)]
    return "".join("\\u" + (four.upper() if happens(draw, 0.5) else four) for four in digits)


def padded(draw, line):
    """The line with spaces, up to the longest that a line may be or a little more."""
    length = LONGEST_LINE + draw.choice([0, 0, 1, 1, 2, 40_000])
    if len(line) >= length:
        return line
    before = draw.choice([0, 0, length - len(line), draw.randrange(length - len(line))])
    return (b" " * before + line).ljust(length)
