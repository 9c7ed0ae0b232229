"""Random identifiers, titles and addresses, and objects that have them."""
import string

from commands import is_identifier

FIRST = string.ascii_letters + "_"
REST = FIRST + string.digits + "-."
LONGEST_NAME = 64
LONGEST_TITLE = 256
ADDRESS = [chr(number) for number in range(0x21, 0x7F)]
# Every character that JSON escapes, some that it does not, and characters of one to four bytes.
TITLE = [chr(number) for number in range(0x20)] + list('"\\/\'<&{}[],: Aaz09~\x7f\x80éß€\u2028\ufeff\ufffd漢😀')


def happens(draw, chance):
    """Whether something of this chance happens."""
    return draw.random() < chance


def plain_name(draw):
    """An identifier of a few characters, now and then the longest."""
    length = draw.choice([1, 1, 2, 3, 5, 8, 13, LONGEST_NAME]) - 1
    return draw.choice(FIRST) + "".join(draw.choices(REST, k=length))


def neighbour(draw, name):
    """An identifier that is nearly the given one: longer, shorter or in another case."""
    return draw.choice([name + draw.choice(REST), name[:-1], name.swapcase(), name[:-1] + draw.choice(REST)])


def new_name(draw, used):
    """An identifier that is not among the used ones, which are a list."""
    while True:
        near = used and happens(draw, 0.3)
        name = neighbour(draw, draw.choice(used)) if near else plain_name(draw)
        if is_identifier(name) and name not in used:
            return name


class Names:
    """The identifiers of one unit so far, and those of the units before it, which it may have, too."""

    def __init__(self, draw, before):
        self.draw = draw
        self.before = before
        self.used = {}

    def new(self):
        """An identifier that this unit has not yet: any, nearly one that it has, or one of another unit."""
        while True:
            name = self.some()
            if is_identifier(name) and name not in self.used:
                self.used[name] = True
                return name

    def some(self):
        """A text that may be such an identifier."""
        if self.before and happens(self.draw, 0.5):
            return self.draw.choice(self.before)
        if self.used and happens(self.draw, 0.3):
            return neighbour(self.draw, next(reversed(self.used)))
        return plain_name(self.draw)

    def new_unit(self, units):
        """An identifier for this unit itself, which none of those units has."""
        while True:
            name = self.new()
            if name not in units:
                return name


def title(draw):
    """A title of 1 to 256 bytes, some of the greatest length."""
    text = "".join(draw.choices(TITLE, k=draw.choice([1, 2, 6, 20, LONGEST_TITLE])))
    while len(text.encode()) > LONGEST_TITLE:
        text = text[:-1]
    return text


def address(draw):
    """An address of 1 to 1,024 bytes that are printed."""
    return "".join(draw.choices(ADDRESS, k=draw.choice([1, 4, 12, 12, 40, 1_024])))


def shuffled(draw, value):
    """The value with the members of all its objects in another order."""
    if isinstance(value, dict):
        names = list(value)
        draw.shuffle(names)
        return {name: shuffled(draw, value[name]) for name in names}
    return [shuffled(draw, each) for each in value] if isinstance(value, list) else value
