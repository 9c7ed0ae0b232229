"""Random histories: lines of which most make sense and many do not, written with an eye on what the model makes."""
from causes import MOST_PERSONS
from choices import Wish, weights_of
from commands import WORDS, lines_of
from interests import Interest
from model import World
from moments import WAITS, in_time, moment_for
from names import happens
from odd import bad_moment, bad_word, blank, broken, junk, not_texts
from spelling import padded, spelled
from unit import Unit
from values import text_of_moment
from words import Author

# A crowd has more persons than a run, since some of it are refused, and others come to a full run.
CROWD = 215
MOST_OVER_BUDGET = 20

# The verbs of commands of which something may be amiss, by their weights.
AMISS = {"create": 3, "enrol": 4, "assign": 6, "drop": 6, "start": 2, "open": 5, "complete": 6, "set": 6, "clear": 3,
         "get": 2, "tree": 2, "outbox": 2, "report": 1, "tick": 1, "next": 1, "global-set": 2, "global-get": 1}


class History:
    """A history that grows line by line, with the world as the model has it after them."""

    def __init__(self, draw, folders, era, is_crowd):
        self.draw = draw
        self.era = era
        self.is_crowd = is_crowd
        self.world = World({documents["unit.json"]["identifier"]: Unit(documents) for documents in folders})
        self.interests = {documents["unit.json"]["identifier"]: Interest(documents) for documents in folders}
        self.author = Author(draw, self.world, era, CROWD if is_crowd else draw.choice([1, 2, 2, 3, 3, 4, 5, 6, 9]))
        self.wishes = self.author.wishes
        self.wanted = 1 if is_crowd else draw.choice([1, 1, 1, 2, 2, 3])
        self.current = None
        self.over_budget = 0
        self.data, self.blocks = b"", []

    # Commands.

    def is_alive(self, name):
        """Whether something may still happen in a run: its unit is not done, and its budget does not refuse all."""
        run = self.world.runs[name]
        return self.wishes[name].stuck < 4 and not run.is_done(run.unit.identifier)

    def some_run(self):
        """The name of a run, mostly one in which something may still happen; or None."""
        alive = [name for name in self.wishes if self.is_alive(name)]
        names = alive if happens(self.draw, 0.85) else list(self.wishes)
        self.current = self.draw.choice(names) if names else None
        return self.current

    def verb(self, name):
        """A verb, by weights that follow from the run."""
        if name is None:
            return "create" if happens(self.draw, 0.9) else self.draw.choice(list(WORDS))
        alive = sum(self.is_alive(each) for each in self.wishes)
        shared = 0.7 if self.author.globals else 0.1
        weights = {"create": 4 if alive < self.wanted else 0.15, "global-set": shared, "global-get": shared,
                   **weights_of(self.draw, self.world.runs[name], self.wishes[name])}
        return self.draw.choices(list(weights), list(weights.values()))[0]

    def moment(self, name):
        """A moment for a line of this run, or for one of none."""
        if name is None:
            return in_time(self.era + self.draw.choice(WAITS))
        return moment_for(self.draw, self.world.runs[name], self.wishes[name].interest.moments)

    def command(self, moment, verb, name, chance):
        """A moment and the words of a command, each of which is a wrong one by this chance."""
        right = self.author.right(verb, name)
        words = [self.author.wrong(word, verb, name) if word not in right or happens(self.draw, chance) else right[word]
                 for word in WORDS[verb]]
        return [text_of_moment(moment), verb, *words]

    def sensible(self):
        """A command that makes sense, seldom with another word."""
        name = self.some_run()
        verb = self.verb(name)
        moment = self.moment(None if verb == "create" and happens(self.draw, 0.7) else name)
        return self.command(moment, verb, name, 0.02)

    def amiss(self):
        """A command of which nothing, one thing or several are amiss, so that causes of refusal come together."""
        name = self.some_run()
        verb = self.draw.choices(list(AMISS), list(AMISS.values()))[0]
        moment = self.moment(name) if name is None or happens(self.draw, 0.5) else self.world.runs[name].now
        return self.command(in_time(moment - self.draw.choice([0] * 7 + [1])), verb, name, 0.3)

    # Lines.

    def line(self):
        """A line without its line feed: mostly a command that makes sense."""
        odd, amiss = (0.03, 0.03) if self.is_filling() else (0.06, 0.15)
        if happens(self.draw, odd):
            return self.odd_line()
        line = spelled(self.draw, self.amiss() if happens(self.draw, amiss) else self.sensible())
        return padded(self.draw, line) if happens(self.draw, 0.008) else line

    def is_filling(self):
        """Whether a crowd is being enrolled."""
        return self.is_crowd and all(len(run.persons) < MOST_PERSONS for run in self.world.runs.values())

    def odd_line(self):
        """A line that is blank or no command, made out of one that is."""
        words = self.sensible()
        kind = self.draw.randrange(10)
        if kind < 2:
            return blank(self.draw)
        if kind == 2:
            return padded(self.draw, b"") if happens(self.draw, 0.3) else junk(self.draw)
        if kind == 3:
            return not_texts(self.draw, words)
        if kind < 6:
            return broken(self.draw, spelled(self.draw, words))
        if kind == 6:
            words[0] = bad_moment(self.draw, words[0])
        elif kind == 7:
            self.misplace(words)
        else:
            words[self.draw.randrange(1, len(words))] = bad_word(self.draw, words[1])
        return spelled(self.draw, words)

    def misplace(self, words):
        """Takes a word away, or adds one, or exchanges two."""
        place = self.draw.randrange(len(words))
        way = self.draw.randrange(3)
        if way == 0:
            del words[place]
        elif way == 1:
            words.insert(place, self.draw.choice(words))
        else:
            words[place], words[-1] = words[-1], words[place]

    def take(self, line):
        """The world takes a line, which may have several in it, and the author sees what became of it."""
        self.data += line
        for each in lines_of(line):
            self.blocks.append(self.world.block(each))
        for name, run in self.world.runs.items():
            if name not in self.wishes:
                interest, pool = self.interests[run.unit.identifier], self.author.pool
                wanted = MOST_PERSONS if self.is_crowd and not self.wishes else self.draw.randint(1, min(9, len(pool)))
                self.wishes[name] = Wish(self.draw, interest, pool, wanted)
        if self.current is not None:
            wish = self.wishes[self.current]
            is_over = self.blocks[-1].startswith("no 30")
            wish.stuck = wish.stuck + 1 if is_over else 0
            self.over_budget += is_over

    def grow(self, count):
        """The history grows by so many lines, or by less where budgets refused many, over which the model takes long.

        The line feed of the last line may be missing.
        """
        return_chance = self.draw.choice([0, 0, 0, 0.1, 1])
        for _ in range(count):
            if self.over_budget >= MOST_OVER_BUDGET:
                break
            self.take(self.line() + (b"\r\n" if happens(self.draw, return_chance) else b"\n"))
        if happens(self.draw, 0.3):
            self.data = self.data[:-1]
        return self
