"""What was covered: how many replies of each kind, and what they tell."""
import collections

STATES = ["open", "done", "closed", "waiting"]

# What the histories of a whole run have to cover: of each group the least number of each kind, about a third of what
# the seeds give.
LEAST = [
    ("units of level", 50, ["A", "B", "C"]),
    ("done", 150, ["assign", "clear", "complete", "create", "drop", "enrol", "get", "global-get", "global-set", "next",
                   "open", "outbox", "report", "set", "start", "tick", "tree"]),
    ("refused", 30, ["1 bad-line", "2 unknown-unit", "3 run-exists", "4 unknown-run", "5 moment-back", "6 not-started",
                     "7 started-already", "8 unknown-person", "9 person-exists", "11 unknown-role", "12 holds-already",
                     "13 not-held", "14 role-full", "15 role-exclusive", "16 role-short", "17 unknown-activity",
                     "18 not-by-choice", "19 unknown-property", "20 unknown-global", "21 bad-value", "22 not-allowed",
                     "30 turn-budget", "31 not-open"]),
    ("refused", 1, ["10 run-full", "folder absent", "folder repeated-unit"]),
    ("sums", 500, ["fired", "rejected", "sent", "turns"]),
    ("most at once", 40, ["fired", "rejected", "sent", "turns"]),
    ("values", 300, ["none", "shown"]),
    ("alarms", 100, ["none", "told"]),
    ("lines of outbox", 300, ["notice"]),
    ("lines of report", 25, ["started", "role", "play open", "play done", "act open", "act done", "act waiting",
                             "part open", "part done", "part waiting", "unit open", "unit done", "notices"]),
    ("lines of tree", 10, ["unit open", "unit done", "play open", "play done", "act open", "act done", "part open",
                           "part done", "activity open", "activity done", "activity closed", "support open",
                           "support done", "support closed", "structure open", "structure done", "structure closed",
                           "environment", "object", "service", "item"]),
    ("firings of", 250, ["activity", "structure", "opening", "part", "act", "play", "unit", "condition yes", "condition no"]),
    ("lines without a reply", 50, ["passed over"]),
]


class Counts:
    """Counts of what is in the replies of all histories so far, group by group."""

    def __init__(self):
        self.groups = collections.defaultdict(collections.Counter)

    def add(self, folders, blocks, firings):
        """Counts the units of a history, its reply blocks, and what fired in it."""
        for documents in folders:
            self.groups["units of level"][documents["unit.json"]["level"]] += 1
        for block in blocks:
            self.add_block(block.split("\n")[:-1])
        self.groups["firings of"].update(firings)

    def add_block(self, lines):
        """Counts a reply by its first line, and the lines below it."""
        words = lines[0].split(" ") if lines else []
        if not words:
            self.groups["lines without a reply"]["passed over"] += 1
        elif words[0] == "no":
            self.groups["refused"][" ".join(words[1:3])] += 1
        elif words[0] == "refused":
            self.groups["refused"][f"folder {words[-1]}"] += 1
        else:
            self.add_done(words, lines[1:])

    def add_done(self, words, lines):
        """Counts a reply to a command that is done."""
        self.groups["done"][words[1]] += 1
        for word in words[2:]:
            name, _, number = word.partition("=")
            if name in ("turns", "fired", "rejected", "sent"):
                self.groups["sums"][name] += int(number)
                self.groups["most at once"][name] = max(self.groups["most at once"][name], int(number))
        if words[1] in ("get", "global-get"):
            self.groups["values"]["none" if words[-1].endswith("none") else "shown"] += 1
        if words[1] == "next":
            self.groups["alarms"]["none" if words[-1] == "at=none" else "told"] += 1
        for line in lines:
            self.groups[f"lines of {words[1]}"].update([kind_of(line)])

    def lacking(self):
        """What is covered less often than LEAST asks, a line for each kind."""
        for group, least, kinds in LEAST:
            for kind in kinds:
                if self.groups[group][kind] < least:
                    yield f"{group}: {kind} {self.groups[group][kind]} times, at least {least} are wanted"

    def told(self):
        """One line for each group."""
        for group, counts in self.groups.items():
            yield f"{group}: " + ", ".join(f"{kind} {number}" for kind, number in sorted(counts.items()))


def kind_of(line):
    """The word of a line of a tree, an outbox or a report, and the state if it has one."""
    words = line.split()
    state = words[2] if len(words) > 2 and words[0] not in ("item", "service") else None
    return f"{words[0]} {state}" if state in STATES else words[0]
