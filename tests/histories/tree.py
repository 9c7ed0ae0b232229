"""The tree of a person, after docs/FORMATS.md, "The tree", and what is open in it."""
from unit import feedback_of

ESCAPES = {'"': '\\"', "\\": "\\\\", "\b": "\\b", "\f": "\\f", "\n": "\\n", "\r": "\\r", "\t": "\\t"}


def said_of(is_done):
    """A thing that is done or open."""
    return "done" if is_done else "open"


class Tree:
    """The lines of a person's tree: each a depth, a word, a thing and its state or address, or None."""

    def __init__(self, run, person):
        self.run = run
        self.unit = run.unit
        self.person = person
        self.lines = []
        self.show_unit()

    def line(self, depth, word, thing, state=None):
        """Adds a line."""
        self.lines.append((depth, word, thing, state))

    def is_hidden(self, thing):
        """Whether the thing is hidden for the person."""
        return not self.run.is_visible(thing, self.person)

    def show_unit(self):
        """The unit, the items of its feedback if it is done, and its plays."""
        is_done = self.run.is_done(self.unit.identifier)
        self.line(0, "unit", self.unit.document, said_of(is_done))
        if is_done:
            self.show_items(1, feedback_of(self.unit.method))
        for play in self.unit.plays:
            if not self.is_hidden(play):
                self.show_play(play, is_done)

    def show_play(self, play, is_unit_done):
        """A play, its feedback if it is done, its acts that are done, and the first that is not, if it is open."""
        is_done = self.run.is_done(play["identifier"])
        self.line(1, "play", play, said_of(is_done))
        if is_done:
            self.show_items(2, feedback_of(play))
        done = [act for act in play["acts"] if self.run.is_done(act["identifier"])]
        for act in done:
            self.line(2, "act", act, "done")
            self.show_items(3, feedback_of(act))
        undone = [act for act in play["acts"] if act not in done]
        if undone and self.run.is_opened(undone[0]["identifier"]) and not is_done and not is_unit_done:
            self.show_act(undone[0])

    def show_act(self, act):
        """The act that is open, and below it the role-parts of the person."""
        self.line(2, "act", act, "open")
        for part in act["role-parts"]:
            if self.run.is_member(self.person, part["role"]):
                self.line(3, "part", part, said_of(self.run.is_done(part["identifier"])))
                if part["ref"] in self.unit.environment:
                    self.show_environment(4, part["ref"])
                else:
                    self.show_activity_or_structure(4, part["ref"], True)

    def state(self, name, is_open):
        """Done where the person has done it, or else open or closed by its flag."""
        if self.run.is_done(name, self.person):
            return "done"
        return "open" if is_open else "closed"

    def show_activity_or_structure(self, depth, name, is_open):
        """What is hidden is left out, with all that stands below it."""
        thing = self.unit.activity.get(name) or self.unit.structure[name]
        if self.is_hidden(thing):
            return
        if name in self.unit.activity:
            self.show_activity(depth, thing, self.state(name, is_open))
        else:
            self.show_structure(depth, thing, is_open)

    def show_activity(self, depth, activity, state):
        """An activity and, unless it is closed, its environments, its items and, if it is done, its feedback."""
        self.line(depth, "support" if activity.get("kind") == "support" else "activity", activity, state)
        if state != "closed":
            self.show_environments(depth + 1, activity)
            self.show_items(depth + 1, activity.get("items", []))
        if state == "done":
            self.show_items(depth + 1, feedback_of(activity))

    def show_structure(self, depth, structure, is_open):
        """A structure and, unless it is closed, its environments and its children, each with a flag."""
        state = self.state(structure["identifier"], is_open)
        self.line(depth, "structure", structure, state)
        if state == "closed":
            return
        self.show_environments(depth + 1, structure)
        for child in structure["children"]:
            self.show_activity_or_structure(depth + 1, child, is_open)
            if structure["kind"] == "sequence":
                is_open = is_open and self.is_passed(child)

    def is_passed(self, name):
        """Whether a child of a sequence is hidden or done."""
        thing = self.unit.activity.get(name) or self.unit.structure[name]
        return self.is_hidden(thing) or self.run.is_done(name, self.person)

    def show_environments(self, depth, thing):
        """The environments to which a thing refers."""
        for name in thing.get("environments", []):
            self.show_environment(depth, name)

    def show_environment(self, depth, name):
        """An environment, its learning objects, its services, and the environments to which it refers."""
        environment = self.unit.environment[name]
        if self.is_hidden(environment):
            return
        self.line(depth, "environment", environment)
        for each in environment.get("learning-objects", []):
            if not self.is_hidden(each):
                self.line(depth + 1, "object", each)
                self.show_items(depth + 2, each.get("items", []))
        for each in environment.get("services", []):
            if not self.is_hidden(each):
                self.line(depth + 1, "service", each, each["kind"])
        self.show_environments(depth + 1, environment)

    def show_items(self, depth, items):
        """The items that the person sees."""
        for item in items:
            if not self.is_hidden(item):
                self.line(depth, "item", item, item["href"])


def open_activities(run, person):
    """The activities that a line of the person's tree shows as open."""
    return [thing["identifier"] for _, word, thing, state in Tree(run, person).lines
            if word in ("activity", "support") and state == "open"]


def json_text(text):
    """A JSON text escapes the quotation mark, the backslash and the characters below the space, and no others."""
    escaped = [ESCAPES.get(each, f"\\u{ord(each):04x}" if each < " " else each) for each in text]
    return '"' + "".join(escaped) + '"'


def printed_line(line):
    """A line of the tree is two spaces per depth, its words, and a title as a JSON text where there is one."""
    depth, word, thing, state = line
    words = [word, thing["identifier"]] + ([] if state is None else [state])
    if "title" in thing:
        words.append(json_text(thing["title"]))
    return "  " * depth + " ".join(words)


def tree_of(run, person):
    """The printed lines of a person's tree."""
    return [printed_line(line) for line in Tree(run, person).lines]
