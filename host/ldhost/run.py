"""What the host knows of a run. All of it follows from the lines that were kept."""

from dataclasses import dataclass, field

from .course import Course


@dataclass(frozen=True)
class Alarm:
    """The answer to `next`."""

    moment: str | None
    kept: int
    """How many lines the shard kept when it was asked."""


@dataclass
class Run:
    name: str
    course: Course
    last: str
    """The last moment: that of a line, or of a tick that changed nothing and so was not kept."""
    persons: dict[str, list[str]] = field(default_factory=dict)
    """Each person with the roles that the person holds."""
    started: bool = False
    opened: dict[tuple[str, str], str] = field(default_factory=dict)
    """When a person opened an activity for the first time."""
    alarm: Alarm | None = None

    def kinds_held(self, person: str) -> set[str]:
        return {self.course.roles[role]["kind"] for role in self.persons.get(person, ())}

    def is_staff(self, person: str) -> bool:
        return "staff" in self.kinds_held(person)

    def note(self, moment: str, verb: str, words: list[str]) -> None:
        """Takes in a line of this run that was answered `ok`."""
        self.last = max(self.last, moment)
        if verb == "enrol":
            self.persons[words[0]] = []
        elif verb == "assign":
            self.persons[words[0]].append(words[1])
        elif verb == "drop":
            self.persons[words[0]].remove(words[1])
        elif verb == "open":
            self.opened.setdefault((words[0], words[1]), moment)
        elif verb == "start":
            self.started = True
