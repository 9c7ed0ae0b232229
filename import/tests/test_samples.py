"""The samples in runs. `samples/NAME.replies` was written by hand, from docs/MEANING.md and docs/COMMANDS.md."""

from .support import SAMPLES, ImportCase, replies


class Run:
    """Lines of one run, a second apart."""

    def __init__(self, case, folder, unit, **people):
        self.case, self.folder, self.lines = case, folder, []
        self.say("create", unit)
        for person in people:
            self.say("enrol", person)
        for person, role in people.items():
            self.say("assign", person, role)
        self.say("start")

    def say(self, verb, *words, at=None):
        number = len(self.lines)
        self.lines.append([at or f"2024-01-01T00:{number // 60:02}:{number % 60:02}Z", verb, "r", *words])
        return self

    def last(self, verb, *words, at=None):
        """The reply block of a further line."""
        self.say(verb, *words, at=at)
        found = self.case.replay(self.folder, *self.lines).splitlines()
        first = max(number for number, line in enumerate(found) if line.startswith(("ok ", "no ")))
        return "\n".join(line.strip() for line in found[first:])


class Samples(ImportCase):
    def test_replies(self):
        self.needs_engine()
        names = sorted(path.stem for path in SAMPLES.glob("*.lines"))
        self.assertEqual(names, ["jigsaw", "notify", "personal", "theory"])
        for name in names:
            with self.subTest(name):
                folder = self.bring(SAMPLES / name).folder
                found = replies(folder, (SAMPLES / f"{name}.lines").read_bytes())
                self.assertEqual(found, (SAMPLES / f"{name}.replies").read_text())

    def test_personal_with_pages(self):
        self.needs_pages()
        folder = self.bring(SAMPLES / "personal", pages=True).folder
        run = Run(self, folder, "personal", ann="learner", tom="tutor")
        self.assertNotIn("activity practice", run.last("tree", "ann"))
        run.say("page-set", "ann", "choose-page.page", "style", "practice")
        self.assertIn("activity practice open", run.last("tree", "ann"))
        late = "2024-01-03T00:02:00Z"
        run.say("complete", "ann", "practice").say("open", "ann", "test").say("complete", "ann", "help", at=late)
        run.say("page-set", "ann", "test-page.page", "score", "100", at=late)
        self.assertIn("act act done", run.last("tree", "ann", at=late))

    def test_notify_with_support_for_each(self):
        self.needs_format_2()
        folder = self.bring(SAMPLES / "notify", format=2).folder
        unit = "Ubung-Bericht-17ff435e9c"
        run = Run(self, folder, unit, ann="student", bob="student", tom="teacher").say("complete", "ann", "write")
        self.assertIn('marking "A report was handed in"', run.last("outbox", "tom"))
        self.assertIn("for ann open", run.last("tree", "tom"))
        self.assertIn("for bob open", run.last("tree", "tom"))
