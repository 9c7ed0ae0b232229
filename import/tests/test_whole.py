import contextlib
import io
import json
import os
import shutil
from pathlib import Path
from unittest import mock

from ldimport import __main__ as program
from ldimport import engine
from ldimport.report import Entry

from .support import ACTS, HEAD, PARTS, PROPERTIES, SAMPLES, ImportCase

STATUSES = [
    ("theory", [], 0, "imported lost=0 changed=0 notes=1"),
    ("jigsaw", [], 0, "imported lost=0 changed=0 notes=1"),
    ("personal", [], 1, "imported lost=5 changed=4 notes=9"),
    ("notify", [], 1, "imported lost=1 changed=7 notes=6"),
]
STATUSES_OF_FORMAT_2 = [
    ("personal", ["--format", "2", "--pages"], 1, "imported lost=2 changed=3 notes=8"),
    ("notify", ["--format", "2"], 1, "imported lost=1 changed=5 notes=6"),
]


class Designs(ImportCase):
    def test_the_small_package_is_whole(self):
        done = self.bring()
        self.assertEqual(done.losses(), [])
        roles = [{"identifier": "learner", "kind": "learner"}, {"identifier": "tutor", "kind": "staff"}]
        self.assertEqual(done.document("roles"), {"roles": roles})
        activity = {"identifier": "read", "complete": {"user-choice": True}}
        self.assertEqual(done.document("activities"), {"activities": [activity]})
        self.assertIsNone(done.document("properties"))
        self.assertIsNone(done.document("conditions"))
        act = {"identifier": "a", "role-parts": [{"identifier": "rp", "role": "learner", "ref": "read"}]}
        unit = done.document("unit")
        self.assertEqual(unit["method"], {"plays": [{"identifier": "p", "acts": [act]}]})
        self.assertEqual((unit["format"], unit["identifier"], unit["level"]), (1, "u", "C"))

    def test_levels(self):
        self.assertEqual(self.bring(level="A").document("unit")["level"], "A")
        self.assertEqual(self.bring(level="c").document("unit")["level"], "C")
        self.assertEqual(self.bring(level="").document("unit")["level"], "A")
        done = self.bring(level="A", properties=PROPERTIES)
        self.assertEqual(done.document("unit")["level"], "B")
        self.assertEqual(done.losses(), [])

    def test_nothing_is_left_out_silently(self):
        done = self.bring(
            activities='<learning-activity identifier="read" colour="red"><shape/>words<title>T</title>'
            "<title>U</title></learning-activity>"
        )
        wanted = [
            "text stands where none is expected",
            "the attribute colour is not known here",
            "the element is not known here, or not at this place",
            "the element is not known here, or not at this place",
        ]
        self.assertEqual(sorted(entry.text for entry in done.entries if entry.code == "not-read"), wanted)

    def test_lines(self):
        roles = '<learner identifier="learner"/>\n\n<staff\n identifier="tutor" create-new="allowed"/>'
        self.assertEqual(self.bring(roles=roles).line("create-new"), 6)  # the components stand in line 4

    def test_several_designs(self):
        text = HEAD.format(**PARTS)
        design = text[text.index("<learning-design") : text.index("</organizations>")]
        both = text.replace("</organizations>", design.replace('"u"', '"v"') + "</organizations>")
        self.assertEqual(self.bring(both).refusal.code, "many-designs")
        self.assertEqual(self.bring(both, design="v").document("unit")["identifier"], "v")

    def test_limits(self):
        roles = "".join(f'<learner identifier="l{number}"/>' for number in range(61))
        self.assertEqual(self.bring(roles=roles).refusal.code, "too-many")

    def test_packages_that_are_none(self):
        empty = '<manifest xmlns="http://www.imsglobal.org/xsd/imscp_v1p1"/>'
        for text, code in (("<a/>", "no-manifest"), (empty, "no-design")):
            self.assertEqual(self.bring(text).refusal.code, code)

    def test_files_that_no_resource_lists(self):
        done = self.bring(files={"b.html": "x"})
        self.assertIn("unlisted-file", done.codes())
        self.assertFalse((done.folder / "content/b.html").exists())
        done = self.bring(files={"b.html": "x"}, all_files=True)
        self.assertNotIn("unlisted-file", done.codes())
        self.assertTrue((done.folder / "content/b.html").exists())


class Identifiers(ImportCase):
    def names(self, activities):
        done = self.bring(activities=activities)
        return [activity["identifier"] for activity in done.document("activities")["activities"]], done.losses()

    def test_they_are_renamed_everywhere(self):
        roles = '<learner identifier="Schüler"/><staff identifier="tutor"/>'
        done = self.bring(roles=roles, plays=ACTS.format("", "").replace('"learner"', '"Schüler"'))
        role = done.document("roles")["roles"][0]["identifier"]
        self.assertTrue(role.startswith("Schuler-"))
        part = done.document("unit")["method"]["plays"][0]["acts"][0]["role-parts"][0]
        self.assertEqual(part["role"], role)
        self.assertEqual(done.document("import")["renamed"], {"Schüler": role})
        self.assertEqual(done.losses(), [])

    def test_one_that_stands_twice(self):
        read = '<learning-activity identifier="read"/>'
        found = self.names(read + read + "<learning-activity/>")
        self.assertEqual(found, (["read", "read.2", "activity"], [("changed", "repeated-identifier")]))

    def test_a_made_one_leaves_given_ones_alone(self):
        found, _ = self.names(
            '<learning-activity/><learning-activity identifier="activity"/><learning-activity identifier="read"/>'
        )
        self.assertEqual(found, ["activity.2", "activity", "read"])

    def test_the_unit_s_may_be_given(self):
        self.assertEqual(self.bring(identifier="mine").document("unit")["identifier"], "mine")


class Judge(ImportCase):
    CYCLE = (
        '<learning-activity identifier="read"/><activity-structure identifier="s" structure-type="sequence">'
        '<activity-structure-ref ref="s"/></activity-structure>'
    )

    def test_the_engine_s_fault_is_told_at_its_element(self):
        self.needs_engine()
        done = self.bring(activities=self.CYCLE)
        (refused,) = [entry for entry in done.entries if entry.kind == "refused"]
        self.assertIn("activities.json /structures/0 cycle", refused.text)
        self.assertEqual((refused.identifier, refused.line), ("s", 4))

    def test_without_an_engine_nothing_is_judged(self):
        done = self.bring(activities=self.CYCLE, engine=None)
        self.assertIn("not-judged", done.codes())
        self.assertTrue(done.folder.exists())

    def test_which_engine_is_asked(self):
        with mock.patch.dict(os.environ, {"LD_ENGINE": "/its"}):
            self.assertEqual(engine.find_engine("/mine"), "/mine")
            self.assertEqual(engine.find_engine(None), "/its")
        with mock.patch.dict(os.environ):
            os.environ.pop("LD_ENGINE", None)
            with mock.patch.object(engine, "OWN_PROGRAM", Path("/bin/true")):
                self.assertEqual(engine.find_engine(None), "/bin/true")
            with mock.patch.object(engine, "OWN_PROGRAM", Path("/none")):
                self.assertIsNone(engine.find_engine(None))

    def test_a_program_that_is_no_engine(self):
        with self.assertRaises(OSError):
            self.bring(engine="/bin/false")
        self.assertEqual(list(self.place.glob("*course*")), [])


class Statuses(ImportCase):
    def call(self, *words):
        """The status, and what is written on standard output and standard error."""
        out, err = io.StringIO(), io.StringIO()
        with contextlib.redirect_stdout(out), contextlib.redirect_stderr(err):
            try:
                status = program.main([str(word) for word in words])
            except SystemExit as stopped:
                status = stopped.code
        return status, out.getvalue(), err.getvalue()

    def expect(self, rows):
        for number, (sample, words, status, summary) in enumerate(rows):
            folder = self.place / str(number)
            found, out, err = self.call(SAMPLES / sample, folder, *words)
            self.assertEqual((found, out.splitlines()[-1], err), (status, summary, ""))
            self.assertTrue(folder.exists())

    def test_of_the_samples(self):
        self.needs_engine()
        self.expect(STATUSES)

    def test_of_the_samples_in_format_2(self):
        self.needs_format_2()
        self.expect(STATUSES_OF_FORMAT_2)

    def test_refusals(self):
        self.needs_engine()
        status, out, _ = self.call(self.package(activities=Judge.CYCLE), self.place / "course")
        self.assertEqual((status, out.splitlines()[-1].split()[0]), (3, "refused"))
        self.assertEqual(self.call(self.place / "none", self.place / "course")[0], 3)
        self.assertEqual(list(self.place.glob("*course*")), [])

    def test_reports_as_json(self):
        """All that is told is in the file, too: of an import, of a refusal by the engine and of one before it."""
        self.needs_engine()
        file = self.place / "report.json"
        for package, kinds in [
            (SAMPLES / "notify", {"lost", "changed", "note"}),
            (self.package(activities=Judge.CYCLE), {"refused"}),
            (self.place / "none", {"refused"}),
        ]:
            _, out, _ = self.call(package, self.place / f"of-{package.name}", "--report", file)
            told = json.loads(file.read_text())
            lines = [str(Entry(**entry)) for entry in told]
            self.assertEqual(lines, [line for line in out.splitlines() if " lost=" not in line])
            self.assertEqual({entry["kind"] for entry in told}, kinds)

    def test_wrong_words(self):
        self.assertEqual(self.call("x")[0], 2)

    def test_faults_of_the_outside(self):
        status, _, err = self.call(SAMPLES / "theory", self.place / "course", "--engine", "/no/engine")
        self.assertEqual(status, 4)
        self.assertIn("/no/engine", err)
        self.assertEqual(list(self.place.glob("*course*")), [])
        self.assertEqual(list(self.place.glob(".ldimport*")), [])

    def test_faults_of_the_tool(self):
        with mock.patch.object(program, "convert", side_effect=ZeroDivisionError):
            status, _, err = self.call(SAMPLES / "theory", self.place / "course")
        self.assertEqual(status, 4)
        self.assertIn("ZeroDivisionError", err)

    def test_what_nothing_judged(self):
        with mock.patch.object(program, "find_engine", return_value=None):
            status, out, _ = self.call(SAMPLES / "theory", self.place / "course")
        self.assertEqual(status, 5)
        self.assertIn("not-judged", out)

    def test_an_archive_gives_what_a_folder_gives(self):
        path = shutil.make_archive(str(self.place / "theory"), "zip", SAMPLES / "theory")
        one, two = self.place / "one", self.place / "two"
        self.call(path, one)
        self.call(SAMPLES / "theory", two)
        files = {path.relative_to(one) for path in one.rglob("*") if path.is_file()}
        self.assertEqual(len(files), 14)
        for name in files - {Path("import.json")}:
            self.assertEqual((one / name).read_bytes(), (two / name).read_bytes())
