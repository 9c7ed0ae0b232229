"""What an export tells, and its statuses."""

import contextlib
import io
import json
import os
import re
import zipfile
from unittest import mock

from ldexport import __main__ as program
from ldexport.convert import convert
from ldimport.report import Refused

from .support import NOTICE, PROPERTIES, WITH_ITEM, ImportCase, compare, condition


class Losses(ImportCase):
    def course(self, **parts):
        return self.bring(**parts).folder

    def edit(self, folder, name, change):
        path = folder / f"{name}.json"
        document = json.loads(path.read_text())
        change(document)
        path.write_text(json.dumps(document))

    def codes(self, folder, name="package"):
        report = convert(folder, self.place / name)
        return [(entry.kind, entry.code) for entry in report.entries]

    def test_what_a_package_does_not_say(self):
        folder = self.course()
        self.edit(folder, "unit", lambda unit: unit.update(turns=9, metadata="mine"))
        self.assertEqual(self.codes(folder), [("lost", "metadata"), ("changed", "turns")])

    def test_where_an_import_came_from_is_said_again(self):
        folder = self.course()
        self.edit(
            folder, "unit", lambda unit: unit.update(metadata='{"from": "imsld", "uri": "urn:x", "package": "P"}')
        )
        self.assertEqual(self.codes(folder), [])
        written = (self.place / "package/imsmanifest.xml").read_text()
        self.assertIn('uri="urn:x"', written)
        self.assertIn('identifier="P"', written)

    def test_texts_that_are_read_otherwise(self):
        for title in (" x", "x  y", "x\ty", "x\x01y"):
            folder = self.course()
            self.edit(folder, "unit", lambda unit: unit.update(title=title))
            self.assertEqual(self.codes(folder, title.encode().hex()), [("changed", "text")])

    def test_a_condition_that_is_done_for_each_person(self):
        folder = self.course(properties=PROPERTIES, after=condition(compare("is", "@own", "1"), NOTICE))
        self.assertEqual(self.codes(folder, "one"), [])
        test = {"is": [{"property": "n"}, {"integer": "1"}]}
        self.edit(folder, "conditions", lambda found: found["conditions"][0].update({"if": test}))
        self.assertEqual(self.codes(folder, "two"), [("changed", "each-person")])

    def test_addresses_that_lead_to_no_file(self):
        folder = self.course()
        item = {"identifier": "i", "href": "content/none.html"}
        self.edit(folder, "unit", lambda unit: unit.update({"prerequisites": [item]}))
        self.assertEqual(self.codes(folder), [("lost", "item")])

    def test_files_that_no_package_can_have(self):
        folder = self.course()
        for name in ("imsmanifest.xml", "A.html", "a?.html", "b.html"):
            (folder / "content" / name).write_text("x")
        self.assertEqual(self.codes(folder), [("lost", "file")] * 3)
        names = sorted(path.name for path in (self.place / "package").iterdir())
        self.assertEqual(names, ["A.html", "b.html", "imsmanifest.xml"])

    def test_identifiers_of_the_package_differ(self):
        folder = self.course(activities=WITH_ITEM)
        self.edit(
            folder, "activities", lambda found: found["activities"][0]["items"][0].update(identifier="resource-1")
        )
        self.assertEqual(self.codes(folder), [])
        written = (self.place / "package/imsmanifest.xml").read_text()
        found = re.findall(' identifier="([^"]*)"', written)
        self.assertEqual(len(found), len(set(found)))
        self.assertIn("resource-1_", found)

    def test_links_are_refused(self):
        folder = self.course()
        os.symlink("/etc/passwd", folder / "content/b.html")
        with self.assertRaises(Refused):
            self.codes(folder)

    def test_a_folder_that_is_no_course(self):
        for name in ("roles", "activities", "unit"):
            folder = self.course()
            self.edit(folder, name, lambda document: document.clear())
            with self.assertRaises(Refused):
                self.codes(folder)
        self.assertEqual(list(self.place.glob("*.ldexport*")), [])

    def test_the_same_course_gives_the_same_archive(self):
        folder = self.course()
        one, two = self.place / "one.zip", self.place / "two.zip"
        convert(folder, one)
        convert(folder, two)
        self.assertEqual(one.read_bytes(), two.read_bytes())
        self.assertEqual(zipfile.ZipFile(one).namelist(), ["imsmanifest.xml", "a.html"])


class Statuses(ImportCase):
    def call(self, *words):
        out = io.StringIO()
        with contextlib.redirect_stdout(out), contextlib.redirect_stderr(out):
            try:
                status = program.main([str(word) for word in words])
            except SystemExit as stopped:
                status = stopped.code
        return status, out.getvalue()

    def test_statuses(self):
        self.needs_engine()
        folder, package = self.bring().folder, self.place / "package.zip"
        self.assertEqual(self.call(folder, package), (0, "exported lost=0 changed=0 notes=0\n"))
        self.assertEqual(self.call(folder, package)[0], 3)  # the package is there
        (folder / "content/imsmanifest.xml").write_text("x")
        self.assertEqual(self.call(folder, self.place / "other")[0], 1)
        (folder / "unit.json").write_text("{}")
        status, told = self.call(folder, self.place / "third")
        self.assertEqual(status, 3)
        self.assertIn("unit.json /format missing", told)
        self.assertEqual(self.call(folder)[0], 2)
        self.assertEqual(self.call(folder, package, "--engine", "/none")[0], 4)

    def test_what_nothing_judged(self):
        folder = self.bring().folder
        with mock.patch.object(program.engine, "find_engine", return_value=None):
            self.assertEqual(self.call(folder, self.place / "package")[0], 5)
