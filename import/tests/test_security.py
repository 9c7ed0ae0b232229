import os
import stat
import warnings
import zipfile
from unittest import mock

from ldimport import package, xmltree
from ldimport.context import Options
from ldimport.convert import Source, convert
from ldimport.report import Refused

from .support import PROPERTIES, WITH_ITEM, ImportCase, manifest

SMALL = manifest()
DECLARING = [
    '<!DOCTYPE manifest [<!ENTITY x SYSTEM "file:///etc/hostname">]>',
    '<!DOCTYPE manifest [<!ENTITY x "lol"><!ENTITY y "&x;&x;&x;&x;">]>',
    '<!DOCTYPE manifest [<!ENTITY % x SYSTEM "http://127.0.0.1:1/x"> %x;]>',
    '<!DOCTYPE manifest [<!ATTLIST manifest identifier CDATA "x">]>',
]
BROKEN = [
    b"",
    b"<manifest",
    b"\xff\xfe\x00",
    b"<?xml version='1.0' encoding='no-such'?><a/>",
    b"<?xml version='1.0' encoding='utf-7'?><a/>",
    b"<a></b>",
    b"<a>&nbsp;</a>",
]
OUTSIDE = ["../x", "/x", "a/../../x", "..\\x", "C:\\x", "a/./b", "con:", "a\x01b", "x/.."]
ADDRESSES = ["javascript:alert(1)", "data:text/html,x", "file:///etc/passwd", "../../etc/passwd", "/etc/passwd"]


def with_doctype(doctype, title=""):
    text = SMALL.replace("?>", f"?>{doctype}", 1)
    return text.replace("<components>", f"<title>{title}</title><components>", 1)


class Documents(ImportCase):
    def test_doctypes_that_declare_are_refused(self):
        for doctype in DECLARING:
            self.assertIn(self.bring(with_doctype(doctype, "&x;")).refusal.code, ("xml-doctype", "xml-entity"))

    def test_an_outer_doctype_is_not_fetched(self):
        outer = '<!DOCTYPE manifest SYSTEM "http://127.0.0.1:1/none.dtd">'
        self.assertIsNone(self.bring(with_doctype(outer)).refusal)
        done = self.bring(with_doctype('<!DOCTYPE manifest SYSTEM "file:///etc/passwd">', "&x;"))
        self.assertNotIn("title", done.document("unit") or {})

    def test_entities_in_pages_are_refused(self):
        page = (
            '<!DOCTYPE html [<!ENTITY x SYSTEM "file:///etc/hostname">]>'
            '<html xmlns:l="http://www.imsglobal.org/xsd/imsld_v1p0"><l:set-property ref="n"/>&x;</html>'
        )
        done = self.bring(pages=True, files={"a.html": page}, properties=PROPERTIES, activities=WITH_ITEM)
        self.assertEqual(done.losses(), [("lost", "page")])
        self.assertIsNone(done.document("pages"))

    def test_broken_documents(self):
        for text in BROKEN:
            self.assertEqual(self.bring(text).refusal.code, "xml-fault")

    def test_what_is_told_stays_on_its_line(self):
        rule = f"<time-limit>soon&#10;imported lost=0{'x' * 10_000}&#x85;</time-limit>"
        activity = (
            f'<learning-activity identifier="read"><complete-activity>{rule}</complete-activity></learning-activity>'
        )
        (entry,) = [entry for entry in self.bring(activities=activity).entries if entry.code == "time-limit"]
        self.assertTrue(str(entry).isprintable())
        self.assertLess(len(str(entry)), 700)

    def test_deep_and_wide_documents(self):
        self.assertEqual(self.bring("<a>" * 300 + "</a>" * 300).refusal.code, "xml-too-deep")
        with mock.patch.object(xmltree, "MOST_NODES", 5):
            self.assertEqual(self.bring().refusal.code, "xml-too-large")


class Archives(ImportCase):
    def archive(self, *entries):
        self.count += 1
        path = self.place / f"package{self.count}.zip"
        with zipfile.ZipFile(path, "w", zipfile.ZIP_DEFLATED) as made, warnings.catch_warnings():
            warnings.simplefilter("ignore")
            for name, data in (("imsmanifest.xml", SMALL), *entries):
                made.writestr(name, data)
        return path

    def refusal(self, path):
        refusal = self.bring(path).refusal
        return refusal.code if refusal else None

    def test_names_outside(self):
        for name in OUTSIDE:
            self.assertEqual(self.refusal(self.archive((name, "x"))), "package-names", name)

    def test_names_that_are_alike(self):
        self.assertEqual(self.refusal(self.archive(("a.html", "x"), ("A.HTML", "x"))), "package-names")
        self.assertEqual(self.refusal(self.archive(("a.html", "x"), ("a.html", "x"))), "package-names")

    def test_links(self):
        link = zipfile.ZipInfo("a.html")
        link.external_attr = (stat.S_IFLNK | 0o777) << 16
        self.assertEqual(self.refusal(self.archive((link, "/etc/passwd"))), "package-link")
        folder = self.package(files={})
        (folder / "a.html").unlink()
        os.symlink("/etc/passwd", folder / "a.html")
        self.assertEqual(self.refusal(folder), "package-link")

    def test_bounds(self):
        path = self.archive(("a.html", b"\0" * 2_000_000))
        self.assertLess(path.stat().st_size, 10_000)
        self.assertIsNone(self.refusal(path))
        for bound, most in (("MOST_FILE", 1_000_000), ("MOST_BYTES", 1_000_000), ("MOST_FILES", 1)):
            with self.subTest(bound), mock.patch.object(package, bound, most):
                self.assertEqual(self.refusal(path), "package-too-large")

    def test_a_large_directory_is_not_read(self):
        path = self.archive(("a.html", "x"))
        with mock.patch.object(package, "MOST_DIRECTORY", 50):
            with mock.patch.object(zipfile, "ZipFile", side_effect=AssertionError("the directory is read")):
                self.assertEqual(self.refusal(path), "package-too-large")

    def test_a_size_that_lies_is_not_believed(self):
        path = self.archive(("a.html", b"x" * 100_000))
        data = bytearray(path.read_bytes())
        at = data.rfind(b"PK\x01\x02")
        data[at + 24 : at + 28] = (10).to_bytes(4, "little")
        path.write_bytes(data)
        done = self.bring(path)
        if done.refusal is None:
            self.assertEqual((done.folder / "content/a.html").stat().st_size, 10)
        else:
            self.assertEqual(done.refusal.code, "package-broken")

    def test_other_compressions(self):
        path = self.place / "package.zip"
        with zipfile.ZipFile(path, "w", zipfile.ZIP_LZMA) as made:
            made.writestr("imsmanifest.xml", SMALL)
        self.assertEqual(self.refusal(path), "package-compression")

    def test_broken_archives(self):
        path = self.archive(("a.html", "x" * 5000))
        whole = path.read_bytes()
        for cut in (0, 10, 200, len(whole) - 5):
            path.write_bytes(whole[:cut])
            self.assertEqual(self.refusal(path), "no-package")
        at = whole.find(b"a.html") + 6
        path.write_bytes(whole[: at + 3] + b"\xff\xff\xff" + whole[at + 6 :])
        self.assertEqual(self.refusal(path), "package-broken")

    def test_a_folder_within_the_archive(self):
        path = self.place / "top.zip"
        for other, code in (("top/a.html", None), ("a.html", "no-manifest")):
            with zipfile.ZipFile(path, "w") as made:
                made.writestr("top/imsmanifest.xml", SMALL)
                made.writestr(other, "x")
            self.assertEqual(self.refusal(path), code)

    def test_names_that_are_not_marked_as_utf_8(self):
        resource = '<resource identifier="r" type="webcontent" href="k\u00e4se.html"/>'
        path = self.place / "marked.zip"
        with zipfile.ZipFile(path, "w") as made:
            made.writestr("imsmanifest.xml", manifest(resources=resource, activities=WITH_ITEM))
            made.writestr("kXse.html", "x")
        path.write_bytes(path.read_bytes().replace(b"kXse", b"k\xe4se"))
        self.assertEqual(self.bring(path).losses(), [("lost", "item")])
        done = self.bring(path, zip_names="cp1252")
        self.assertEqual(done.losses(), [])
        self.assertTrue((done.folder / "content/k\u00e4se.html").exists())


class Contents(ImportCase):
    def test_addresses_that_are_not_taken_over(self):
        for href in ADDRESSES:
            with self.subTest(href):
                resource = f'<resource identifier="r" type="webcontent" href="{href}"><file href="{href}"/></resource>'
                done = self.bring(resources=resource, activities=WITH_ITEM)
                self.assertIn(("lost", "item"), done.losses())
                self.assertNotIn("items", done.document("activities")["activities"][0])
                self.assertEqual(list(done.folder.glob("content/**/passwd")), [])

    def test_documents_of_the_package_are_not_the_course_s(self):
        resource = '<resource identifier="r" type="webcontent" href="unit.json">{}</resource>'
        files = "".join(f'<file href="{name}"/>' for name in ("unit.json", "ld.journal", "imsmanifest.xml"))
        done = self.bring(files={"unit.json": "{}", "ld.journal": "x"}, resources=resource.format(files))
        self.assertEqual(done.document("unit")["identifier"], "u")
        self.assertEqual((done.folder / "content/unit.json").read_text(), "{}")
        names = ["activities.json", "content", "import.json", "roles.json", "unit.json"]
        self.assertEqual(sorted(path.name for path in done.folder.iterdir()), names)
        self.assertFalse((done.folder / "content/imsmanifest.xml").exists())

    def test_a_folder_that_is_not_empty_is_left_alone(self):
        (self.place / "course").mkdir()
        (self.place / "course/mine").write_text("x")
        with self.assertRaises(Refused):
            convert(Source(self.package()), self.place / "course", Options(), None)
        self.assertEqual((self.place / "course/mine").read_text(), "x")
        self.assertEqual(list(self.place.glob(".ldimport*")), [])
