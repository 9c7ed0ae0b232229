"""A small package whose parts a test replaces, and what a test asks of its import."""

import json
import subprocess
import tempfile
import unittest
from functools import lru_cache
from pathlib import Path

from ldimport import engine
from ldimport.context import Options
from ldimport.convert import Source, convert
from ldimport.report import Refused

ROOT = Path(__file__).resolve().parent.parent
SAMPLES = ROOT / "samples"
ENGINE = engine.find_engine(None)
AT = "2024-01-01T00:00:00Z"

HEAD = """<?xml version="1.0" encoding="UTF-8"?>
<manifest xmlns="http://www.imsglobal.org/xsd/imscp_v1p1" xmlns:l="http://www.imsglobal.org/xsd/imsld_v1p0" identifier="M">
<organizations><learning-design xmlns="http://www.imsglobal.org/xsd/imsld_v1p0" identifier="u" level="{level}">
<components><roles>{roles}</roles>{properties}<activities>{activities}</activities>{environments}</components>
<method>{plays}{after}</method></learning-design></organizations>
<resources>{resources}</resources></manifest>"""

PARTS = {
    "level": "C",
    "roles": '<learner identifier="learner"/><staff identifier="tutor"/>',
    "properties": "",
    "activities": '<learning-activity identifier="read"><complete-activity><user-choice/></complete-activity>'
    "</learning-activity>",
    "environments": "",
    "plays": '<play identifier="p"><act identifier="a"><role-part identifier="rp"><role-ref ref="learner"/>'
    '<learning-activity-ref ref="read"/></role-part></act></play>',
    "after": "",
    "resources": '<resource identifier="r" type="webcontent" href="a.html"><file href="a.html"/></resource>',
}

# One property of the run and one of each type for each person.
PROPERTIES = """<properties>
<loc-property identifier="n"><datatype datatype="integer"/><initial-value>1</initial-value></loc-property>
<locpers-property identifier="own"><datatype datatype="integer"/></locpers-property>
<locpers-property identifier="word"><datatype datatype="string"/></locpers-property>
<locpers-property identifier="yes"><datatype datatype="boolean"/></locpers-property>
<locpers-property identifier="day"><datatype datatype="datetime"/></locpers-property>
<locpers-property identifier="span"><datatype datatype="duration"/></locpers-property>
</properties>"""

# An activity that shows the item `i`.
WITH_ITEM = (
    '<learning-activity identifier="read"><activity-description><item identifier="i" identifierref="r"/>'
    "</activity-description></learning-activity>"
)

# Two acts; the first has room for more of it, and so has the play.
ACTS = """<play identifier="p"><act identifier="a"><role-part identifier="rp"><role-ref ref="learner"/>
<learning-activity-ref ref="read"/></role-part>{}</act><act identifier="b"><role-part identifier="rq">
<role-ref ref="tutor"/><learning-activity-ref ref="read"/></role-part></act>{}</play>"""

SHOW = '<show><learning-activity-ref ref="read"/></show>'
HIDE = '<hide><learning-activity-ref ref="read"/></hide>'
NOTICE = '<notification><email-data><role-ref ref="tutor"/></email-data></notification>'


def manifest(**parts):
    return HEAD.format(**{**PARTS, **parts})


def condition(test, then=SHOW, otherwise=""):
    return f"<conditions><if>{test}</if><then>{then}</then>{otherwise}</conditions>"


def compare(word, left, right):
    """A comparison; a side is an element, `@property`, or else the text of a literal."""

    def side(text):
        if text.startswith("<"):
            return text
        return f'<property-ref ref="{text[1:]}"/>' if text[0] == "@" else f"<property-value>{text}</property-value>"

    return f"<{word}>{side(left)}{side(right)}</{word}>"


def change(name, value):
    return (
        f'<change-property-value><property-ref ref="{name}"/><property-value>{value}</property-value>'
        "</change-property-value>"
    )


class Done:
    """What an import gave: the entries, the documents, or why it was refused."""

    def __init__(self, folder, report, refusal):
        self.folder, self.refusal = folder, refusal
        self.entries = report.in_order() if report else []

    def document(self, name):
        path = self.folder / f"{name}.json"
        return json.loads(path.read_text()) if path.exists() else None

    def losses(self):
        return [(entry.kind, entry.code) for entry in self.entries if entry.kind in ("lost", "changed")]

    def codes(self):
        return [entry.code for entry in self.entries]

    def line(self, code):
        return next(entry.line for entry in self.entries if entry.code == code)


class ImportCase(unittest.TestCase):
    maxDiff = None

    def setUp(self):
        place = tempfile.TemporaryDirectory()
        self.addCleanup(place.cleanup)
        self.place, self.count = Path(place.name), 0

    def package(self, source=None, files=None, **parts):
        """A folder with the manifest, given as a text or by parts of the small one, and the files."""
        path = self.place / f"package{self.count}"
        path.mkdir()
        text = source if source is not None else manifest(**parts)
        (path / "imsmanifest.xml").write_bytes(text if isinstance(text, bytes) else text.encode())
        for name, content in {"a.html": "<p/>", **(files or {})}.items():
            (path / name).parent.mkdir(parents=True, exist_ok=True)
            (path / name).write_text(content)
        return path

    def bring(self, source=None, format=1, pages=False, identifier=None, engine=ENGINE, files=None, **words):
        """Imports a package: a path, a manifest's text, or parts of the small one.

        The engine judges the result, if there is one and it has the format.
        """
        self.count += 1
        given = {word: words.pop(word) for word in ("design", "zip_names", "all_files") if word in words}
        path = source if isinstance(source, Path) else self.package(source, files, **words)
        folder = self.place / f"course{self.count}"
        program = engine if format == 1 or has_format_2() else None
        try:
            report = convert(Source(path, **given), folder, Options(format, pages, identifier), program)
        except Refused as refusal:
            self.assertFalse(folder.exists())
            return Done(folder, None, refusal.entry)
        self.assertEqual(folder.exists(), not report.is_refused())
        return Done(folder, report, None)

    def replay(self, folder, *lines):
        """What the engine writes for the lines."""
        text = "".join(json.dumps(line) + "\n" for line in lines)
        return replies(folder, text.encode())

    def needs_engine(self):
        if ENGINE is None:
            self.skipTest("there is no engine: neither LD_ENGINE nor the program of the repository")

    def needs_format_2(self):
        self.needs_engine()
        if not has_format_2():
            self.skipTest("the engine has no format 2 (occurrences of roles, support for each person)")

    def needs_pages(self):
        self.needs_engine()
        if not has_pages():
            self.skipTest("the engine has no pages")


def replies(folder, text):
    words = [ENGINE, "replay", str(folder)]
    return subprocess.run(words, input=text, capture_output=True, check=True).stdout.decode()


@lru_cache
def has_format_2():
    """Whether the engine takes a small unit of format 2."""
    if ENGINE is None:
        return False
    with tempfile.TemporaryDirectory() as place:
        report = convert(Source(SAMPLES / "theory"), Path(place, "course"), Options(2), ENGINE)
    return not report.is_refused()


@lru_cache
def has_pages():
    """Whether the engine knows the verb `page`: it then tells that there is no run, and else a bad line."""
    if ENGINE is None:
        return False
    with tempfile.TemporaryDirectory() as place:
        folder = Path(place, "course")
        convert(Source(SAMPLES / "theory"), folder, Options(), ENGINE)
        return "bad-line" not in replies(folder, json.dumps([AT, "page", "r", "ann", "x"]).encode())
