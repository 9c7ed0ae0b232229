from unittest import TestCase

from ldimport import values
from ldimport.manifest import with_parameters
from ldimport.names import FORM, engine_id, shortened
from ldimport.package import safe_name

DURATIONS = {
    "P1D": "P1D",
    "PT0S": "PT0S",
    "P0Y0M0DT0H0M30S": "PT30S",
    "P2W": "P14D",
    "PT90M": "PT1H30M",
    "PT36H": "P1DT12H",
    "P1DT0S": "P1D",
}
DURATIONS_WITH_A_REMARK = {"P1Y": "P365D", "P1M": "P30D", "PT1.5S": "PT1S"}
NO_DURATIONS = ["", "P", "PT", "P1DT", "1D", "-P1D", "P1S", "P9999999999999D", "P1D ", "P1.5D", "P٣D"]
MOMENTS = {
    "2024-01-01T00:00:00Z": "2024-01-01T00:00:00Z",
    "2024-01-01T00:30:00+01:00": "2023-12-31T23:30:00Z",
    "2024-02-28T23:00:00-05:00": "2024-02-29T04:00:00Z",
    "2024-12-31T24:00:00Z": "2025-01-01T00:00:00Z",
    "0001-01-01T00:00:00Z": "0001-01-01T00:00:00Z",
}
MOMENTS_WITH_A_REMARK = ["2024-01-01T00:00:00", "2024-01-01", "2024-01-01T00:00:00.5Z"]
NO_MOMENTS = [
    "",
    "2023-02-29T00:00:00Z",
    "2024-01-01T25:00:00Z",
    "2024-01-01T24:00:01Z",
    "24-01-01T00:00:00Z",
    "0001-01-01T00:00:00+01:00",
    "9999-12-31T24:00:00Z",
    "2024-01-01T00:00:00+15:00",
]


class Values(TestCase):
    def test_durations(self):
        for text, wanted in DURATIONS.items():
            self.assertEqual(values.duration(text), (wanted, None))

    def test_durations_with_a_remark(self):
        for text, wanted in DURATIONS_WITH_A_REMARK.items():
            found, remark = values.duration(text)
            self.assertEqual(found, wanted)
            self.assertTrue(remark)

    def test_no_durations(self):
        for text in NO_DURATIONS:
            with self.subTest(text), self.assertRaises(values.BadValue):
                values.duration(text)

    def test_moments(self):
        for text, wanted in MOMENTS.items():
            self.assertEqual(values.moment(text), (wanted, None))

    def test_moments_with_a_remark(self):
        for text in MOMENTS_WITH_A_REMARK:
            found, remark = values.moment(text)
            self.assertEqual(found, "2024-01-01T00:00:00Z")
            self.assertTrue(remark)

    def test_no_moments(self):
        for text in NO_MOMENTS:
            with self.subTest(text), self.assertRaises(values.BadValue):
                values.moment(text)

    def test_numbers_truth_and_texts(self):
        self.assertEqual(values.integer("+5")[0], "5")
        self.assertEqual(values.integer("-05.00")[0], "-5")
        self.assertEqual(values.boolean("1")[0], "true")
        self.assertEqual(values.boolean("0")[0], "false")
        self.assertEqual(values.uri("ü b")[0], "%C3%BC%20b")
        bad = [
            ("integer", "5.5"),
            ("integer", str(2**63)),
            ("integer", ""),
            ("boolean", "yes"),
            ("string", "ü" * 2049),
        ]
        for datatype, text in bad:
            with self.subTest(text[:9]), self.assertRaises(values.BadValue):
                values.value(datatype, text)


class Names(TestCase):
    def test_identifiers(self):
        self.assertEqual(engine_id("a-b_c.1"), "a-b_c.1")
        for raw in ("Übung", "x" * 65, "1a", "a:b", "日本", "é" * 100):
            with self.subTest(raw):
                self.assertTrue(FORM.fullmatch(engine_id(raw)))
                self.assertNotEqual(engine_id(raw), raw)
        self.assertEqual(engine_id("Übung-Bericht"), "Ubung-Bericht-17ff435e9c")
        self.assertNotEqual(engine_id("a:b"), engine_id("a/b"))
        self.assertNotEqual(engine_id("x" * 65), engine_id("x" * 66))

    def test_titles(self):
        self.assertEqual(shortened("ü" * 128), "ü" * 128)
        self.assertEqual(shortened("ü" * 129), "ü" * 126 + "…")

    def test_unsafe_names(self):
        for name in (
            "",
            "/a",
            "a/../b",
            "..",
            "a//b",
            "C:/a",
            "a\\..\\b",
            "a\0b",
            "a/",
            "a.",
            "b ",
            "x" * 300,
            "a\ud800",
        ):
            self.assertIsNone(safe_name(name), name)

    def test_safe_names(self):
        self.assertEqual(safe_name("a\\b.html"), "a/b.html")
        self.assertEqual(safe_name("..a/b..c"), "..a/b..c")

    def test_parameters(self):
        cases = [
            ("a", "?x=1", "a?x=1"),
            ("a?y", "x=1", "a?y&x=1"),
            ("a#f", "x=1", "a?x=1#f"),
            ("a#f", "#g", "a#f"),
            ("a", "#g", "a#g"),
        ]
        for href, parameters, wanted in cases:
            self.assertEqual(with_parameters(href, parameters), wanted)
