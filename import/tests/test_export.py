"""Export and import again give the same unit."""

import json

from .round_trip import RoundTripCase
from .support import ROOT, SAMPLES

EXAMPLES = ROOT.parent / "examples"


class RoundTrip(RoundTripCase):
    def test_samples(self):
        for name in ("theory", "personal", "notify", "jigsaw"):
            with self.subTest(name):
                first = self.bring(SAMPLES / name)
                report, again = self.there_and_back(first.folder)
                self.assertTrue(report.is_whole())
                for document in ("roles", "properties", "environments", "activities", "unit", "conditions"):
                    self.assertEqual(again.document(document), first.document(document))
                files = {path.relative_to(first.folder) for path in first.folder.glob("content/**/*")}
                self.assertEqual({path.relative_to(again.folder) for path in again.folder.glob("content/**/*")}, files)

    def test_samples_in_format_2(self):
        for name in ("personal", "notify"):
            first = self.bring(SAMPLES / name, format=2, pages=True)
            _, again = self.there_and_back(first.folder, format=2, pages=True)
            for document in ("roles", "activities", "unit", "conditions", "pages"):
                self.assertEqual(again.document(document), first.document(document))

    def test_services_keep_their_settings(self):
        first = self.bring(SAMPLES / "notify")
        _, again = self.there_and_back(first.folder)
        one, two = (done.document("import")["services"] for done in (first, again))
        self.assertEqual(set(one), set(two))
        self.assertEqual(one["post"]["attributes"], two["post"]["attributes"])
        participant = {"element": "participant", "attributes": {"role-ref": "student"}}
        self.assertIn(participant, two["talk"]["children"])

    def test_examples(self):
        for path in sorted(EXAMPLES.glob("*/unit.json")):
            with self.subTest(path.parent.name):
                documents = {each.name: json.loads(each.read_text()) for each in path.parent.glob("*.json")}
                folder = self.course(documents)
                if path.parent.name == "lab":  # its notice is sent once for each person
                    self.assertEqual([entry.code for entry in self.there(folder)[1].entries], ["each-person"] * 2)
                else:
                    self.assertTrue(self.is_the_same(folder).is_whole())
