"""Random changes of the samples, and random units there and back."""

import importlib
import json
import random
import shutil
import sys
from pathlib import Path
from unittest import mock

from ldexport.folder import Folder
from ldimport import engine

from .canonical import canonical
from .changes import ending
from .round_trip import RoundTripCase
from .support import ENGINE, ROOT, SAMPLES, ImportCase, has_format_2

HISTORIES = ROOT.parent / "tests" / "histories"
CHANGED = 120
ARCHIVES = 400
UNITS = 60


class Changes(ImportCase):
    def test_changed_packages_end_with_a_report(self):
        formats = [1, 2] if has_format_2() else [1]
        for seed in range(CHANGED):
            with self.subTest(seed=seed):
                _, entry = ending(seed, ENGINE, formats)
                self.assertTrue(entry is None or entry.line, entry)


class Archives(ImportCase):
    def test_changed_archives_are_refused_or_read(self):
        base = Path(shutil.make_archive(str(self.place / "whole"), "zip", SAMPLES / "theory")).read_bytes()
        for seed in range(ARCHIVES):
            draw, data = random.Random(seed), bytearray(base)
            for _ in range(draw.randint(1, 6)):
                place = draw.randrange(draw.choice([0, len(data) - 1500]), len(data))
                if draw.random() < 0.2:
                    del data[place : place + draw.randint(1, 30)]
                else:
                    data[place] = draw.choice([0, 255, data[place] ^ 1 << draw.randrange(8)])
            with self.subTest(seed=seed):
                path = self.place / f"{seed}.zip"
                path.write_bytes(data)
                self.bring(path, engine=None)


class Units(RoundTripCase):
    def test_random_units(self):
        """Units of the random histories of tests/, with plain texts, but those that are told to come back different."""
        self.needs_engine()
        compared = 0
        for seed in range(UNITS):
            for documents in random_folders(seed):
                with self.subTest(seed=seed):
                    folder = self.course(plain(documents))
                    if engine.ask(ENGINE, folder) is not None:
                        continue
                    report, done = self.there_and_back(folder)
                    self.assertIsNone(done.refusal)
                    if "each-person" not in [entry.code for entry in report.entries]:
                        compared += 1
                        self.assertEqual(canonical(Folder(done.folder)), canonical(Folder(folder)))
        self.assertGreater(compared, UNITS // 3)


def plain(value):
    """The same with texts that a package gives back: white space single and not at the ends."""
    if isinstance(value, list):
        return [plain(each) for each in value]
    if isinstance(value, dict):
        return {name: plain(each) for name, each in value.items()}
    if isinstance(value, str) and value:
        return " ".join("".join(char if char.isprintable() else " " for char in value).split()) or "x"
    return value


def random_folders(seed):
    with mock.patch.object(sys, "path", [str(HISTORIES), *sys.path]):
        courses, moments = importlib.import_module("courses"), importlib.import_module("moments")
    draw = random.Random(seed)
    folders = courses.folders_of(draw, draw.choice(moments.BEGINNINGS), False, False)
    return json.loads(json.dumps(folders))
