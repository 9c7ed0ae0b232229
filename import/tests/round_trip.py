"""What tests of export and import again have in common."""

import json

from ldexport.convert import convert
from ldexport.folder import Folder

from .canonical import canonical
from .support import ImportCase


class RoundTripCase(ImportCase):
    def there(self, folder, name="package.zip"):
        """The package of a folder, and the report."""
        self.count += 1
        package = self.place / f"{self.count}.{name}"
        return package, convert(folder, package)

    def there_and_back(self, folder, **words):
        """The report of the export, and what comes back."""
        package, report = self.there(folder)
        return report, self.bring(package, **words)

    def is_the_same(self, folder, **words):
        """Whether the unit comes back as it was."""
        report, done = self.there_and_back(folder, **words)
        self.assertIsNone(done.refusal)
        self.assertEqual([entry for entry in done.entries if entry.kind in ("lost", "refused")], [])
        self.assertEqual(canonical(Folder(done.folder)), canonical(Folder(folder)))
        return report

    def course(self, documents):
        """A folder of these documents in which each address of an item leads to a file."""
        self.count += 1
        folder = self.place / f"made{self.count}"
        (folder / "content").mkdir(parents=True)
        for name, document in documents.items():
            self.place_files(folder, document)
            (folder / name).write_text(json.dumps(document))
        return folder

    def place_files(self, folder, document):
        if isinstance(document, list):
            for each in document:
                self.place_files(folder, each)
        elif isinstance(document, dict):
            if "href" in document:
                document["href"] = f"content/{len(list((folder / 'content').iterdir()))}.html"
                (folder / document["href"]).write_text("x")
            for each in document.values():
                self.place_files(folder, each)
