#!/usr/bin/env python3
"""Runs the program's form `canon` on folders and compares what it prints with an evaluation made from docs/FORMATS.md.

    run.py PROGRAM [SEED [COUNT]]

The folders are those of the repository and of other tests, one that has each member, and so many random ones. What is
printed is written back, and printed and checked again. Copies that are written in other ways are printed the same. A
folder with a fault is refused. The last line is 'N passed, M failed'.
"""
import pathlib
import random
import re
import sys
import tempfile
from collections.abc import Iterator

import calls
import coverage
import folders
import worked
from canonical import TOP, Files, printed, written_back
from reference import of_folder
from rewriting import WAYS, Rewriting, Ways

HERE = pathlib.Path(__file__).resolve().parent
SEED = 1
COUNT = 150
FAULTS = 40
# Of larger folders no copies are made.
LARGE = 50_000
# The least number of results of each table; a table that finds less than that fails.
LEAST = {
    "documents": 2,
    "worked": 150,
    "members": 150,
    "folders": 150,
    "copies": 150,
    "ways": len(WAYS),
    "faults": 150,
    "calls": 10,
}

# The name of a result, and what is wrong, or None.
Result = tuple[str, str | None]


class Tests:
    """All tests of a program, which write their folders into one place."""

    def __init__(self, program: str, place: pathlib.Path, seed: int, count: int) -> None:
        self.program = program
        self.place = place
        self.seed = seed
        self.made = 0
        self.cases = [folders.case_of("everything", of_folder(HERE / "everything"))]
        self.cases += [*folders.of_repository(), *folders.of_tables(), *folders.random_units(seed, count)]

    def new_place(self) -> pathlib.Path:
        """A path at which nothing stands."""
        self.made += 1
        return self.place / str(self.made)

    def of_folder(self, files: Files, wanted: bytes) -> str | None:
        """What is wrong with the answers to a folder, of which this is to be printed."""
        return calls.wrong(self.program, self.new_place(), files, wanted)

    def documents(self) -> Iterator[Result]:
        """The folder that docs/FORMATS.md shows, and one with each member, whose lines were read against it."""
        text = (TOP / "docs" / "FORMATS.md").read_text()
        for folder, shown in re.findall(r"^```text canon (\S+)\n(.*?)^```$", text, re.MULTILINE | re.DOTALL):
            yield f"what docs/FORMATS.md shows of {folder}", self.of_folder(of_folder(TOP / folder), shown.encode())
        wanted = (HERE / "everything.canon").read_bytes()
        yield "each member", self.of_folder(of_folder(HERE / "everything"), wanted)

    def worked(self) -> Iterator[Result]:
        """The rows of worked.py: the program prints what the evaluation has, and that has the line."""
        for name, documents, file, line in worked.rows():
            files = folders.bytes_in(documents)
            wanted = printed(files)
            told = written_back(wanted).get(file)
            right = None if line is None else line.encode()
            if told != right:
                yield name, f"the evaluation has {told!r} in place of {right!r}"
            else:
                folder = folders.write_folder(self.new_place(), files)
                yield name, calls.printed_wrong(self.program, folder, wanted)

    def members(self) -> Iterator[Result]:
        """Each member, word and default that docs/FORMATS.md lists is in a case."""
        rows = [folders.bytes_in(documents) for _, documents, _, _ in worked.rows()]
        yield from coverage.covered([of_folder(HERE / "everything"), *rows])

    def good_folders(self) -> Iterator[Result]:
        """What is printed of each folder."""
        for case in self.cases:
            yield case.name, self.of_folder(case.files, case.wanted)
        yield "a canonical document that is too big", self.grown()

    def grown(self) -> str | None:
        """What is wrong where the canonical form of a document has more bytes than a document may have."""
        files = folders.grown()
        wanted = printed(files)
        fault = calls.printed_wrong(self.program, folders.write_folder(self.new_place(), files), wanted)
        if fault is not None:
            return fault
        back = "properties.json . too-big"
        return calls.wrong_refusal(self.program, self.new_place(), back, written_back(wanted))

    def copies(self, ways: Ways) -> Iterator[Result]:
        """What is printed of other folders of the same units."""
        for case in self.cases:
            rewriting = Rewriting(random.Random(f"{self.seed} {case.name}"), ways)
            if sum(map(len, case.files.values())) <= LARGE:
                for number in range(case.copies):
                    yield f"copy {number} of {case.name}", self.of_copy(rewriting.folder(case.files), case.wanted)

    def of_copy(self, copy: Files, wanted: bytes) -> str | None:
        """What is wrong with what is printed of a copy, or None; the copy is told, and whether it is to blame."""
        fault = calls.printed_wrong(self.program, folders.write_folder(self.new_place(), copy), wanted)
        if fault is None:
            return None
        same = "the same unit" if printed(copy) == wanted else "another unit"
        return f"{fault}\nof {copy}, which is {same} by the evaluation"

    def bad_folders(self) -> Iterator[Result]:
        """What is printed of folders with faults."""
        for name, fault, files in folders.with_faults(self.seed, FAULTS):
            yield name, calls.wrong_refusal(self.program, self.new_place(), fault, files)

    def refused(self, status: int, word: str, *words: str | pathlib.Path) -> str | None:
        """What is wrong where a call does not end with a status and a word, or writes something."""
        got, right = calls.call(self.program, *words), calls.Answer(status, b"", f"ld: {word}\n".encode())
        return None if got == right else f"{got}\nin place of {right}"

    def odd_calls(self) -> Iterator[Result]:
        """Words that are no call, what can't be read, and the input, which is left."""
        first, lines = TOP / "examples" / "first", TOP / "examples" / "first.lines"
        good: list[list[str | pathlib.Path]] = [[first]]
        bad: list[list[str | pathlib.Path]] = [
            [],
            [""],
            ["-x"],
            [first, first],
            [first, TOP / "examples" / "lab"],
            [first, ""],
        ]
        for words in bad:
            yield f"canon {words}", self.refused(2, "bad-words", "canon", *words)
        for words in good + bad + [[self.new_place()]]:
            left = calls.input_left(self.program, lines, "canon", *words)
            yield f"the input of canon {words}", None if left else "it is read"
        unread = self.new_place()
        (unread / "roles.json").mkdir(parents=True)
        yield "a document that is a folder", self.refused(3, "shelf-fault", "canon", unread)
        absent = calls.Answer(4, b"refused 1 roles.json . absent\n", b"ld: unit-refused\n")
        got = calls.call(self.program, "canon", self.new_place())
        yield "a folder that is not there", None if got == absent else f"{got}\nin place of {absent}"

    def tables(self) -> Iterator[tuple[str, Iterator[Result]]]:
        """All tables with their names."""
        ways: Ways = Ways()
        yield "documents", self.documents()
        yield "worked", self.worked()
        yield "members", self.members()
        yield "folders", self.good_folders()
        yield "copies", self.copies(ways)
        yield "ways", ((way, None if ways[way] else "no copy is written so") for way in WAYS)
        yield "faults", self.bad_folders()
        yield "calls", self.odd_calls()


def failures_of(table: str, results: Iterator[Result], least: int) -> tuple[int, list[str]]:
    """How many results of a table are right, and what is wrong with the others, or with their number."""
    passed, failures = 0, []
    for name, wrong in results:
        passed += wrong is None
        if wrong is not None:
            failures.append(f"{table}: {name}: {wrong}")
    if passed + len(failures) < least:
        failures.append(f"{table}: {passed + len(failures)} results in place of {least}")
    return passed, failures


def main() -> int:
    program = sys.argv[1]
    seed = int(sys.argv[2]) if len(sys.argv) > 2 else SEED
    count = int(sys.argv[3]) if len(sys.argv) > 3 else COUNT
    passed = failed = 0
    with tempfile.TemporaryDirectory() as path:
        tests = Tests(program, pathlib.Path(path), seed, count)
        for table, results in tests.tables():
            right, failures = failures_of(table, results, LEAST[table])
            for failure in failures:
                print(f"failed: {failure}", flush=True)
            passed, failed = passed + right, failed + len(failures)
    print(f"{passed} passed, {failed} failed")
    return 1 if failed or not passed else 0


if __name__ == "__main__":
    sys.exit(main())
