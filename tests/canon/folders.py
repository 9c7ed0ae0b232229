"""The folders that are printed: those of the repository, those of other tests, random ones, and ones with faults."""

import pathlib
import random
from collections.abc import Iterator
from dataclasses import dataclass

from canonical import TOP, Files, printed

import accepted
import datatypes
import good
import order
from courses import Course
from mutations import mutate
from reference import bytes_of, first_fault, of_folder
from units import folder

# So many copies are made of each folder of the repository and of each random one, and one of each of other tests.
COPIES = 3
# Places of the repository below which each folder with a unit.json has no fault.
PLACES = ["examples", "tests/transcripts"]
# Of the units of each datatype, which are many and alike, one in so many is taken.
OF_DATATYPES = 16


@dataclass(frozen=True)
class Case:
    """A folder without a fault, what is to be printed of it, and how many copies are made of it."""

    name: str
    files: Files
    wanted: bytes
    copies: int


def case_of(name: str, files: Files, copies: int = COPIES) -> Case:
    """The case of a folder, of which is to be printed what the evaluation has."""
    return Case(name, files, printed(files), copies)


def bytes_in(documents: dict[str, object]) -> Files:
    """The files of documents."""
    return {name: bytes_of(document) for name, document in documents.items()}


def of_repository() -> Iterator[Case]:
    """Each folder of the repository that stands for a unit; a place that has none is said to be wrong by an error."""
    for place in PLACES:
        found = sorted(path.parent for path in (TOP / place).rglob("unit.json"))
        assert found, f"no unit below {place}"
        for path in found:
            yield case_of(str(path.relative_to(TOP)), of_folder(path))


def of_tables() -> Iterator[Case]:
    """The units without a fault of the tables of first faults."""
    for table in good, accepted:
        for name, fault, documents in table.cases():
            if fault is None:
                yield case_of(f"{table.__name__}: {name}", bytes_in(documents), 1)
    typed = [(name, documents) for name, fault, documents in datatypes.cases() if fault is None]
    for name, documents in typed[::OF_DATATYPES]:
        yield case_of(f"datatypes: {name}", bytes_in(documents), 1)


def random_units(seed: int, count: int) -> Iterator[Case]:
    """Random units without a fault, each made from its number alone."""
    number = seed * 1_000_000
    while count > 0:
        files = bytes_in(Course(random.Random(number)).documents())
        if first_fault(files) is None:
            yield case_of(f"random unit {number}", files)
            count -= 1
        number += 1


def with_faults(seed: int, count: int) -> Iterator[tuple[str, str, Files]]:
    """Folders with their first fault: those of the table of orders, which has each code, and random ones."""
    for name, fault, documents in order.cases():
        yield f"order: {name}", fault, bytes_in(documents)
    number = seed * 1_000_000
    while count > 0:
        dice = random.Random(number)
        files = bytes_in(mutate(dice, Course(dice).documents()))
        fault = first_fault(files)
        if fault is not None:
            yield f"random folder {number}", fault, files
            count -= 1
        number += 1


def grown() -> Files:
    """A unit whose properties take as many bytes as a file may have; their canonical form is longer by four bytes."""
    most = 4_194_304
    least = folder(level="B")
    empty = '{"datatype":"text","identifier":"t%d","kind":"loc","restrictions":{"enumeration":[%s]}}'
    first = '{"datatype":"duration","identifier":"d","initial":"PT999999999999S","kind":"loc"}'
    text = '"' + "x" * 4000 + '"'
    lists = [",".join([text] * 100)] * 10
    head = '{"properties":[' + ",".join([first] + [empty % (number, each) for number, each in enumerate(lists)]) + ","
    rest = most - len(head) - len(empty % (99, "")) - len("]}")
    parts = [rest // 60] * 59
    parts.append(rest - sum(parts) - 59)
    last = empty % (99, ",".join('"' + "y" * (size - 2) + '"' for size in parts))
    data = (head + last + "]}").encode()
    assert len(data) == most
    return {**bytes_in(least), "properties.json": data}


def write_folder(path: pathlib.Path, files: Files) -> pathlib.Path:
    """Writes the files into a folder that was not there."""
    path.mkdir(parents=True)
    for name, data in files.items():
        (path / name).write_bytes(data)
    return path
