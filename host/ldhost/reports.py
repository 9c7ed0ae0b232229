"""What an import tells, beside the lines of the package of which it tells it."""

import re
from dataclasses import dataclass
from itertools import groupby
from textwrap import dedent
from typing import Callable

from .faults import ROW_LENGTH, TEXTS, Fault, rows_around
from .packages import Entry

MOST_TOLD = 300
LOSSES = ("lost", "changed")
LINE_END = re.compile("\r\n|\n|\r")
OF_ENGINE = re.compile(r"the engine refuses the course: (\S+ \S+) (\S+)")
TextOf = Callable[[str], str | None]


@dataclass(frozen=True)
class Line:
    """A line of a file with what is told of it; without a number, what is told of the whole file."""

    number: int | None
    text: str
    entries: list[Entry]


@dataclass(frozen=True)
class Excerpt:
    file: str
    lines: list[Line]


@dataclass(frozen=True)
class Report:
    counts: dict[str, int]
    losses: list[Excerpt]
    notes: list[Excerpt]
    fault: Fault | None
    """Why the package is refused, if it is."""

    @property
    def is_whole(self) -> bool:
        return not any(self.counts[kind] for kind in LOSSES)


def report_of(entries: list[Entry], text_of: TextOf) -> Report:
    """The report of an import; `text_of` gives the text of a file of the package."""
    counts = {kind: sum(entry.kind == kind for entry in entries) for kind in (*LOSSES, "note")}
    losses = [entry for entry in entries if entry.kind in LOSSES]
    notes = [entry for entry in entries if entry.kind == "note"]
    refusal = next((entry for entry in entries if entry.kind == "refused"), None)
    fault = fault_of(refusal, lines_of(refusal.file, text_of)) if refusal else None
    return Report(counts, excerpts(losses[:MOST_TOLD], text_of), excerpts(notes[:MOST_TOLD], text_of), fault)


def lines_of(file: str, text_of: TextOf) -> list[str]:
    return LINE_END.split(text_of(file) or "")


def excerpts(entries: list[Entry], text_of: TextOf) -> list[Excerpt]:
    """The entries file by file, each beside its line, with the lines before and after it."""
    found = []
    for file, told in groupby(entries, lambda entry: entry.file):
        lines, by_line = lines_of(file, text_of), {}
        for line, here in groupby(told, lambda entry: entry.line):
            by_line[line] = list(here)
        around = {line + step for line in by_line for step in (-1, 0, 1)}
        shown = sorted({line for line in around if 0 < line <= len(lines)} | by_line.keys())
        texts = dedent("\n".join(line_at(lines, number) for number in shown)).split("\n")
        rows = [Line(number or None, text, by_line.get(number, [])) for number, text in zip(shown, texts)]
        found.append(Excerpt(file, rows))
    return found


def line_at(lines: list[str], number: int) -> str:
    return lines[number - 1][:ROW_LENGTH] if 0 < number <= len(lines) else ""


def fault_of(entry: Entry, lines: list[str]) -> Fault:
    """The refusal of a package as a fault of a course is shown. What the engine refuses is explained as always."""
    by_engine = OF_ENGINE.fullmatch(entry.text)
    place, code = by_engine.groups() if by_engine else ("", entry.code)
    text = TEXTS.get(code, code) if by_engine else entry.text[:1].upper() + entry.text[1:] + "."
    fault = Fault(entry.file or "the package", place, code, text)
    if 0 < entry.line <= len(lines):
        fault.line, fault.rows = entry.line, rows_around(lines, entry.line, entry.line)
    return fault
