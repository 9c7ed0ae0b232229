"""Lists of persons as CSV: `person,role` in each row, with the role or without it."""

import csv
import io

from .house import IDENTIFIER

MOST_ROWS = 1000


class BadList(Exception):
    """The list can't be read; says where."""


def rows_of(text: str) -> list[tuple[str, str]]:
    """The persons with their roles, in their order; an empty role where none is given. A heading is passed over."""
    rows = []
    reader = csv.reader(io.StringIO(text), strict=True, delimiter=";" if is_by_semicolon(text) else ",")
    try:
        for number, row in enumerate(reader, 1):
            words = [word.strip() for word in row]
            if not any(words) or (number == 1 and words[0].lower() == "person"):
                continue
            rows.append(row_of(number, words))
    except csv.Error as error:
        raise BadList(f"row {reader.line_num}: {error}") from None
    if len(rows) > MOST_ROWS:
        raise BadList(f"more than {MOST_ROWS} rows")
    return rows


def is_by_semicolon(text: str) -> bool:
    """Whether the words are parted as spreadsheets do in countries with a decimal comma."""
    first = text.split("\n", 1)[0]
    return ";" in first and "," not in first


def row_of(number: int, words: list[str]) -> tuple[str, str]:
    person, role = words[0], words[1] if len(words) > 1 else ""
    if len(words) > 2 or not IDENTIFIER.fullmatch(person) or (role and not IDENTIFIER.fullmatch(role)):
        raise BadList(f"row {number} is not 'person,role', with names of letters, digits, '_', '-' and '.'")
    return person, role
