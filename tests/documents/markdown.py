"""Reads what the documents show: blocks of code, each with its name, and commands.

A block that the tests use has a name behind its language: "```json roles.json" is a document of a folder, and
"```text examples/first.lines" is that file.
"""
import collections
import pathlib
import re

ROOT = pathlib.Path(__file__).resolve().parent.parent.parent
Block = collections.namedtuple("Block", "language name text place")


def documents():
    """The documents for readers."""
    return [ROOT / "README.md", ROOT / "examples/README.md", *sorted((ROOT / "docs").glob("*.md"))]


def sections(text, level):
    """The headings of a level, each with the text behind it, up to the next heading of that level or a higher one."""
    parts = re.split(rf"^(#{{1,{level}}}) (.*)\n", text, flags=re.MULTILINE)[1:]
    return {title: body for marks, title, body in zip(parts[::3], parts[1::3], parts[2::3]) if len(marks) == level}


def blocks(text):
    """The blocks of code that have a name."""
    found = re.finditer(r"^```(\S+) (.+)\n((?:.*\n)*?)```$", text, re.MULTILINE)
    return [Block(each[1], each[2], each[3], each.start()) for each in found]


def commands(text):
    """The commands that a text shows: the lines of indented code that begin with the name of a program."""
    text = re.sub(r"^```.*\n(?:.*\n)*?```$", "", text, flags=re.MULTILINE)
    return re.findall(r"^    ((?:\./|\.ci/|tests/|cd |rt |python3 ).*?)(?:   .*)?$", text, re.MULTILINE)
