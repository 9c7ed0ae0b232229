"""Random changes of the samples. Whatever comes in, the import ends with a report.

    python3 -m tests.changes SEED COUNT

What it writes is a folder that the engine takes, or refuses by a fault with a line of the manifest. The program counts
how the imports ended.
"""

import collections
import random
import shutil
import sys
import tempfile
import xml.etree.ElementTree as ET
from pathlib import Path

from ldimport import engine
from ldimport.context import Options
from ldimport.convert import Source, convert
from ldimport.report import Refused

SAMPLES = Path(__file__).resolve().parent.parent / "samples"
NAMES = ("theory", "personal", "notify", "jigsaw")
TEXTS = [
    "",
    "0",
    "1",
    "-1",
    "3.5",
    "true",
    "false",
    "P1D",
    "PT1H",
    "P1M",
    "2024-01-01T00:00:00",
    "ü b",
    "../x",
    "theory",
]
TEXTS += ["2024-01-01T00:00:00+02:00", "x" * 300, "x" * 5000, "99999999999999999999"]
WORDS = [
    "true",
    "false",
    "sequence",
    "selection",
    "allowed",
    "exclusively-in-roles",
    "A",
    "B",
    "C",
    "0",
    "1",
    "2",
    "500",
]
WORDS += ["integer", "string", "real", "boolean", "datetime", "duration", "file", "uri", "", "pattern", "enumeration"]
WORDS += ["minInclusive", "maxInclusive", "maxLength"]


def change_once(draw, nodes, parents, names):
    node = draw.choice(nodes)
    parent = parents.get(node)
    kind = draw.randrange(7)
    if kind == 0 and parent is not None and node in list(parent):
        parent.remove(node)
    elif kind == 1 and parent is not None:
        parent.insert(draw.randint(0, len(parent)), node)
    elif kind == 2:
        node.text = draw.choice(TEXTS)
    elif kind == 3 and node.attrib:
        node.set(draw.choice(list(node.attrib)), draw.choice(names + WORDS))
    elif kind == 4:
        other = draw.choice(nodes)
        if "learning-design" not in other.tag and node not in list(other.iter()):
            node.insert(draw.randint(0, len(node)), other)
    elif kind == 5:
        draw.choice([other for other in nodes if other.get("ref")]).set("ref", draw.choice(names))
    elif node.attrib:
        node.attrib.pop(draw.choice(list(node.attrib)))


def change(draw, root):
    """Changes one to six things in a manifest."""
    nodes = list(root.iter())
    parents = {child: node for node in nodes for child in node}
    names = [node.get(word) for word in ("identifier", "ref") for node in nodes if node.get(word)]
    for _ in range(draw.randint(1, 6)):
        change_once(draw, nodes, parents, names)


def ending(seed, program, formats):
    """How the import of the changed sample of this seed ended: a word and, where it is one, the engine's entry."""
    draw = random.Random(seed)
    with tempfile.TemporaryDirectory() as place:
        package = Path(place, "package")
        shutil.copytree(SAMPLES / draw.choice(NAMES), package)
        document = ET.parse(package / "imsmanifest.xml")
        change(draw, document.getroot())
        try:
            document.write(package / "imsmanifest.xml", encoding="utf-8", xml_declaration=True)
        except RecursionError:
            return "knot", None
        options = Options(draw.choice(formats), draw.random() < 0.5)
        try:
            report = convert(Source(package), Path(place, "course"), options, program)
        except Refused as refusal:
            return f"refused {refusal.entry.code}", None
        for entry in report.entries:
            if entry.kind == "refused":
                return f"engine {entry.text.split()[-1]}", entry
        return "whole" if report.is_whole() else "losses", None


def main():
    first, count = int(sys.argv[1]), int(sys.argv[2])
    ended = collections.Counter()
    for seed in range(first, first + count):
        try:
            word, entry = ending(seed, engine.find_engine(None), [1, 2])
        except Exception:
            print("seed", seed, flush=True)
            raise
        ended[word] += 1
        if entry is not None:
            print(seed, entry, flush=True)
            if not entry.line:
                raise SystemExit(f"seed {seed}: the engine's fault has no line")
    print(dict(ended))


if __name__ == "__main__":
    main()
