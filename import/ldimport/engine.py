"""Asks the engine whether it takes a folder, and finds the element of the package behind its answer."""

import os
import subprocess
from collections.abc import Mapping
from dataclasses import dataclass
from pathlib import Path
from typing import Any

from .report import Entry
from .xmltree import Node

OWN_PROGRAM = Path(__file__).resolve().parents[2] / "crates" / "ld_program" / "out" / "ld_program"
LONGEST = 300


@dataclass(frozen=True)
class Fault:
    """The first fault of a folder (docs/FORMATS.md, "Order of faults")."""

    file: str
    place: str
    code: str

    def __str__(self) -> str:
        return f"{self.file} {self.place} {self.code}"


def find_engine(given: str | None) -> str | None:
    """The given program, else that of LD_ENGINE, else the one that is built in this repository, else None."""
    named = given or os.environ.get("LD_ENGINE")
    if named:
        return named
    return str(OWN_PROGRAM) if os.access(OWN_PROGRAM, os.X_OK) else None


def ask(program: str, folder: Path) -> Fault | None:
    """The fault that the engine finds in the folder, or None where it takes it."""
    words = [program, "replay", str(folder)]
    try:
        done = subprocess.run(words, stdin=subprocess.DEVNULL, capture_output=True, timeout=LONGEST, check=False)
    except subprocess.TimeoutExpired:
        raise OSError(f"the engine gave no answer within {LONGEST} seconds") from None
    answer = done.stdout.decode(errors="replace").split()
    if done.returncode == 0 and not answer:
        return None
    if done.returncode == 4 and len(answer) == 5 and answer[0] == "refused":
        return Fault(*answer[2:])
    raise OSError(f"the engine ended with status {done.returncode}")


def origin(documents: Mapping[str, Any], fault: Fault) -> Node | None:
    """The element from which the thing at a JSON pointer comes: that of the innermost object around it."""
    at = documents.get(fault.file.removesuffix(".json"))
    node: Node | None = getattr(at, "node", None)
    for step in fault.place.split("/")[1:]:
        step = step.replace("~1", "/").replace("~0", "~")
        try:
            at = at[int(step)] if isinstance(at, list) else at[step]  # type: ignore[index]
        except (KeyError, IndexError, ValueError, TypeError):
            break
        node = getattr(at, "node", node)
    return node


def entry_of(documents: Mapping[str, Any], fault: Fault) -> Entry:
    """The fault at the line of the manifest from which it comes."""
    node, text = origin(documents, fault), f"the engine refuses the course: {fault}"
    if node is None:
        return Entry("", 0, "refused", "engine", "", "", text)
    return Entry(node.file, node.line, "refused", "engine", node.tag, node.name(), text)
