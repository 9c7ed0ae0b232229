"""Checks that the paths, sections and names which documents and comments cite are there."""
import re

from markdown import ROOT, documents, sections

CODE = (".rt", ".antt", ".py")


def sources():
    """The files of the crates and of the tests."""
    return [path for folder in ("crates", "tests") for path in (ROOT / folder).rglob("*")
            if "out" not in path.parts and path.suffix in (*CODE, ".edit")]


def known_words(files):
    """All words of the crates: names of the code, of definitions, of files and of crates."""
    words = {path.stem for path in files} | {path.name for path in (ROOT / "crates").iterdir()}
    for path in files:
        if path.suffix in (".rt", ".antt"):
            words.update(re.findall(r"[^\W\d]\w*", path.read_text()))
    return words


def paths_in(text):
    """The paths of the repository that a text cites."""
    return sorted({path.rstrip(".") for path in re.findall(r"\b(?:crates|tests|docs|examples|schemas)/[\w/.*-]*", text)})


def titles_of(text):
    """The headings of a document, and the sentences that begin its points."""
    found = re.findall(r"^#+ (.*)$|^- \*\*(.*?)\*\*", text, re.MULTILINE)
    return {(heading or point).strip("`. ") for heading, point in found}


def lost_sections(files):
    """The sections of documents that are cited and not there."""
    lost = set()
    for path in [*files, *documents(), *(ROOT / "schemas").glob("*.json")]:
        text = re.sub(r"\s+(?://[/!]?|#|--)?\s*", " ", path.read_text())
        for name, title in re.findall(r'(docs/[A-Z]+\.md), "([^"]+)"', text):
            if title not in titles_of((ROOT / name).read_text()):
                lost.add(f"{name}, {title}")
    return sorted(lost)


def cases():
    """The name of each check, and what is wrong, or None."""
    files = sources()
    file_names, words = {path.name for path in files}, known_words(files)
    for document in documents():
        text = document.read_text()
        lost = [path for path in paths_in(text) if "NAME" not in path and "/out/" not in path and not any(ROOT.glob(path.rstrip("/")))]
        lost += [name for name in re.findall(r"\b\w+\.(?:rt|antt)\b", text) if name not in file_names]
        yield f"paths in {document.name}", f"not there: {', '.join(lost)}" if lost else None
    lost = lost_sections(files)
    yield "sections that are cited", f"not there: {'; '.join(lost)}" if lost else None
    text = (ROOT / "docs/PROOFS.md").read_text()
    text = text.replace(sections(text, 2)["Trusted"], "")
    quoted = [each for each in re.findall(r"`([^`]*)`", text) if re.fullmatch(r"[\w:.]+", each)]
    names = {part for each in quoted for part in re.findall(r"[^\W\d]\w*", each)}
    lost = sorted(name for name in names if name not in words)
    yield "names in PROOFS.md", f"not in the sources: {', '.join(lost)}" if lost or not names else None
