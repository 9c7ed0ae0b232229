"""From a package to a course folder, whole or not at all."""

import hashlib
import shutil
import tempfile
from dataclasses import dataclass
from pathlib import Path

from . import engine
from .context import Context, Options
from .design import NAMES, Documents, make_documents
from .manifest import CONTENT, Manifest
from .package import MANIFEST, Package
from .report import Refused, Report, print_json


@dataclass(frozen=True)
class Source:
    """A package, and how it is read: which design, how names in an archive are written, which files are copied."""

    path: Path
    design: str | None = None
    zip_names: str | None = None
    all_files: bool = False


def convert(source: Source, target: Path, options: Options, program: str | None) -> Report:
    """Makes the folder and gives the report. Where the package is refused nothing stands at the target."""
    if target.exists() and (not target.is_dir() or any(target.iterdir())):
        raise Refused("folder", f"{target} is there and not empty")
    report = Report()
    package = Package(source.path, source.zip_names)
    manifest = Manifest(package, report, source.design)
    documents, context = make_documents(manifest, package, report, options)
    target.parent.mkdir(parents=True, exist_ok=True)
    work = Path(tempfile.mkdtemp(prefix=".ldimport-", dir=target.parent))
    try:
        write_documents(documents, work)
        judge(documents, work, report, program)
        if report.is_refused():
            return report
        copy(package, manifest, report, work, source.all_files)
        (work / "import.json").write_text(print_json(record(source, package, context)), encoding="utf-8")
        work.chmod(0o755)
        if target.is_dir():
            target.rmdir()
        work.rename(target)
        return report
    finally:
        shutil.rmtree(work, ignore_errors=True)


def write_documents(documents: Documents, work: Path) -> None:
    for name in NAMES:
        if name in documents:
            (work / f"{name}.json").write_text(print_json(documents[name]), encoding="utf-8")


def judge(documents: Documents, work: Path, report: Report, program: str | None) -> None:
    """Asks the engine, where there is one, whether it takes the documents."""
    if program is None:
        report.plain("note", "not-judged", "no engine was found, so nothing judged the course (--engine, LD_ENGINE)")
        return
    fault = engine.ask(program, work)
    if fault is not None:
        report.add(engine.entry_of(documents, fault))


def copy(package: Package, manifest: Manifest, report: Report, work: Path, all_files: bool) -> None:
    """Copies the files below `content/`. The manifest, which has all that is hidden at first, is not among them."""
    listed = manifest.listed()
    others = sorted(set(package.openers) - set(listed))
    for name in listed + (others if all_files else []):
        if name != MANIFEST:
            package.copy(name, work / CONTENT / name)
    for name in others:
        if not all_files and name != MANIFEST and not name.lower().endswith((".xsd", ".dtd")):
            report.plain("note", "unlisted-file", "no resource lists the file: it is not copied (--all-files)", name)


def record(source: Source, package: Package, context: Context) -> dict[str, object]:
    """What the platform may want to know of the import."""
    digest = hashlib.sha256(package.read(MANIFEST)).hexdigest()
    return {
        "package": {"name": source.path.name, "manifest": digest},
        "renamed": context.renamed,
        "services": context.services,
        "pages": context.page_files,
        "report": context.report.as_json(),
    }
