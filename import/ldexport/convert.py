"""From a course folder to a package, whole or not at all."""

import json
import shutil
import tempfile
import xml.etree.ElementTree as ET
import zipfile
from pathlib import Path

from ldimport.package import MANIFEST
from ldimport.report import Refused, Report

from .completion import Completion
from .components import Components
from .expressions import Expressions
from .folder import Folder
from .method import Method
from .resources import Resources
from .tree import PACKAGING, Texts, add, add_packaging

MOMENT = (1980, 1, 1, 0, 0, 0)  # of the files in an archive, so that the same course gives the same bytes


def convert(source: Path, target: Path) -> Report:
    """Makes the package, a zip archive where the target is named so and else a folder, and gives the report."""
    if target.exists():
        raise Refused("package", f"{target} is there")
    report = Report()
    try:
        folder = Folder(source)
        resources = Resources(folder, report)
        manifest = make_manifest(folder, report, resources)
        names = resources.write(manifest)
    except (KeyError, TypeError, ValueError, AttributeError, RecursionError) as fault:
        raise Refused("no-course", f"the engine would not take the folder: {fault!r}") from None
    ET.indent(manifest)
    document = ET.tostring(manifest, encoding="UTF-8", xml_declaration=True)
    target.parent.mkdir(parents=True, exist_ok=True)
    work = Path(tempfile.mkdtemp(prefix=".ldexport-", dir=target.parent))
    try:
        files = {name: folder.files[name] for name in names}
        made = work / "package"
        if target.suffix == ".zip":
            write_archive(made, document, files)
        else:
            write_folder(made, document, files)
        made.rename(target)
    finally:
        shutil.rmtree(work, ignore_errors=True)
    return report


def make_manifest(folder: Folder, report: Report, resources: Resources) -> ET.Element:
    unit, texts = folder.unit, Texts(report)
    facts = facts_of(folder, report)
    name = folder.fresh(facts.get("package", f"package-{unit['identifier']}"))
    manifest = ET.Element(f"{{{PACKAGING}}}manifest", {"identifier": name})
    metadata = add_packaging(manifest, "metadata")
    add_packaging(metadata, "schema").text = "IMS Content"
    add_packaging(metadata, "schemaversion").text = "1.1.3"
    design = add(
        add_packaging(manifest, "organizations"),
        "learning-design",
        identifier=unit["identifier"],
        uri=facts.get("uri", f"urn:ld:{unit['identifier']}"),
        version=facts.get("version"),
        level=unit["level"],
        sequence_used="false",
    )
    texts.title(design, unit)
    for member in ("learning-objectives", "prerequisites"):
        resources.container(design, member, unit.get(member, []))
    expressions = Expressions(folder, report)
    completion = Completion(expressions, resources)
    Components(folder, report, resources, completion).write(design)
    Method(folder, report, expressions, completion).write(design)
    tell_losses(folder, report)
    return manifest


def facts_of(folder: Folder, report: Report) -> dict[str, str]:
    """What an import left as the unit's metadata. Other metadata is lost."""
    text = folder.unit.get("metadata")
    if text is None:
        return {}
    try:
        found = json.loads(text)
    except ValueError:
        found = None
    if isinstance(found, dict) and found.get("from") == "imsld":
        return {key: value for key, value in found.items() if isinstance(value, str)}
    report.plain("lost", "metadata", "a package has no place for such metadata of a unit", "unit.json")
    return {}


def tell_losses(folder: Folder, report: Report) -> None:
    if folder.unit.get("turns", 64) != 64:
        report.plain("changed", "turns", "a package says nothing of the number of turns", "unit.json")
    carried = folder.record.get("pages", {})
    for page in folder.pages:
        if page["identifier"] not in carried:
            told = "the page stands in no XHTML file of the course"
            report.plain("lost", "page", told, "pages.json", 0, page["identifier"])


def write_folder(made: Path, document: bytes, files: dict[str, Path]) -> None:
    made.mkdir()
    for name, path in files.items():
        (made / name).parent.mkdir(parents=True, exist_ok=True)
        shutil.copyfile(path, made / name)
    (made / MANIFEST).write_bytes(document)


def write_archive(made: Path, document: bytes, files: dict[str, Path]) -> None:
    with zipfile.ZipFile(made, "w", zipfile.ZIP_DEFLATED) as archive:
        archive.writestr(zipfile.ZipInfo(MANIFEST, MOMENT), document, zipfile.ZIP_DEFLATED)
        for name, path in files.items():
            with open(path, "rb") as source, archive.open(zipfile.ZipInfo(name, MOMENT), "w") as entry:
                shutil.copyfileobj(source, entry)
