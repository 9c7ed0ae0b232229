"""python3 -m ldimport PACKAGE FOLDER: makes a course folder of a package of IMS Learning Design.

Statuses: 0 imported whole; 1 imported with losses, which are listed; 2 wrong words; 3 refused; 4 a file could not be
read or written, the engine could not be asked, or this tool failed; 5 imported, but no engine judged the result.
"""

import argparse
import sys
import traceback
from pathlib import Path

from .context import Options
from .convert import Source, convert
from .engine import find_engine
from .report import Refused, Report, print_json


def parse_words(words: list[str] | None = None) -> argparse.Namespace:
    parser = argparse.ArgumentParser(
        prog="ldimport", description="Makes a course folder of a package of IMS Learning Design."
    )
    parser.add_argument("package", type=Path, help="a zip archive or a folder with imsmanifest.xml")
    parser.add_argument("folder", type=Path, help="the course folder; it must not be there, or be empty")
    parser.add_argument("--engine", metavar="PROGRAM", help="the engine that judges the result (README.md)")
    parser.add_argument(
        "--format", type=int, choices=(1, 2), default=1, help="2: occurrences of roles, support for each person"
    )
    parser.add_argument("--pages", action="store_true", help="carry properties in XHTML over, as pages.json")
    parser.add_argument("--identifier", metavar="ID", help="the unit's identifier")
    parser.add_argument("--design", metavar="ID", help="the learning design, where there are several")
    parser.add_argument("--all-files", action="store_true", help="copy files that no resource lists, too")
    parser.add_argument(
        "--zip-names", metavar="ENCODING", help="how the archive writes names not marked as UTF-8: cp1252, for one"
    )
    parser.add_argument("--report", type=Path, metavar="FILE", help="write what is told to this file, too, as JSON")
    return parser.parse_args(words)


def run(given: argparse.Namespace) -> int:
    options = Options(given.format, given.pages, given.identifier)
    source = Source(given.package, given.design, given.zip_names, given.all_files)
    program = find_engine(given.engine)
    try:
        report = convert(source, given.folder, options, program)
    except Refused as refusal:
        report = Report()
        report.add(refusal.entry)
        print(refusal.entry)
    else:
        print(report, report.summary("imported"), sep="")
    if given.report:
        given.report.write_text(print_json(report.as_json()), encoding="utf-8")
    if report.is_refused():
        return 3
    if program is None:
        return 5
    return 0 if report.is_whole() else 1


def main(words: list[str] | None = None) -> int:
    given = parse_words(words)
    try:
        return run(given)
    except OSError as fault:
        print(f"ldimport: {fault}", file=sys.stderr)
        return 4
    except Exception:  # a fault of this tool must not look like status 1
        traceback.print_exc()
        return 4


if __name__ == "__main__":
    sys.exit(main())
