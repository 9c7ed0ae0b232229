"""python3 -m ldexport FOLDER PACKAGE: makes a package of IMS Learning Design of a course folder.

Statuses: 0 exported whole; 1 exported with losses, which are listed; 2 wrong words; 3 refused; 4 a file could not be
read or written, the engine could not be asked, or this tool failed; 5 exported, but no engine judged the folder.
"""

import argparse
import sys
import traceback
from pathlib import Path

from ldimport import engine
from ldimport.report import Refused

from .convert import convert


def parse_words(words: list[str] | None = None) -> argparse.Namespace:
    parser = argparse.ArgumentParser(
        prog="ldexport", description="Makes a package of IMS Learning Design of a course folder."
    )
    parser.add_argument("folder", type=Path, help="the course folder")
    parser.add_argument("package", type=Path, help="the package, which must not be there: NAME.zip, or a folder")
    parser.add_argument("--engine", metavar="PROGRAM", help="the engine that judges the folder (README.md)")
    return parser.parse_args(words)


def run(given: argparse.Namespace) -> int:
    program = engine.find_engine(given.engine)
    fault = engine.ask(program, given.folder) if program else None
    if fault is not None:
        raise Refused("engine", f"the engine refuses the course: {fault}")
    report = convert(given.folder, given.package)
    if program is None:
        report.plain("note", "not-judged", "no engine was found, so nothing judged the course (--engine, LD_ENGINE)")
    print(report, report.summary("exported"), sep="")
    if program is None:
        return 5
    return 0 if report.is_whole() else 1


def main(words: list[str] | None = None) -> int:
    given = parse_words(words)
    try:
        return run(given)
    except Refused as refusal:
        print(refusal.entry)
        return 3
    except OSError as fault:
        print(f"ldexport: {fault}", file=sys.stderr)
        return 4
    except Exception:  # a fault of this tool must not look like status 1
        traceback.print_exc()
        return 4


if __name__ == "__main__":
    sys.exit(main())
