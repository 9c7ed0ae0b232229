"""Compares the words of the code with those of the documents and of the tests, both ways; and the map with crates.txt."""
import re
import sys

from markdown import ROOT, sections

sys.path += [str(ROOT / "tests/lines"), str(ROOT / "tests/histories")]

import counts  # noqa: E402
import verbs  # noqa: E402


def read(path):
    return (ROOT / path).read_text()


def rows(path, pattern):
    """What a pattern finds in a file: one row for each place."""
    return sorted(re.findall(pattern, read(path), re.MULTILINE))


def statuses_of_code():
    """The status numbers with their words."""
    files = sorted((ROOT / "crates/ld_top/src").rglob("*.rt"))
    return sorted(row for file in files for row in re.findall(r'^ *(\d+) => "([a-z-]+)",$', file.read_text(), re.MULTILINE))


def verbs_of_code():
    return sorted(one or other for one, other in
                  rows("crates/ld_lines/src/verbs.rt", r'^        "([a-z-]+)" => |is_word\(verb, "([a-z-]+)"\)'))


def refusals_told():
    """The refusals that the program gives, each with the word of its number."""
    words = dict(rows("crates/ld_lines/src/refusal.rt", r'^ *(\d+) => "([a-z-]+)",$'))
    numbers = rows("crates/ld_admission/src/refusal.rt", r"^ *Refusal::.* => (\d+),$")
    return sorted((number, words.get(number)) for number in numbers)


def codes_of_documents():
    return sorted(title.strip("`") for title in sections(read("docs/FORMATS.md"), 3) if title.startswith("`"))


def verbs_of_histories():
    """The verbs of which the random histories have to have enough."""
    return sorted(kind for group, _, kinds in counts.LEAST if group == "done" for kind in kinds)


def refusals_of_histories():
    """The refusals of which they have to have some; running out of memory is none that a test can ask for."""
    told = [kind.split(" ") for group, _, kinds in counts.LEAST if group == "refused" for kind in kinds]
    return sorted([(number, word) for number, word in told if number.isdigit()] + [("99", "no-memory")])


def crates():
    """Each crate of crates.txt with those that it stands on."""
    lines = [line.partition("#")[0].partition(":") for line in read("crates.txt").splitlines()]
    return {head.split()[0]: rest.split() for head, colon, rest in lines if colon}


def map_fault():
    """What is wrong with the order of the crates in the tables of docs/MAP.md, or None."""
    named, listed = crates(), re.findall(r"^\| (ld_\w+) \| ", read("docs/MAP.md"), re.MULTILINE)
    if sorted(listed) != sorted(named):
        return f"the map and crates.txt differ in {sorted(set(listed) ^ set(named)) or 'a crate that stands twice'}"
    late = [f"{name} on {each}" for place, name in enumerate(listed) for each in named[name]
            if each in named and each not in listed[:place]]
    return f"out of order: {', '.join(late)}" if late else None


# What is compared: its name, the words of the code and those of the document, or of the test.
PAIRS = [
    ("statuses", statuses_of_code, lambda: rows("docs/COMMANDS.md", r"^\| (\d+) \| `([a-z-]+)` \|")),
    ("verbs", verbs_of_code, lambda: rows("docs/COMMANDS.md", r"^\| `([a-z-]+) (?:RUN|URI)")),
    ("verbs of tests/lines", verbs_of_code, lambda: sorted(verbs.VERBS)),
    ("verbs of tests/histories", verbs_of_code, verbs_of_histories),
    ("refusals of tests/histories", refusals_told, refusals_of_histories),
    ("refusals", refusals_told, lambda: rows("docs/COMMANDS.md", r"^\| `no (\d+) ([a-z-]+)")),
    ("fault codes", lambda: rows("crates/ld_json/src/code.rt", r'^ *Code::\w+ => "([a-z-]+)",$'), codes_of_documents),
]


def cases():
    """The name of each comparison, and what is wrong, or None."""
    for name, of_code, of_document in PAIRS:
        code, document = of_code(), of_document()
        if not code:
            yield name, "the code has none that this test finds"
        elif code != document:
            yield name, f"the code has {code}, and here stand {document}"
        else:
            yield name, None
    yield "the map of crates", map_fault()
