"""Runs the program on the examples of docs/FORMATS.md, "Fault codes".

The section of a code has one or more lines `refused as ..`, each with the documents of a folder behind it, and then a
line `Accepted:` with the documents that take their place. The rest of the folder stands at the top of the section. A
name `second/unit.json` is a document of the second of two folders, and a block of the language `folder` lists which
documents are there at all.
"""
import pathlib
import re
import subprocess
import tempfile

from markdown import ROOT, blocks, sections

LONGEST = 60


def fault_section():
    return sections((ROOT / "docs/FORMATS.md").read_text(), 2)["Fault codes"]


def examples_of(text):
    """The examples of a code's section: the line that is refused, its documents, and those that are accepted."""
    parts = re.split(r"[Rr]efused as `(refused .*)`:\n", text)
    for refused, body in zip(parts[1::2], parts[2::2]):
        wrong, _, right = body.partition("\nAccepted:\n")
        yield refused, wrong, right


def document_of(block):
    """The text of a document: as it stands, or what the Python expression makes."""
    if block.language != "python":
        return block.text
    import json
    return json.dumps(eval(block.text, {}))


def folders_of(common, *texts):
    """The documents of each folder, by its name: the common ones, and those of the texts in their place."""
    shown = [block for text in texts for block in blocks(text)]
    kept = [text.splitlines() for text in re.findall(r"^```folder\n((?:.*\n)*?)```$", texts[-1], re.MULTILINE)]
    names = ["first", "second"] if any("/" in block.name for block in shown) else ["only"]
    folders = {name: {block.name: block.text for block in blocks(common)} for name in names}
    for block in shown:
        folder, _, file = block.name.rpartition("/")
        folders[folder or "only"][file] = document_of(block)
    for names in kept:
        folders["only"] = {name: folders["only"][name] for name in names}
    return folders


def answer(program, folders):
    """The status of the program over these folders, and what it writes."""
    with tempfile.TemporaryDirectory() as room:
        for name, documents in folders.items():
            (pathlib.Path(room) / name).mkdir()
            for file, text in documents.items():
                (pathlib.Path(room) / name / file).write_text(text)
        done = subprocess.run([program, "replay", *folders], cwd=room, stdin=subprocess.DEVNULL, capture_output=True,
                              timeout=LONGEST, check=False)
    return done.returncode, done.stdout.decode()


def judge(program, code, common, example):
    """What is wrong with an example, or None."""
    refused, wrong, right = example
    if not right.strip() or not refused.endswith(f" {code}"):
        return f"`{refused}` has no accepted documents, or another code"
    if wrong.strip() == right.strip():
        return f"`{refused}` has the same documents where it is accepted"
    got = answer(program, folders_of(common, wrong))
    if got != (4, refused + "\n"):
        return f"`{refused}`: the program gives {got}"
    got = answer(program, folders_of(common, wrong, right))
    return None if got == (0, "") else f"what is accepted after `{refused}`: the program gives {got}"


def cases(program):
    """The name of each check of the section, and what is wrong, or None."""
    section = fault_section()
    common = section.partition("\n### ")[0]
    got = answer(program, folders_of(common, ""))
    yield "the folder of the examples", None if got == (0, "") else f"the program gives {got}"
    for title, text in sections(section, 3).items():
        code, examples = title.strip("`"), list(examples_of(text))
        if not examples:
            yield code, "no example"
        for example in examples:
            yield code, judge(program, code, common, example)
