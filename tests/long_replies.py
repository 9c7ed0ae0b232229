#!/usr/bin/env python3
"""Asks the program for trees of few and of very many lines, among short replies, and looks at each reply.

    long_replies.py PROGRAM

Trees of 5 to 10,001 lines are asked for: around each number at which the count of their lines gets a digit more. The
tree is asked for again and again, between lines with short replies, all in one piece and in pieces. What is to
come is written here from docs/COMMANDS.md and docs/MEANING.md.
"""
import json
import pathlib
import subprocess
import sys
import tempfile

SIZES = [5, 9, 10, 11, 99, 100, 999, 1000, 4005, 9999, 10000, 10001]
PIECES = [1 << 20, 4096, 700]
MOST_ITEMS = 2000


def parts_and_items(size):
    """How many role-parts show the activity, and how many items it has, for a tree of at least so many lines.

    The unit, the play and the act have a line each, each role-part one, and below it the activity with its items.
    """
    parts = 1 + (size - 5) // (MOST_ITEMS + 2)
    return parts, (size - 3) // parts - 2


def write_unit(folder, size):
    """Writes the documents of a unit whose tree has so many lines, and gives the lines behind the first one."""
    parts, items = parts_and_items(size)
    more = size - 3 - parts * (items + 2)
    read = {"identifier": "read", "complete": {"user-choice": True}, "title": "T\u00e9xt \"1\"",
            "items": [{"identifier": f"i{n}", "href": f"text/{n}.html"} for n in range(items)]}
    rest = {"identifier": "rest", "complete": {"user-choice": True},
            "items": [{"identifier": f"r{n}", "href": "r.html"} for n in range(max(more - 2, 0))]}
    roles = [{"identifier": f"p{n}", "role": "learner", "ref": "read"} for n in range(parts)]
    lines = ["unit u open", "  play play open", "    act act open"]
    for part in roles:
        lines += [f"      part {part['identifier']} open", '        activity read open "T\u00e9xt \\"1\\""']
        lines += [f"          item i{n} text/{n}.html" for n in range(items)]
    if more == 1:
        # One line more: an item of the activity that is shown once.
        roles[-1]["ref"] = "rest"
        rest["items"] = [{"identifier": f"r{n}", "href": "r.html"} for n in range(items + 1)]
        lines = lines[:-(items + 1)] + ["        activity rest open"]
        lines += [f"          item r{n} r.html" for n in range(items + 1)]
    elif more > 1:
        roles.append({"identifier": "last", "role": "learner", "ref": "rest"})
        lines += ["      part last open", "        activity rest open"]
        lines += [f"          item r{n} r.html" for n in range(more - 2)]
    documents = {
        "roles.json": {"roles": [{"identifier": "learner", "kind": "learner"}]},
        "activities.json": {"activities": [read, rest]},
        "unit.json": {"format": 1, "identifier": "u", "level": "A", "method": {"plays": [
            {"identifier": "play", "acts": [{"identifier": "act", "role-parts": roles}]}]}},
    }
    for name, document in documents.items():
        if name == "activities.json":
            for activity in document["activities"]:
                if not activity["items"]:
                    del activity["items"]
        (folder / name).write_text(json.dumps(document))
    assert len(lines) == size, (size, len(lines))
    return "\n".join(lines) + "\n"


def lines_and_replies(size, tree):
    """Lines of which some ask for the tree, and their replies."""
    work = "turns=0 fired=0 rejected=0 sent=0"
    shown = (["tree", "r", "ann"], f"ok tree {work} lines={size}\n{tree}")
    short = (["tick", "r"], f"ok tick {work}\n")
    turns = [shown, short, shown, shown] + [short] * 400 + [shown, (["tree", "r", "nobody"], "no 8 unknown-person\n"), short]
    begins = [["create", "r", "u"], ["enrol", "r", "ann"], ["assign", "r", "ann", "learner"], ["start", "r"]]
    lines = b"".join(json.dumps(["2024-01-01T08:00:00Z"] + words).encode() + b"\n"
                     for words in begins + [words for words, _ in turns])
    return lines, "".join(reply for _, reply in turns).encode()


def answers(program, folder, lines, piece):
    """What the program writes, less its first four lines, where the lines come in pieces."""
    with subprocess.Popen([program, "replay", folder], stdin=subprocess.PIPE, stdout=subprocess.PIPE) as running:
        source = tempfile.TemporaryFile()
        source.write(lines)
        source.seek(0)
        feeder = subprocess.Popen(["dd", f"bs={piece}", "status=none"], stdin=source, stdout=running.stdin)
        running.stdin.close()
        written = running.stdout.read()
        feeder.wait()
        if running.wait() != 0:
            return b""
    return b"".join(written.splitlines(keepends=True)[4:])


def main():
    program = sys.argv[1]
    faults = 0
    for size in SIZES:
        with tempfile.TemporaryDirectory() as name:
            lines, replies = lines_and_replies(size, write_unit(pathlib.Path(name), size))
            for piece in PIECES:
                if answers(program, name, lines, piece) != replies:
                    faults += 1
                    print(f"a tree of {size} lines, asked for in pieces of {piece}: other replies")
    print(f"{len(SIZES) * len(PIECES)} calls, {faults} with a fault")
    sys.exit(1 if faults else 0)


main()
