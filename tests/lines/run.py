#!/usr/bin/env python3
"""Runs the program on command lines of each form and of none, and compares its replies.

    run.py PROGRAM [WORD]

The lines and the replies that they are to get stand in verbs.py and texts.py, written from docs/COMMANDS.md and
not from the program. A case is a name, an input and its replies. With a WORD, only the cases whose names have
it are run. Lines that are no command change nothing, so those of one kind are given to one call.
"""
import json
import pathlib
import subprocess
import sys
import tempfile

import texts
import verbs

BAD = "no 1 bad-line"
EARLY, START, NOW = "2024-01-01T08:00:00Z", "2024-01-01T09:00:00Z", "2024-01-01T09:00:00Z"
UNIT = {
    "roles.json": {"roles": [{"identifier": "learner", "kind": "learner"}]},
    "activities.json": {"activities": [{"identifier": "read", "complete": {"user-choice": True}}]},
    "unit.json": {"format": 1, "identifier": "u", "level": "A", "method": {"plays": [
        {"identifier": "p", "acts": [{"identifier": "a", "role-parts": [
            {"identifier": "rp", "role": "learner", "ref": "read"}]}]}]}},
}


def line(moment, words):
    """The bytes of a command line."""
    return json.dumps([moment] + words, ensure_ascii=False).encode()


def before(verb):
    """The lines before the verb's own one, and their replies."""
    lines, replies = [], []
    for words in verbs.VERBS[verb][0]:
        lines.append(line(START if words[0] == "start" else EARLY, words))
        replies += verbs.VERBS[words[0]][3]
    return lines, replies


def right_cases():
    """Each verb with right words."""
    rows = [(verb, form[2]) for verb, form in verbs.VERBS.items()] + verbs.MORE_RIGHT
    for verb, words in rows:
        lines, replies = before(verb)
        yield f"{verb} with right words", lines + [line(NOW, [verb] + words)], replies + verbs.VERBS[verb][3]


def wrong_words(verb):
    """The verb with too few words, too many, and with each word in a wrong form."""
    _, kinds, words, _ = verbs.VERBS[verb]
    for count in range(len(words)):
        yield [verb] + words[:count]
    yield [verb] + words + ["x"]
    yield [verb] + words + [""]
    yield [verb] + words + words
    for place, kind in enumerate(kinds):
        for word in verbs.WRONG[kind]:
            yield [verb] + words[:place] + [word] + words[place + 1:]


def wrong_json(right):
    """The line cut short, with more behind it, and with a text that is none."""
    return [right[:-1], right[:-2], right[1:], right + b"]", right + right, b"[" + right + b"]",
            right.replace(b'"', b"'"), right.replace(b", ", b" "), right.replace(b'", "', b'", 7, "', 1)]


def wrong_cases():
    """Each verb with wrong words, and what is no verb, where right words would be done."""
    for verb in verbs.VERBS:
        lines, replies = before(verb)
        wrong = [line(NOW, words) for words in wrong_words(verb)]
        yield f"{verb} with wrong words", lines + wrong, replies + [BAD] * len(wrong)
        wrong = [line(moment, [verb] + verbs.VERBS[verb][2]) for moment in texts.NO_MOMENTS]
        wrong += wrong_json(line(NOW, [verb] + verbs.VERBS[verb][2]))
        yield f"{verb} at no moment, and in no JSON", lines + wrong, replies + [BAD] * len(wrong)
    lines, replies = before("start")
    wrong = [line(NOW, [word] + more) for word in verbs.NO_VERBS for more in (["r"], ["r", "ann"], ["urn:g", ""])]
    wrong += [line(NOW, words) for words in verbs.OTHER_WORDS] + [line(NOW, [])]
    wrong += [line(moment, ["start", "r"]) for moment in texts.NO_MOMENTS] + texts.NO_JSON + texts.OTHER_JSON
    yield "no verbs, no moments, no arrays of texts", lines + wrong, replies + [BAD] * len(wrong)


def form_cases():
    """Identifiers and moments that have the form, and ways to write a line."""
    work, opens = verbs.WORK, verbs.OPENS
    for name in verbs.RIGHT_IDENTIFIERS:
        lines = [line(EARLY, ["create", name, "u"]), line(EARLY, ["enrol", name, name]), line(START, ["start", name])]
        yield f"the identifier {name}", lines, ["ok create", f"ok enrol {work}", f"ok start {opens}"]
    for moment, earlier in texts.MOMENTS:
        lines = [line(moment, ["create", "r", "u"]), line(earlier, ["enrol", "r", "ann"]),
                 line(moment, ["enrol", "r", "ann"])]
        back = verbs.MOMENT_BACK.format(moment=moment)
        yield f"the moment {moment}", lines, ["ok create", back, f"ok enrol {work}"]
    lines, replies = before("start")
    for start in texts.STARTS:
        yield f"the line {start}", lines + [start], replies + [f"ok start {opens}"]


def cases():
    """All cases: a name, an input, and its replies."""
    for tables in (right_cases(), wrong_cases(), form_cases()):
        for name, lines, replies in tables:
            yield name, b"".join(one + b"\n" for one in lines), replies
    yield from texts.INPUTS


def first_difference(got, wanted):
    """Where two lists of lines differ, in words."""
    for number, pair in enumerate(zip(got + [None], wanted + [None]), 1):
        if pair[0] != pair[1]:
            return f"line {number} is {pair[0]!r} in place of {pair[1]!r}"
    return f"{len(got)} lines in place of {len(wanted)}"


def fault(program, folder, given, wanted):
    """What is wrong with the replies to an input, if something is."""
    done = subprocess.run([program, "replay", folder], input=given, capture_output=True, timeout=60, check=False)
    got = done.stdout.decode(errors="replace").splitlines()
    if got != wanted:
        return first_difference(got, wanted)
    if done.returncode != 0 or done.stderr:
        return f"status {done.returncode}, {done.stderr.decode(errors='replace')!r}"
    return None


def main():
    program = sys.argv[1]
    word = sys.argv[2] if len(sys.argv) > 2 else ""
    run = failed = 0
    with tempfile.TemporaryDirectory() as folder:
        for name, document in UNIT.items():
            (pathlib.Path(folder) / name).write_text(json.dumps(document), encoding="utf-8")
        for name, given, wanted in cases():
            if word not in name:
                continue
            run += 1
            wrong = fault(program, folder, given, wanted)
            if wrong is not None:
                failed += 1
                print(f"failed: {name[:100]}: {wrong}")
    print(f"{run} cases of lines, {failed} failed")
    return 1 if failed or not run else 0


if __name__ == "__main__":
    sys.exit(main())
