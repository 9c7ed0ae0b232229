#!/usr/bin/env python3
"""Gives the program lines at one moment after another and compares what it answers.

    moments.py PROGRAM FOLDER

FOLDER is a unit that is published. A run takes a line at a moment of the table behind lines at all earlier
ones, and refuses one at the moment before it, telling the last one. What is no moment makes a bad line for a run
that began at the first moment there is. The seconds are of Python's `datetime`, which is asked again.
"""
import datetime
import json
import pathlib
import subprocess
import sys

# The text of a moment, and its seconds since 1970-01-01T00:00:00Z.
MOMENTS = [
    ("2024-02-29T23:59:59Z", 1_709_251_199), ("1970-01-01T00:00:00Z", 0), ("1969-12-31T23:59:59Z", -1),
    ("0001-01-01T00:00:00Z", -62_135_596_800), ("0001-12-31T23:59:59Z", -62_104_060_801),
    ("9999-01-01T00:00:00Z", 253_370_764_800), ("9999-12-31T23:59:59Z", 253_402_300_799),
    ("2023-01-01T00:00:00Z", 1_672_531_200), ("2023-01-31T23:59:59Z", 1_675_209_599),
    ("2023-02-01T00:00:00Z", 1_675_209_600), ("2023-02-28T23:59:59Z", 1_677_628_799),
    ("2023-03-01T00:00:00Z", 1_677_628_800), ("2023-03-31T23:59:59Z", 1_680_307_199),
    ("2023-04-01T00:00:00Z", 1_680_307_200), ("2023-04-30T23:59:59Z", 1_682_899_199),
    ("2023-05-01T00:00:00Z", 1_682_899_200), ("2023-05-31T23:59:59Z", 1_685_577_599),
    ("2023-06-01T00:00:00Z", 1_685_577_600), ("2023-06-30T23:59:59Z", 1_688_169_599),
    ("2023-07-01T00:00:00Z", 1_688_169_600), ("2023-07-31T23:59:59Z", 1_690_847_999),
    ("2023-08-01T00:00:00Z", 1_690_848_000), ("2023-08-31T23:59:59Z", 1_693_526_399),
    ("2023-09-01T00:00:00Z", 1_693_526_400), ("2023-09-30T23:59:59Z", 1_696_118_399),
    ("2023-10-01T00:00:00Z", 1_696_118_400), ("2023-10-31T23:59:59Z", 1_698_796_799),
    ("2023-11-01T00:00:00Z", 1_698_796_800), ("2023-11-30T23:59:59Z", 1_701_388_799),
    ("2023-12-01T00:00:00Z", 1_701_388_800), ("2023-12-31T23:59:59Z", 1_704_067_199),
    ("0004-02-29T12:34:56Z", -62_035_845_904), ("0004-03-01T00:00:00Z", -62_035_804_800),
    ("0004-12-31T23:00:00Z", -62_009_370_000), ("1900-02-28T12:34:56Z", -2_203_932_304),
    ("1900-03-01T00:00:00Z", -2_203_891_200), ("1900-12-31T23:00:00Z", -2_177_456_400),
    ("2000-02-29T12:34:56Z", 951_827_696), ("2000-03-01T00:00:00Z", 951_868_800),
    ("2000-12-31T23:00:00Z", 978_303_600), ("2024-02-29T12:34:56Z", 1_709_210_096),
    ("2024-03-01T00:00:00Z", 1_709_251_200), ("2024-12-31T23:00:00Z", 1_735_686_000),
    ("2100-02-28T12:34:56Z", 4_107_501_296), ("2100-03-01T00:00:00Z", 4_107_542_400),
    ("2100-12-31T23:00:00Z", 4_133_977_200), ("9996-02-29T12:34:56Z", 253_281_213_296),
    ("9996-03-01T00:00:00Z", 253_281_254_400), ("9996-12-31T23:00:00Z", 253_307_689_200),
]

# Texts that name no moment.
NO_MOMENTS = [
    "2023-02-29T00:00:00Z", "", "0000-01-01T00:00:00Z", "2024-01-01T00:00:60Z", "1900-02-29T00:00:00Z",
    "2100-02-29T00:00:00Z", "2023-00-10T00:00:00Z", "2023-13-10T00:00:00Z", "2023-01-00T00:00:00Z",
    "2023-01-32T00:00:00Z", "2023-04-31T00:00:00Z", "2023-06-31T00:00:00Z", "2023-09-31T00:00:00Z",
    "2023-11-31T00:00:00Z", "2024-02-30T00:00:00Z", "2023-01-10T24:00:00Z", "2023-01-10T23:60:00Z",
    "2023-01-10t00:00:00Z", "2023-01-10T00:00:00z", "2023-01-10T00:00:00", "2023-01-10 00:00:00Z",
    "2023-01-10T00:00:00Z ", " 2023-01-10T00:00:00Z", "+2023-01-10T00:00:00Z", "-023-01-10T00:00:00Z",
    "12023-01-10T00:00:00Z", "2023-1-10T00:00:00Z", "2023-01-10T00:00:00.0Z", "2023-01-10T00:00:00+00:00",
    "2023/01/10T00:00:00Z", "2023-01-10T00-00-00Z", "٢٠٢٣-01-10T00:00Z", "2023-01-1٠T00:00:00Z",
    "2023-01-٠T00:00:00Z",
]


def answers(program, folder, lines):
    """What the program answers to each of the lines."""
    text = "".join(json.dumps(line, ensure_ascii=False) + "\n" for line in lines)
    done = subprocess.run([program, "replay", folder], input=text.encode(), capture_output=True, check=True)
    return done.stdout.decode().splitlines()


def seconds_of(text):
    """The seconds of a moment since 1970-01-01T00:00:00Z."""
    moment = datetime.datetime.strptime(text, "%Y-%m-%dT%H:%M:%SZ").replace(tzinfo=datetime.timezone.utc)
    return round((moment - datetime.datetime(1970, 1, 1, tzinfo=datetime.timezone.utc)) / datetime.timedelta(seconds=1))


def lines_and_replies(unit):
    """Each line and what its reply begins with."""
    moments = sorted(MOMENTS, key=lambda each: each[1])
    first = moments[0][0]
    yield [first, "create", "r", unit], "ok create"
    for number, text in enumerate(NO_MOMENTS):
        yield [text, "enrol", "r", f"no{number}"], "no 1 bad-line"
    before = None
    for number, (text, _) in enumerate(moments):
        yield [text, "enrol", "r", f"p{number}"], "ok enrol"
        if before is not None:
            yield [before, "enrol", "r", f"q{number}"], f"no 5 moment-back {text}"
        before = text


def is_told(reply, promised):
    """Whether the reply is the one that is promised; of what is done, the verb is looked at."""
    return reply == promised or promised.startswith("ok ") and reply.startswith(promised + " ")


def main():
    program, folder = sys.argv[1:]
    unit = json.loads((pathlib.Path(folder) / "unit.json").read_text())["identifier"]
    failed = [f"{text}: {seconds} seconds" for text, seconds in MOMENTS if seconds_of(text) != seconds]
    cases = list(lines_and_replies(unit))
    replies = answers(program, folder, [line for line, _ in cases])
    if len(replies) != len(cases):
        failed.append(f"{len(replies)} replies to {len(cases)} lines")
    for (line, promised), reply in zip(cases, replies):
        if not is_told(reply, promised):
            failed.append(f"{line}: {reply}")
    for each in failed:
        print(f"failed: {each}")
    print(f"{len(cases)} lines, {len(failed)} failed")
    return 1 if failed else 0


if __name__ == "__main__":
    sys.exit(main())
