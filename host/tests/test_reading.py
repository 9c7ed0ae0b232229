"""What the host reads: journals, replies, faults, lists."""

import json

import pytest

from ldhost import replies
from ldhost.faults import explain, place
from ldhost.journal import kept_lines, mark, mark_of
from ldhost.persons_list import BadList, rows_of


def record(line, gate=1):
    return bytes([gate]) + len(line).to_bytes(4, "big") + line


@pytest.mark.parametrize(
    "data,lines",
    [
        (b"", []),
        (b"\0", []),
        (b"\1", []),
        (b"\2\0\0\0\1a\0", []),
        (record(b"ab") + b"\0", ["ab"]),
        (record(b"ab") + b"\7rest", ["ab"]),
        (record(b"ab"), []),
        (record(b"ab") + record(b"c")[:-1] + b"\0", ["ab"]),
        (record(b"ab") + record(b"c") + b"\0", ["ab", "c"]),
        (record(b"ab") + record(b"c", 0) + b"\0", ["ab"]),
        (record(b"ab") + b"\1\0\0\0\0\0", ["ab"]),
        (record(b"ab") + b"\1\0\1\0\1" + b"x" * 65537 + b"\0", ["ab"]),
        (record(b"x" * 65536) + b"\0", ["x" * 65536]),
    ],
)
def test_journals(tmp_path, data, lines):
    """As docs/JOURNAL.md says: a record counts where its gate is 1, and it and the next gate lie within the file."""
    (tmp_path / "ld.journal").write_bytes(data)
    assert kept_lines(tmp_path / "ld.journal") == lines


def test_marks():
    one, two = mark("one"), mark("two")
    assert one != two and len(one) == 96 and set(one) <= {" ", "\t"} and mark(None) == ""
    line = json.dumps(["2024-01-01T00:00:00Z", "tick", "r "])
    assert mark_of(line + one) == one and mark_of(line) == ""


def test_replies():
    first = replies.Reply("ok tree turns=1 fired=2 rejected=3 sent=4 lines=6")
    assert first.ok and first.work == (1, 2, 3, 4) and replies.lines_after(first.head) == 6
    assert replies.lines_after('ok get turns=0 fired=0 rejected=0 sent=0 value=" lines=6"') == 0
    assert replies.Reply('ok get turns=0 fired=0 rejected=0 sent=0 value="a b\\n"').value == "a b\n"
    assert replies.Reply("ok get turns=0 fired=0 rejected=0 sent=0 value=none").value is None
    assert replies.Reply('ok global-get "none"').value == "none" and replies.Reply("ok global-get none").value is None
    refusal = replies.Reply("no 16 role-short tutor 1 2").refusal
    assert (refusal.number, refusal.word, refusal.more) == (16, "role-short", ["tutor", "1", "2"])


def test_trees():
    lines = [
        'unit u open "A \\"course\\""',
        "  play p open",
        "    act a open",
        "      part rp open",
        "        support s closed",
        "        environment e",
        '          object o "Books"',
        '            item i text.html "open done"',
        '          service f conference "Talk"',
    ]
    root = replies.tree(lines)
    part = root["children"][0]["children"][0]["children"][0]
    assert root["title"] == 'A "course"' and root["state"] == "open"
    assert [node["kind"] for node in part["children"]] == ["support", "environment"]
    thing, service = part["children"][1]["children"]
    assert thing["title"] == "Books" and thing["children"][0]["href"] == "text.html"
    assert thing["children"][0]["title"] == "open done" and service["service"] == "conference"


def test_outboxes_and_reports():
    notices = replies.outbox(['notice 2 2024-01-01T00:00:00Z - "Hello you"', 'notice 3 2024-01-01T00:00:00Z a ""'])
    assert notices[0] == {"number": 2, "moment": "2024-01-01T00:00:00Z", "activity": None, "subject": "Hello you"}
    assert notices[1]["activity"] == "a" and notices[1]["subject"] == ""
    lines = ["started M", "role r members=2", "play p open", "act a open N", "part x open", "act b waiting"]
    report = replies.report([*lines, "unit u open", "notices 4"])
    assert report["started"] == "M" and report["notices"] == 4 and report["unit"] == {"id": "u", "state": "open"}
    assert report["plays"][0]["acts"][0]["opened"] == "N" and report["plays"][0]["acts"][1]["opened"] is None


def test_places():
    text = '{"a": [1, {"b/c": "x"}], "a~": 2, "d": {"e": [], "e": [7]}}'

    def at(pointer):
        first, last = place(text, pointer)
        return text[first:last]

    assert at("") == text and at("/a/1/b~1c") == '"x"' and at("/a~0") == "2" and at("/d/e/0") == "7"
    assert at("/a/1/missing") == '{"b/c": "x"}' and at("/a/0/x") == "1"


def test_faults(tmp_path):
    (tmp_path / "roles.json").write_text('{\n "roles": [\n}\n')
    fault = explain(tmp_path, "refused 1 roles.json . not-json")
    assert fault.line == 3 and "no JSON" in fault.text and fault.rows[2].is_here
    absent = explain(tmp_path, "refused 1 unit.json . absent")
    assert absent.rows == [] and absent.line is None
    (tmp_path / "unit.json").write_text("{" + " " * 1000 + "}")
    assert len(explain(tmp_path, "refused 1 unit.json /title missing").rows[0].text) == 400


def test_lists():
    assert rows_of("person,role\nann,learner\n\nbob\n") == [("ann", "learner"), ("bob", "")]
    assert rows_of("person;role\nann;learner") == [("ann", "learner")]
    assert rows_of('"ann","learner"\r\n') == [("ann", "learner")]
    for bad in ("a b,learner", "ann,learner,more", "ann,the role", '"ann', "ann,learner\n" * 1001):
        with pytest.raises(BadList):
            rows_of(bad)
