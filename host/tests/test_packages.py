"""Packages of IMS Learning Design, from the upload to a run."""

import asyncio
import html
import json
import re
import time
from pathlib import Path

import pytest
from conftest import TOP, say, wait_for
from test_bounds import archive, sender

from ldhost import replies
from ldhost.packages import Importer
from ldhost.timing import Ticks
from ldhost.uploads import Refused

SAMPLES = TOP.parent / "import" / "samples"
NAMES = ("theory", "personal", "notify", "jigsaw")
MANIFEST = "imsmanifest.xml"


def files_of(name, below=""):
    folder = SAMPLES / name
    return {
        below + path.relative_to(folder).as_posix(): path.read_bytes() for path in folder.rglob("*") if path.is_file()
    }


def changed(name, old, new):
    """A sample whose manifest has another text at one place."""
    files = files_of(name)
    assert files[MANIFEST].count(old.encode()) == 1
    return archive(files | {MANIFEST: files[MANIFEST].replace(old.encode(), new.encode())})


def accept(page, text):
    """Presses the button that publishes what was uploaded."""
    draft = re.search(r'name="draft" value="(\w+)"', text).group(1)
    return page.post("/author/accept", data={"word": page.word, "draft": draft})


def published_as(text):
    found = re.search(r"published as <b>([^<]+)", text)
    return found and found.group(1)


@pytest.fixture
def at_its_moments(host):
    """A host whose clock says what `moment` says, and in which time passes by commands alone."""
    host.moment = "2024-01-01T00:00:00Z"
    host.server.house.clock = lambda: host.moment
    host.server.house.timing = Ticks(10**9)
    return host


def blocks(text):
    """The reply blocks of an engine's output: the first line of each, and those behind it."""
    lines = iter(text.splitlines())
    for head in lines:
        yield head, [next(lines) for _ in range(replies.lines_after(head))]


def asked(host, edition, verb, words):
    """What the interface for programs answers to a line of a sample, and how that is read from the engine's reply."""
    api = host.api()
    if verb == "global-set":
        uri, person, value = words
        answer = api.post(f"/units/{edition}/globals", json={"uri": uri, "person": person, "value": value})
        return answer, lambda head, lines: {"reply": head}
    run, *words = words
    if verb in ("tree", "outbox", "report"):
        whose = f"/persons/{words[0]}" if words else ""
        return api.get(f"/runs/{run}{whose}/{verb}"), lambda head, lines: getattr(replies, verb)(lines)
    if verb == "get":
        answer = api.get(f"/runs/{run}/persons/{words[0]}/properties/{words[1]}")
        return answer, lambda head, lines: {"value": replies.Reply(head).value}
    words = [edition] if verb == "create" else words
    answer = api.post(f"/runs/{run}/commands", json={"verb": verb, "words": words})
    return answer, lambda head, lines: answer.json() | {"reply": head}


@pytest.mark.parametrize("name", NAMES)
def test_a_sample_from_its_upload_to_its_end(at_its_moments, name):
    """Its run answers each line as `import/samples` has it, which was worked out by hand."""
    host = at_its_moments
    page = host.browser(host.give_token("ari", "author"))
    sent = {"archive": (f"{name}.zip", archive(files_of(name, "below/")))}
    answer = page.post("/author/upload", data={"word": page.word, "act": "publish"}, files=sent)
    edition = published_as(answer.text) or published_as(accept(page, answer.text).text)
    lines = [json.loads(line) for line in (SAMPLES / f"{name}.lines").read_text().splitlines()]
    expected = list(blocks((SAMPLES / f"{name}.replies").read_text()))
    assert len(lines) == len(expected)
    for (moment, verb, *words), (head, more) in zip(lines, expected):
        host.moment = moment
        found, read = asked(host, edition, verb, words)
        if head.startswith("no "):
            refusal = found.json()["detail"]
            assert head == " ".join(["no", str(refusal["number"]), refusal["word"], *refusal["more"]])
        else:
            assert found.json() == read(head, more), (verb, words)


def test_what_is_whole_is_published_at_once(host):
    send = sender(host)
    text = send(archive(files_of("theory")))
    assert published_as(text) == "LD-theory-1" and "0 lost, 0 changed, 1 notes" in text
    assert "files that it does not have" not in text, "an address with %20 leads to its file"


def test_losses_are_asked_about(host):
    """Nothing is published before its author has seen what is lost, beside the lines of the manifest."""
    page, send = host.browser(), sender(host)
    text = send(archive(files_of("notify")))
    assert published_as(text) is None and host.api().get("/units").json() == []
    assert "1 lost, 7 changed, 6 notes" in text and "Publish it with these losses" in text
    row = re.search(r'<tr class="here"><th scope="row">44</th>.*?</tr>', text, re.S).group()
    assert "unit-of-learning-href ref=" in html.unescape(row) and '<b class="bad">lost</b>' in row
    assert "other units within a unit are left out" in row
    assert all(f'<tr><th scope="row">{number}</th>' in text for number in (43, 45)), "the lines before and after it"
    assert published_as(accept(page, text).text) == "Ubung-Bericht-17ff435e9c-1"
    assert accept(page, text).status_code == 404, "once only"


def test_a_loss_of_a_page_stands_beside_its_line(host):
    text = sender(host)(archive(files_of("personal")))
    pages = text[text.index("<code>pages/scores.html</code>") :]
    row = re.search(r'<tr class="here"><th scope="row">4</th>.*?</tr>', pages, re.S).group()
    assert "view-property" in row and "supported person" in row


def test_a_draft_is_its_author_s_alone(host):
    ari, ara = (host.browser(host.give_token(name, "author")) for name in ("ari", "ara"))
    body = {"data": {"word": ari.word, "act": "check"}, "files": {"archive": ("p.zip", archive(files_of("jigsaw")))}}
    first, second = (ari.post("/author/upload", **body).text for _ in range(2))
    draft = re.search(r'name="draft" value="(\w+)"', second).group(1)
    assert ara.post("/author/accept", data={"word": ara.word, "draft": draft}).status_code == 404
    assert accept(ari, first).status_code == 404, "a later upload takes the place of an earlier one"
    assert published_as(accept(ari, second).text) == "jigsaw-1"
    assert list((host.data / "drafts").iterdir()) == []


def test_a_course_that_is_checked_waits_too(host):
    page, send = host.browser(), sender(host)
    files = {path.name: path.read_bytes() for path in (TOP.parent / "examples" / "first").glob("*.json")}
    text = send(archive(files), act="check")
    assert "It is not published yet." in text and published_as(accept(page, text).text) == "u1-1"


def test_what_the_engine_refuses_is_shown_in_the_manifest(host):
    """A structure that contains itself: the fault of the document comes at the element that it was made of."""
    cycle = '<imsld:activity-structure-ref ref="AS-study"/></imsld:activity-structure>'
    text = html.unescape(sender(host)(changed("theory", "</imsld:activity-structure>", cycle)))
    assert "This thing contains itself by way of its references." in text and "<b>cycle</b>" in text
    line = re.search(r"imsmanifest.xml</code>, line (\d+)", text).group(1)
    assert "<imsld:activity-structure " in files_of("theory")[MANIFEST].decode().split("\n")[int(line) - 1]
    assert f'<span class="here">{int(line):4} ▸ ' in text and "activities.json /structures/0" in text
    assert host.api().get("/units").json() == []


@pytest.mark.parametrize(
    "files,text",
    [
        ({MANIFEST: b"<manifest"}, "xml-fault"),
        ({MANIFEST: b'<!DOCTYPE m [<!ENTITY a "aaaaaaaaaa"><!ENTITY b "&a;&a;&a;">]><m>&b;</m>'}, "xml-doctype"),
        ({MANIFEST: b"<a>" * 300 + b"</a>" * 300}, "xml-too-deep"),
        ({MANIFEST: b"<manifest/>"}, "no manifest of IMS Content Packaging"),
        ({MANIFEST: b"<manifest/>", "../evil": b"x"}, "leads out of the package"),
        ({MANIFEST: b"<manifest/>", "/etc/evil": b"x"}, "leads out of the package"),
        ({MANIFEST: b"<manifest/>", "a\\..\\..\\evil": b"x"}, "leads out of the package"),
        ({MANIFEST: b"<manifest/>", "zeros": b"\0" * ((64 << 20) + 1)}, "holds too much"),
        ({MANIFEST: b"<manifest/>"} | {f"f{number}": b"" for number in range(2001)}, "too many files"),
    ],
    ids=["broken", "entities", "deep", "another manifest", "up", "absolute", "backslash", "bomb", "many"],
)
def test_packages_that_are_refused(host, files, text):
    assert text in html.unescape(sender(host)(archive(files)))
    assert not list(host.data.rglob("*evil*")) and list((host.data / "drafts").iterdir()) == []
    assert host.api().get("/units").json() == []


def test_only_what_stands_below_content_is_served(host):
    """Not the documents, nor what the import noted; the manifest, which tells what is hidden at first, is not even kept."""
    send, api = sender(host), host.api()
    say(api, "r", "create", published_as(send(archive(files_of("theory")))))
    page = host.browser()
    assert page.get("/files/r/content/text/the%20text.html").status_code == 200
    for name in ("unit.json", "import.json", MANIFEST, "content/imsmanifest.xml", "content/../unit.json", "content"):
        assert page.get(f"/files/r/{name}").status_code == 404, name
    assert not list((host.data / "units").rglob(MANIFEST))


def test_an_import_that_takes_too_long_is_ended(tmp_path):
    """With all that it started."""
    importer, begun = Importer(None, tmp_path, seconds=0.5), time.monotonic()
    with pytest.raises(Refused, match="more than 0.5 seconds"):
        asyncio.run(importer.run(["/bin/sh", "-c", "sleep 60 & echo $! >number; wait"]))
    number = int((tmp_path / "number").read_text())
    assert wait_for(lambda: not is_running(number), seconds=10) and time.monotonic() - begun < 30


def is_running(number):
    try:
        return Path(f"/proc/{number}/stat").read_text().rpartition(")")[2].split()[0] != "Z"
    except OSError:
        return False


def test_an_import_is_bounded_in_memory(host, monkeypatch):
    monkeypatch.setattr("ldhost.packages.MEMORY", 16 << 20)
    assert "could not be imported" in sender(host)(archive(files_of("theory")))
    assert list((host.data / "drafts").iterdir()) == []
