"""Bounds: on uploads, on requests, on tries to sign in."""

import io
import random
import subprocess
import sys
import zipfile
from contextlib import ExitStack

from conftest import HERE, PATIENCE, TOP, client, wait_for

from ldhost.attempts import Attempts
from ldhost.uploads import Archive, Refused

MOST_TRIES = 20


def archive(files, how=zipfile.ZIP_DEFLATED):
    out = io.BytesIO()
    with zipfile.ZipFile(out, "w", how) as made:
        for name, text in files.items():
            made.writestr(name, text)
    return out.getvalue()


def sender(host):
    page = host.browser()

    def send(raw, act="publish"):
        fields = {"word": page.word, "act": act}
        return page.post("/author/upload", data=fields, files={"archive": ("c.zip", raw)}).text

    return send


def documents(folder, below=""):
    return {below + path.name: path.read_bytes() for path in (TOP.parent / "examples" / folder).glob("*.json")}


def test_upload(host):
    send = sender(host)
    assert "published as <b>u1-1<" in send(archive(documents("first", "top/")))
    assert "published as <b>u1-2<" in send(archive(documents("first"))), "a second edition beside the first"
    assert "no zip archive" in send(b"PK nonsense")
    broken = {"roles.json": '{"roles": [}', "activities.json": "{}", "unit.json": "{}"}
    assert "line 1" in send(archive(broken)) and "roles.json" in send(archive(broken))


def test_upload_stays_in_its_folder(host):
    send, good = sender(host), documents("first")
    for name in ("../evil", "/etc/evil", "a/../../evil", "a\\..\\evil", "c:evil", "a//b", "./evil"):
        assert "leads out of the folder" in send(archive(good | {name: "x"})), name
    link = zipfile.ZipInfo("link")
    link.external_attr = 0xA1FF << 16
    assert "holds a link" in send(archive(good | {link: "/etc/passwd"}))
    assert not list(host.data.rglob("*evil*")) and host.api().get("/units").json() == []


def test_upload_is_bounded(host):
    send, good = sender(host), documents("first")
    assert "too many files" in send(archive(good | {f"f{n}": "" for n in range(2001)}, zipfile.ZIP_STORED))
    assert "too much" in send(archive(good | {"zeros": b"\0" * ((64 << 20) + 1)}))
    lies = archive(good | {"zeros": b"\0" * (1 << 20)}).replace(
        (1 << 20).to_bytes(4, "little"), (9).to_bytes(4, "little")
    )
    assert "can&#39;t be read" in send(lies), "a size that is not the real one"


def test_changed_archives_are_refused_in_words(tmp_path):
    """Archives with changed bytes: each is taken, or refused with a reason."""
    draw, seeds = random.Random(7), [
        archive(documents("first"), how) for how in (zipfile.ZIP_STORED, zipfile.ZIP_DEFLATED)
    ]
    refused = 0
    for number in range(1000):
        raw = bytearray(draw.choice(seeds))
        for _ in range(draw.randint(1, 6)):
            at = draw.choice([draw.randrange(len(raw)), len(raw) - 1 - draw.randrange(400)])
            raw[at] = draw.choice([0, 1, 255, draw.randrange(256)])
        try:
            Archive(bytes(raw)).unpack_or_refuse(tmp_path / str(number))
        except Refused:
            refused += 1
    assert refused > 500


def test_requests_are_bounded(host):
    page = host.browser()
    long = {"word": page.word, "key": "1", "text": "x" * (1 << 20)}
    assert page.post("/admin/runs/r/list", data=long).status_code == 413

    def pieces():
        for _ in range(40):
            yield b"x" * (1 << 16)

    form = {"content-type": "application/x-www-form-urlencoded"}
    assert page.post("/admin/tokens", content=pieces(), headers=form).status_code == 413
    assert host.api().post("/runs/r/commands", content=pieces()).status_code == 413
    assert page.get("/").status_code == 200


def test_tries_to_sign_in_are_bounded(host):
    codes = [client().post(host.url + "/sign-in", data={"token": "x"}).status_code for _ in range(MOST_TRIES + 1)]
    assert codes == [403] * MOST_TRIES + [429]
    answer = client().post(host.url + "/sign-in", data={"token": host.token})
    assert answer.status_code == 429 and int(answer.headers["retry-after"]) > 200
    assert host.api("nonsense").get("/runs").status_code == 429
    assert host.api().get("/runs").status_code == 200, "a good token of a platform is not held up"


def test_streams_of_a_session_are_bounded(fractions, monkeypatch):
    """A session has so many pages that change by themselves; one that is closed makes room."""
    monkeypatch.setattr("ldhost.web.events.MOST_STREAMS", 2)
    ida, streams = fractions.browser(fractions.give_token("ida")), []

    def opened(stack):
        answer = stack.enter_context(ida.stream("GET", "/runs/monday/events"))
        streams.append(answer.iter_lines())  # one that nobody holds is closed
        next(streams[-1])
        return answer.status_code

    with ExitStack() as stack:
        assert [opened(stack) for _ in range(3)] == [200, 200, 429]

    def has_room():
        with ExitStack() as stack:
            return opened(stack) == 200

    assert wait_for(has_room)


def test_attempts_are_forgotten():
    now = [0.0]
    attempts = Attempts(most=2, seconds=10, clock=lambda: now[0])
    attempts.failed("a")
    now[0] = 5
    attempts.failed("a")
    assert attempts.wait("a") == 5 and attempts.wait("b") == 0
    now[0] = 10.5
    assert attempts.wait("a") == 0


def test_a_host_without_an_engine(tmp_path):
    """What can't stand behind the host is told in words at the start."""
    for engine, text in (("/nothing", "can't be started"), ("/bin/false", "ended with status 1")):
        words = [sys.executable, "-m", "ldhost", "--engine", engine, "--data", str(tmp_path / "data")]
        done = subprocess.run(words, cwd=HERE.parent, capture_output=True, timeout=PATIENCE)
        assert done.returncode == 1 and text in done.stderr.decode()
