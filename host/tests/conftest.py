"""A host in a process of its own, and how tests speak with it."""

import asyncio
import json
import os
import re
import shutil
import signal
import socket
import subprocess
import sys
import threading
import time
from pathlib import Path

import httpx
import pytest

HERE = Path(__file__).parent
TOP = HERE.parent
sys.path.insert(0, str(TOP))

from ldhost.__main__ import parsed, server_for  # noqa: E402
from ldhost.engine import Engine, ask_what_it_has  # noqa: E402
from ldhost.journal import kept_lines  # noqa: E402

LD = Path(os.environ["LD"])
os.environ["LD_REAL"] = str(LD)  # for the programs of tests/engines
ENGINE = asyncio.run(ask_what_it_has(LD))
PATIENCE = int(os.environ.get("PATIENCE", "120"))
"""Seconds for which a test waits at most."""
LATER_VERBS = "next page page-set"
WITH_NEXT = ENGINE if ENGINE.has_next else Engine(HERE / "engines" / "alarming.py", has_next=True)
needs_pages = pytest.mark.skipif(not ENGINE.has_pages, reason="the engine has no forms (pages.json)")


def client(**how):
    """A client that waits long, since the machine may be busy with proofs."""
    return httpx.Client(timeout=PATIENCE, **how)


class Asked:
    """What tests ask of a host, wherever it runs: at `url`, with the folder `data` and the administrator's `token`."""

    def api(self, token=None):
        return client(base_url=self.url + "/api/v1", headers={"authorization": f"Bearer {token or self.token}"})

    def browser(self, token=None):
        """A client with a session, as a browser has it."""
        browser = client(base_url=self.url, follow_redirects=True)
        browser.post("/sign-in", data={"token": token or self.token})
        browser.word = re.search(r'name="word" value="(\w+)"', browser.get("/").text).group(1)
        return browser

    def give_token(self, person, rights=""):
        page = self.browser()
        answer = page.post("/admin/tokens", data={"word": page.word, "key": "k", "person": person, "rights": rights})
        return re.search(r'class="token">([^<]+)', answer.text).group(1)

    def publish(self, folder):
        page = self.browser()
        answer = page.post("/author/choose", data={"word": page.word, "folder": folder, "act": "publish"})
        return re.search(r"published as <b>([^<]+)", answer.text).group(1)

    def run_of(self, folder, name, *members):
        """A started run of the course, with members `(person, role)`."""
        api = self.api()
        say(api, name, "create", self.publish(folder))
        for person, role in members:
            say(api, name, "enrol", person)
            say(api, name, "assign", person, role)
        say(api, name, "start")
        return api

    def kept(self):
        """All lines of all journals."""
        return [line for path in sorted(self.data.glob("shards/*/ld.journal")) for line in kept_lines(path)]

    def verbs_kept(self):
        return [json.loads(line)[1] for line in self.kept()]


class Host(Asked):
    """A host in a process of its own, on a free port of this machine. It can be killed."""

    def __init__(self, data, *more, engine=LD, library=None, **environment):
        self.data, self.more, self.engine, self.library = data, more, engine, library
        self.environment = environment
        with socket.socket() as one:
            one.bind(("127.0.0.1", 0))
            self.port = one.getsockname()[1]
        self.url = f"http://127.0.0.1:{self.port}"

    def words(self):
        words = ["--engine", self.engine, "--data", self.data, "--port", self.port, "--tick", 1, *self.more]
        return [str(word) for word in words + (["--library", self.library] if self.library else [])]

    def launch(self, **streams):
        words = [sys.executable, "-m", "ldhost", *self.words()]
        return subprocess.Popen(words, cwd=TOP, env=os.environ | self.environment, **streams)

    def start(self):
        self.process = self.launch(stderr=subprocess.DEVNULL)
        wait_for(lambda: self.process.poll() is not None or self.answers())
        self.token = (self.data / "admin.token").read_text().strip()
        return self

    def answers(self):
        try:
            return client().get(self.url + "/sign-in").status_code == 200
        except httpx.HTTPError:
            return False

    def stop(self, sign=signal.SIGTERM):
        if self.process.poll() is None:
            self.process.send_signal(sign)
            self.process.wait(PATIENCE)

    def engines(self, *forms):
        """The numbers of the engine processes that this host started, or of those of some forms."""
        wanted = {form.encode() for form in forms or ("keep", "replay")}
        return [number for number, parent, words in processes() if parent == self.process.pid and wanted & {*words}]


class Inside(Host):
    """A host in a thread of the tests' own process, which starts sooner. It can't be killed."""

    def start(self):
        os.environ.update(self.environment)
        self.server = None
        self.thread = threading.Thread(target=lambda: asyncio.run(self.serve()), daemon=True)
        self.thread.start()
        wait_for(lambda: not self.thread.is_alive() or self.server and self.server.started)
        self.token = (self.data / "admin.token").read_text().strip()
        return self

    async def serve(self):
        self.loop = asyncio.get_running_loop()
        self.server = await server_for(parsed(self.words()))
        await self.server.serve()

    def stop(self):
        if self.thread.is_alive():
            self.loop.call_soon_threadsafe(self.server.handle_exit, signal.SIGTERM, None)
            self.thread.join(PATIENCE)
        assert not self.thread.is_alive()


def wait_for(holds, seconds=PATIENCE):
    """Waits until it holds, and tells whether it does."""
    ends = time.monotonic() + seconds
    while not holds() and time.monotonic() < ends:
        time.sleep(0.02)
    return holds()


def processes():
    """Number, parent and words of each process of this machine."""
    for folder in Path("/proc").iterdir():
        try:
            words = (folder / "cmdline").read_bytes().split(b"\0")
            parent = int((folder / "stat").read_text().rpartition(")")[2].split()[1])
            yield int(folder.name), parent, words
        except (OSError, ValueError, IndexError):
            continue


def say(api, run, verb, *words, key=None, status=200):
    answer = api.post(
        f"/runs/{run}/commands",
        json={"verb": verb, "words": list(words)},
        headers={"idempotency-key": key} if key else {},
    )
    assert answer.status_code == status, answer.text
    return answer.json()


@pytest.fixture(scope="session")
def library(tmp_path_factory):
    """The example courses of the repository, and those of these tests."""
    folder = tmp_path_factory.mktemp("library")
    for source in [*(TOP.parent / "examples").iterdir(), *(HERE / "courses").iterdir()]:
        if (source / "unit.json").exists():
            shutil.copytree(source, folder / source.name)
    (folder / "fractions" / "content").mkdir()
    (folder / "fractions" / "content" / "lesson.html").write_text("<h1>Lesson</h1>")
    return folder


@pytest.fixture
def hosts():
    """The hosts of a test, which all end at its end."""
    found = []
    yield found
    for host in found:
        host.stop()


@pytest.fixture
def new_host(tmp_path, library, hosts):
    """Makes hosts on one folder, each in a thread."""

    def make(*more, **how):
        hosts.append(Inside(tmp_path / "data", *more, library=library, **how).start())
        return hosts[-1]

    return make


@pytest.fixture
def host(new_host):
    return new_host()


@pytest.fixture
def process(tmp_path, library, hosts):
    """A host that can be killed."""
    hosts.append(Host(tmp_path / "data", library=library).start())
    return hosts[-1]


@pytest.fixture
def host_with_next(new_host):
    """A host over an engine with alarms: where the real one has none, one that has them for the course `limit`."""
    return new_host(engine=WITH_NEXT.program)


@pytest.fixture
def host_without(new_host):
    """A host over the engine without the later verbs."""
    return new_host(engine=HERE / "engines" / "without.py", WITHOUT=LATER_VERBS)


def with_fractions(host):
    """A started run `monday` of the course `fractions`, with two pupils and a teacher."""
    host.run_of("fractions", "monday", ("ida", "pupil"), ("jon", "pupil"), ("ms-lee", "teacher"))
    return host


@pytest.fixture
def fractions(host):
    return with_fractions(host)


@pytest.fixture
def fractions_process(process):
    return with_fractions(process)
