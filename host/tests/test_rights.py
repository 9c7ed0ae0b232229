"""Each cell of the table of rights: who may do it does it, and who may not is refused."""

import pytest
from conftest import ENGINE, Host, client

from ldhost.rights import ADMINISTRATOR, AUTHOR, MEMBER, STAFF, STANDINGS, STRANGER, TABLE

NOBODY = "nobody"
PERSONS = {ADMINISTRATOR: "admin", AUTHOR: "ari", STAFF: "ms-lee", MEMBER: "ida", STRANGER: "eve", NOBODY: ""}
REFUSED = {401, 403, 404, 429}
RUN = "/api/v1/runs/monday"


def command(verb, *words):
    """A command as `(way, path, body)`; `ME` stands for who asks."""
    return "POST", f"{RUN}/commands", {"verb": verb, "words": list(words)}


def form(path, **fields):
    return "FORM", path, fields


def look(path):
    return "GET", path, None


# For each row of the table the requests that do it. `ME` is who asks, `jon` somebody else in the run.
REQUESTS = {
    "open own": [command("open", "ME", "talk"), form("/runs/monday/do", key="1", verb="open", activity="talk")],
    "complete own": [
        command("complete", "ME", "talk"),
        form("/runs/monday/do", key="2", verb="complete", activity="x"),
    ],
    "page-set own": [command("page-set", "ME", "letter", "word", "x")],
    "tree own": [look(f"{RUN}/persons/ME/tree"), look("/runs/monday/view")],
    "outbox own": [look(f"{RUN}/persons/ME/outbox")],
    "page own": [look(f"{RUN}/persons/ME/pages/letter")],
    "files of the course": [look("/files/monday/content/lesson.html")],
    "set of a role held": [command("set", "ME", "ready", "true")],
    "tree of others": [look(f"{RUN}/persons/jon/tree"), look("/runs/monday/persons/jon")],
    "outbox of others": [look(f"{RUN}/persons/jon/outbox")],
    "page of others": [look(f"{RUN}/persons/jon/pages/letter")],
    "get": [look(f"{RUN}/persons/ME/properties/score"), look(f"{RUN}/persons/jon/properties/score")],
    "report": [look(f"{RUN}/report")],
    "members": [look(RUN)],
    "open of others": [command("open", "jon", "talk")],
    "complete of others": [command("complete", "jon", "talk")],
    "page-set of others": [command("page-set", "jon", "letter", "word", "x")],
    "create": [
        ("POST", "/api/v1/runs/new/commands", {"verb": "create", "words": ["UNIT"]}),
        form("/admin/create", key="3", run="newer", unit="UNIT"),
    ],
    "enrol": [command("enrol", "pat"), form("/admin/runs/monday/do", key="4", verb="enrol", persons="kim")],
    "assign": [
        command("assign", "eve2", "pupil"),
        form("/admin/runs/monday/do", key="5", verb="assign", person="jon", role="teacher"),
        form("/admin/runs/monday/list", key="6", text="pip,pupil"),
    ],
    "drop": [command("drop", "eve2", "pupil"), form("/admin/runs/monday/do", key="7", verb="drop", person="eve2")],
    "start": [command("start"), form("/admin/runs/monday/do", key="8", verb="start")],
    "set": [
        command("set", "jon", "score", "1"),
        command("set", "ME", "score", "1"),
        command("set", "jon", "ready", "true"),
    ],
    "clear": [command("clear", "jon", "score"), command("clear", "ME", "word")],
    "tick": [command("tick")],
    "global-set": [("POST", "/api/v1/units/UNIT/globals", {"uri": "urn:x", "value": "1"})],
    "all runs": [look("/admin"), look("/admin/runs/monday")],
    "tokens": [form("/admin/tokens", key="9", person="nat", rights=""), form("/admin/tokens/revoke", person="nat")],
    "open a journal again": [form("/admin/reopen", shard="run.other")],
    "units": [look("/api/v1/units")],
    "check a course": [look("/author"), form("/author/choose", folder="wrong", act="check")],
    "publish a course": [
        form("/author/choose", folder="first", act="publish"),
        form("/author/accept", draft="none"),
    ],
    "preview a course": [form("/author/preview", unit="UNIT")],
}
# What the table allows and the engine or the course then refuses, by these requests alone, is answered so.
BEYOND = {400, 404, 409, 422}
CELLS = [(action, who) for action in TABLE for who in (*STANDINGS, NOBODY)]


class Cast:
    """One host with a person of each standing."""

    def __init__(self, host):
        self.host = host
        folder = "forms" if ENGINE.has_pages else "fractions"
        members = [("ida", "pupil"), ("jon", "pupil"), ("ms-lee", "teacher"), ("eve2", "pupil")]
        host.run_of(folder, "monday", *members)
        self.unit = host.api().get("/units").json()[0]["unit"]
        host.api().post("/runs/other/commands", json={"verb": "create", "words": [self.unit]})
        tokens = {who: host.give_token(PERSONS[who]) for who in (STAFF, MEMBER, STRANGER)}
        tokens |= {ADMINISTRATOR: host.token, AUTHOR: host.give_token("ari", "author"), NOBODY: "nonsense"}
        self.apis = {who: host.api(token) for who, token in tokens.items()}
        self.pages = {who: host.browser(token) for who, token in tokens.items() if who != NOBODY}
        self.pages[NOBODY] = client(base_url=host.url)
        self.pages[NOBODY].word = "0" * 64
        for page in self.pages.values():
            page.follow_redirects = False

    def ask(self, who, way, path, body):
        """The answer to a request of this person; a note of a page counts as its answer."""
        path = path.replace("ME", PERSONS[who] or "ME").replace("UNIT", self.unit)
        if path.startswith("/api/v1"):
            words = [
                PERSONS[who] if w == "ME" else self.unit if w == "UNIT" else w for w in (body or {}).get("words", [])
            ]
            body = body | {"words": words} if body and "words" in body else body
            return self.apis[who].request(way, path.removeprefix("/api/v1"), json=body)
        if way == "GET":
            return self.pages[who].get(path)
        fields = {name: self.unit if value == "UNIT" else value for name, value in body.items()}
        return self.pages[who].post(path, data=fields | {"word": self.pages[who].word})


@pytest.fixture(scope="module")
def cast(tmp_path_factory, library):
    host = Host(tmp_path_factory.mktemp("rights") / "data", library=library).start()
    yield Cast(host)
    host.stop()


def test_each_row_has_its_requests():
    assert REQUESTS.keys() == TABLE.keys()


@pytest.mark.parametrize("action,who", CELLS)
def test_cell(cast, action, who):
    if "page" in action and "page-" not in action and not ENGINE.has_pages:
        pytest.skip("the engine has no forms (pages.json)")
    for way, path, body in REQUESTS[action]:
        answer = cast.ask(who, way, path, body)
        lead_to_sign_in = answer.headers.get("location") == "/sign-in"
        if who in TABLE[action]:
            assert answer.status_code not in {401, 403} and not lead_to_sign_in, answer.text
            is_done = way == "GET" and not (who == ADMINISTRATOR and "ME" in path)  # who is no member of the run
            assert answer.status_code in ({200} if is_done else {200, 303} | BEYOND), answer.text
        else:
            assert answer.status_code in REFUSED or lead_to_sign_in, answer.text


@pytest.mark.parametrize("who", [AUTHOR, STRANGER])
def test_a_run_looks_to_strangers_as_if_it_were_not_there(cast, who):
    for way, path, body in (request for requests in REQUESTS.values() for request in requests):
        if "monday" in path:
            answers = [cast.ask(who, way, path.replace("monday", name), body) for name in ("monday", "nothing")]
            assert len({answer.status_code for answer in answers}) == 1, path
            assert answers[0].text == answers[1].text, path
