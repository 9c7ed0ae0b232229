"""Commands and looks, delivery keys, and what is kept."""

import json
import signal
import subprocess
import threading

from conftest import HERE, PATIENCE, Host, say


def test_replies_are_those_of_the_engine(fractions):
    api = fractions.api()
    done = say(api, "monday", "complete", "ida", "lesson")
    assert done["reply"] == "ok complete turns=1 fired=1 rejected=0 sent=0"
    assert done["work"] == {"turns": 1, "fired": 1, "rejected": 0, "sent": 0}
    assert say(api, "monday", "complete", "ida", "lesson", status=409)["detail"]["word"] == "not-open"
    assert say(api, "monday", "set", "ida", "score", "11", status=409)["detail"]["number"] == 21
    assert say(api, "monday", "set", "ida", status=422)["detail"]["word"] == "bad-line"
    tree = api.get("/runs/monday/persons/ida/tree").json()
    assert tree["children"][0]["children"][0]["children"][0]["children"][0]["state"] == "done"
    roles = api.get("/runs/monday/report").json()["roles"]
    assert roles == [{"id": "pupil", "members": 2}, {"id": "teacher", "members": 1}]
    assert api.get("/runs/monday/persons/ida/outbox").json() == []


def test_looks_are_not_kept(fractions):
    api, before = fractions.api(), len(fractions.kept())
    for _ in range(5):
        assert api.get("/runs/monday/persons/ida/tree").status_code == 200
        assert api.get("/runs/monday/report").status_code == 200
    assert len(fractions.kept()) == before


def test_looks_are_no_commands(fractions):
    for verb in ("tree", "outbox", "report", "get", "next", "global-get", "global-set", "nonsense"):
        api, words = fractions.api(), ["ida", "score"]
        assert api.post("/runs/monday/commands", json={"verb": verb, "words": words}).status_code in (403, 422)


def test_same_key_same_reply(fractions_process):
    fractions, api = fractions_process, fractions_process.api()
    first = say(api, "monday", "complete", "ida", "lesson", key="k1")
    assert say(api, "monday", "complete", "ida", "lesson", key="k1") == first
    say(api, "monday", "complete", "jon", "lesson", key="k1", status=422)
    fractions.stop(signal.SIGKILL)
    fractions.start()
    assert say(fractions.api(), "monday", "complete", "ida", "lesson", key="k1")["reply"] == first["reply"]
    assert sum('"complete", "monday", "ida"' in line for line in fractions.kept()) == 1


def test_a_button_pressed_twice(fractions):
    page = fractions.browser(fractions.give_token("ida"))
    body = {"word": page.word, "key": "one", "verb": "complete", "activity": "lesson"}
    assert "not open" not in page.post("/runs/monday/do", data=body).text
    assert "not open for you" not in page.post("/runs/monday/do", data=body).text
    assert "not open for you" in page.post("/runs/monday/do", data=body | {"key": "two"}).text
    assert fractions.verbs_kept().count("complete") == 1


def test_runs_share_values(host):
    """Another run takes a shared value in at once, and what it settles then is kept."""
    unit, api = host.publish("lab"), host.api()
    for name, person in (("r1", "ann"), ("r2", "bob")):
        say(api, name, "create", unit)
        say(api, name, "enrol", person)
        say(api, name, "assign", person, "student")
        say(api, name, "enrol", "tom")
        say(api, name, "assign", "tom", "tutor")
        say(api, name, "start")
    before = len(host.kept())
    shared = {"uri": "urn:lab:gate", "value": "true"}
    assert api.post(f"/units/{unit}/globals", json=shared, headers={"idempotency-key": "g"}).status_code == 200
    assert api.post(f"/units/{unit}/globals", json=shared, headers={"idempotency-key": "g"}).status_code == 200
    verbs = [json.loads(line)[1] for line in host.kept()[before:]]
    assert verbs == ["global-set", "tick", "tick"], "each run settled once"
    assert "lab" in json.dumps(api.get("/runs/r2/persons/bob/tree").json())
    assert api.post(f"/units/{unit}/globals", json=shared | {"value": "maybe"}).status_code == 409


def test_an_edition_beside_those_that_share_its_values(host):
    first, api = host.publish("lab"), host.api()
    say(api, "r1", "create", first)
    assert host.publish("first") == "u1-1"
    page = host.browser()
    answer = page.post("/author/choose", data={"word": page.word, "folder": "lab", "act": "publish"})
    assert "beside the units that share its values" in answer.text and answer.status_code == 422
    assert [run["run"] for run in api.get("/runs").json()] == ["r1"]


def test_runs_are_apart(host):
    """A run without shared values has a journal of its own; two editions of a unit stand side by side."""
    api, first, second = host.api(), host.publish("first"), host.publish("first")
    assert first != second
    say(api, "a", "create", first, key="c")
    say(api, "b", "create", second)
    assert say(api, "a", "create", first, key="c")["reply"] == "ok create"
    assert say(api, "a", "create", second, status=409)["detail"]["word"] == "run-exists"
    assert say(api, "c", "create", "nothing-1", status=409)["detail"]["word"] == "unknown-unit"
    assert say(api, "c", "enrol", "ann", status=409)["detail"]["word"] == "unknown-run"
    for name in ("../x", "a/b", ".", "x" * 65, "a b"):
        answer = api.post(f"/runs/{name.replace('/', '%2f')}/commands", json={"verb": "create", "words": [first]})
        assert answer.status_code in (404, 405, 422), name
    assert sorted(folder.name for folder in (host.data / "shards").iterdir()) == ["run.a", "run.b"]


def test_one_of_several_creates(host):
    unit, found = host.publish("first"), []

    def create():
        answer = host.api().post("/runs/c/commands", json={"verb": "create", "words": [unit]})
        found.append(answer.status_code)

    threads = [threading.Thread(target=create) for _ in range(4)]
    for thread in threads:
        thread.start()
    for thread in threads:
        thread.join()
    assert sorted(found) == [200, 409, 409, 409]


def test_a_journal_that_does_not_suit_rests_alone(host):
    api, unit = host.api(), host.publish("first")
    say(api, "a", "create", unit)
    say(api, "b", "create", unit)
    host.stop()
    path = host.data / "shards/run.a/ld.journal"
    good = path.read_bytes()
    path.write_bytes(good.replace(b'"u1"', b'"u9"'))
    host.start()
    assert [run["run"] for run in host.api().get("/runs").json()] == ["b"]
    say(host.api(), "b", "enrol", "ann")
    page = host.browser()
    assert "closed:" in page.get("/admin").text
    path.write_bytes(good)
    answer = page.post("/admin/reopen", data={"word": page.word, "key": "k", "shard": "run.a"})
    assert "open again" in answer.text and "closed:" not in answer.text
    say(host.api(), "a", "enrol", "ann")


def test_two_hosts_on_one_folder(fractions):
    """A second host on the same folder waits and gives up; the first goes on."""
    second = Host(fractions.data)
    process = second.launch(stderr=subprocess.PIPE)
    _, said = process.communicate(timeout=PATIENCE)
    assert process.returncode == 1 and b"another host has run.monday" in said
    say(fractions.api(), "monday", "complete", "ida", "lesson")


def test_keeper_and_reader_are_compared(new_host):
    """A reader that answers otherwise than the keeper closes the run, and no other."""
    host = new_host(engine=HERE / "engines" / "lying.py", LIE='"complete"')
    api = host.run_of("first", "r", ("ann", "learner"))
    assert api.post("/runs/r/commands", json={"verb": "complete", "words": ["ann", "read"]}).status_code == 503
    assert api.get("/runs/r/persons/ann/tree").status_code == 503
    assert "keeper and reader differ" in host.browser().get("/admin").text
    say(api, "other", "create", host.publish("first"))
