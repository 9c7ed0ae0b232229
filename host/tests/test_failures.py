"""Processes that end at any moment: nothing acknowledged is lost, and nothing is done twice."""

import json
import os
import random
import signal
import threading
import time

import httpx
import pytest
from conftest import HERE, say

CLIENTS, COMMANDS, KILLS = 3, 60, 12
KILLING, SECONDS = 60, 300
"""For how long processes are killed, and in how much time all has to be answered."""


class Clients:
    """Clients that send commands with keys, each again until it is answered."""

    def __init__(self, host):
        self.host, self.done, self.ends = host, [], time.time() + SECONDS
        self.threads = [threading.Thread(target=self.send, args=(number,)) for number in range(CLIENTS)]
        for thread in self.threads:
            thread.start()

    def send(self, number):
        for value in (f"{number}-{i}" for i in range(COMMANDS)):
            while time.time() < self.ends and not self.sent(value):
                pass

    def sent(self, value):
        body = {"verb": "set", "words": ["ida", "word", value]}
        try:
            answer = self.host.api().post("/runs/monday/commands", headers={"idempotency-key": value}, json=body)
        except httpx.HTTPError:
            time.sleep(0.05)
            return False
        assert answer.status_code in (200, 500, 503), answer.text
        if answer.status_code == 200:
            self.done.append(value)
        return answer.status_code == 200

    def are_busy(self):
        return any(thread.is_alive() for thread in self.threads)

    def wait(self):
        for thread in self.threads:
            thread.join(SECONDS)


@pytest.mark.parametrize("whom", ["keeper", "host"])
def test_killed_again_and_again(fractions_process, whom):
    """While commands come, the keeper or the host is killed: each acknowledged command is in the journal, once."""
    fractions, seed = fractions_process, random.randrange(1 << 32)
    print("seed", seed)
    moments, clients, kills = random.Random(seed), Clients(fractions), 0
    while clients.are_busy() and kills < KILLS and time.time() < clients.ends - SECONDS + KILLING:
        time.sleep(moments.uniform(0.05, 0.3))
        if whom == "host":
            fractions.stop(signal.SIGKILL)
            fractions.start()
        else:
            for number in fractions.engines("keep"):
                os.kill(number, signal.SIGKILL)
        kills += 1
    clients.wait()
    values = [json.loads(line)[5] for line in fractions.kept() if '"word"' in line]
    assert kills >= 3 and len(clients.done) == CLIENTS * COMMANDS
    assert sorted(values) == sorted(clients.done), "each acknowledged command once, and no other"
    assert fractions.api().get("/runs/monday/persons/ida/properties/word").json() == {"value": values[-1]}


@pytest.mark.parametrize("form", ["keep", "replay"])
def test_processes_that_are_killed_while_they_start(new_host, tmp_path, form):
    """One that follows a killed one is killed, too, and once more: the run goes on."""
    room = tmp_path / "room"
    room.mkdir()
    host = new_host(engine=HERE / "engines" / "killed.py", KILLED=form, ROOM=str(room))
    api = host.run_of("first", "r", ("ann", "learner"))
    for number in range(3):
        (room / str(number)).touch()
    shard, _ = host.server.house.find("r")
    (shard.log.keeper if form == "keep" else shard.reader.child).process.kill()
    say(api, "r", "complete", "ann", "read")
    assert not list(room.iterdir()) and host.verbs_kept()[-2:] == ["start", "complete"]


@pytest.mark.parametrize("line", [1, 4, 6])
@pytest.mark.parametrize("when", ["before", "after", "half", "memory"])
@pytest.mark.parametrize("form", ["keep", "replay"])
def test_engine_fails_at(new_host, tmp_path, form, when, line):
    """An engine process ends at each place around a line: the client hears nothing of it, and the line is kept once. Where
    the keeper has no memory, the client is told to send the line again."""
    host = new_host(engine=HERE / "engines" / "dying.py", DIE=f"{form} {line} {when} {tmp_path}")
    api, unit = host.api(), host.publish("first")
    (tmp_path / "armed").touch()

    def do(verb, *words, key=None, status=200):
        key = key or verb
        answer = api.post("/runs/r/commands", json={"verb": verb, "words": words}, headers={"idempotency-key": key})
        if (form, when) == ("keep", "memory") and answer.status_code == 503:
            return say(api, "r", verb, *words, key=key, status=status)
        assert answer.status_code == status, answer.text
        return answer.json()

    do("create", unit)
    do("enrol", "ann")
    do("assign", "ann", "learner")
    do("start")
    assert api.get("/runs/r/persons/ann/tree").json()["state"] == "open"
    assert do("complete", "ann", "read")["reply"] == "ok complete turns=1 fired=2 rejected=0 sent=0"
    do("complete", "ann", "read", key="again", status=409)
    part = api.get("/runs/r/persons/ann/tree").json()["children"][0]["children"][0]["children"][0]
    assert part["state"] == "done" and (tmp_path / "failed").exists()
    assert host.verbs_kept() == ["create", "enrol", "assign", "start", "complete"]
