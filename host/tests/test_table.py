"""Lines that are kept in PostgreSQL. Left out where it is not installed."""

import asyncio
import json
import random
import signal
import subprocess
import time
from concurrent.futures import ThreadPoolExecutor

import pytest
from conftest import HERE, LD, PATIENCE, Host, say, wait_for, with_fractions
from postgres import Server, programs
from test_failures import CLIENTS, COMMANDS, Clients

from ldhost.engine import Unfit, answer
from ldhost.logs import maker_of

psycopg2 = pytest.importorskip("psycopg2", reason="python3-psycopg2 is not installed")
pytestmark = pytest.mark.skipif(programs() is None, reason="PostgreSQL is not installed")


@pytest.fixture(scope="module")
def server():
    server = Server().start()
    yield server
    server.end()


@pytest.fixture
def database(server):
    """The address of a server whose tables are not made yet."""
    rows(server.address, "drop table if exists ld_lines, ld_shards")
    return server.address


def rows(address, command, *given):
    with psycopg2.connect(address) as session, session.cursor() as cursor:
        cursor.execute(command, given)
        return cursor.fetchall() if cursor.description else []


def lines_of(address, shard="run.monday"):
    return [line for (line,) in rows(address, "select line from ld_lines where shard = %s order by number", shard)]


@pytest.fixture
def in_table(tmp_path, library, hosts, database):
    """A host that can be killed, with the run `monday`."""
    hosts.append(Host(tmp_path / "data", "--log", database, library=library).start())
    return with_fractions(hosts[-1])


def test_lines_are_rows(in_table, database, library):
    """What is done is in the table and in no file, and an engine alone answers its lines as the host did."""
    api = in_table.api()
    done = [say(api, "monday", "complete", person, "lesson")["reply"] for person in ("ida", "jon")]
    say(api, "monday", "complete", "ida", "lesson", status=409)
    assert api.get("/runs/monday/persons/ida/tree").status_code == 200
    lines = lines_of(database)
    assert [json.loads(line)[1] for line in lines[-3:]] == ["start", "complete", "complete"]
    assert in_table.kept() == []
    status, out = asyncio.run(answer(LD, "replay", [library / "fractions"], "".join(f"{line}\n" for line in lines)))
    assert status == 0 and out.splitlines()[-2:] == done


def test_a_key_outlives_the_host(in_table, database):
    first = say(in_table.api(), "monday", "complete", "ida", "lesson", key="k1")
    in_table.stop(signal.SIGKILL)
    in_table.start()
    assert say(in_table.api(), "monday", "complete", "ida", "lesson", key="k1") == first
    say(in_table.api(), "monday", "complete", "jon", "lesson", key="k1", status=422)
    assert sum('"complete"' in line for line in lines_of(database)) == 1


@pytest.mark.parametrize("whom", ["host", "server"])
def test_killed_while_clients_send(in_table, server, database, whom):
    """Each acknowledged command is in the table, once."""
    seed = random.randrange(1 << 32)
    print("seed", seed)
    moments, clients, kills = random.Random(seed), Clients(in_table), 0
    while clients.are_busy() and kills < 6:
        time.sleep(moments.uniform(0.1, 0.4))
        if whom == "host":
            in_table.stop(signal.SIGKILL)
            in_table.start()
        else:
            server.stop("immediate")
            server.start()
        kills += 1
    clients.wait()
    values = [json.loads(line)[5] for line in lines_of(database) if '"word"' in line]
    assert kills >= 2 and len(clients.done) == CLIENTS * COMMANDS
    assert sorted(values) == sorted(clients.done)
    word = in_table.api().get("/runs/monday/persons/ida/properties/word").json()
    assert word == {"value": values[-1]}


@pytest.fixture
def pair():
    """A primary and its synchronous standby."""
    servers = [Server().start("-c synchronous_standby_names=two -c synchronous_commit=local")]
    try:
        servers.append(Server(servers[0]).start("-c synchronous_standby_names="))
        states = "select sync_state from pg_stat_replication"
        assert wait_for(lambda: rows(servers[0].address, states) == [("sync",)])
        yield servers
    finally:
        for server in servers:
            server.end()


def test_a_standby_takes_over(pair, tmp_path, library, hosts):
    """The primary ends while clients send: each acknowledged command is in the standby's table, once."""
    one, two = pair
    places = f"127.0.0.1:{one.port},127.0.0.1:{two.port}"
    address = f"postgresql://postgres@{places}/postgres?target_session_attrs=read-write"
    hosts.append(Host(tmp_path / "data", "--log", address, library=library).start())
    clients = Clients(with_fractions(hosts[-1]))
    assert wait_for(lambda: len(clients.done) >= 20)
    one.stop("immediate")
    before = len(clients.done)
    two.promote()
    clients.wait()
    values = [json.loads(line)[5] for line in lines_of(two.address) if '"word"' in line]
    assert before < len(clients.done) == CLIENTS * COMMANDS
    assert sorted(values) == sorted(clients.done)


def test_a_process_that_answers_is_killed(tmp_path, library, hosts, database):
    """The process in the keeper's place, or the reader, ends at a line: another one follows, and the line is kept once."""
    engine, how = HERE / "engines" / "dying.py", f"replay 6 after {tmp_path}"
    hosts.append(Host(tmp_path / "data", "--log", database, library=library, engine=engine, DIE=how).start())
    (tmp_path / "armed").touch()
    with_fractions(hosts[-1])
    assert (tmp_path / "failed").exists()
    say(hosts[-1].api(), "monday", "complete", "ida", "lesson")
    verbs = [json.loads(line)[1] for line in lines_of(database)]
    assert verbs == ["create", *["enrol", "assign"] * 3, "start", "complete"]


def test_another_host_waits_for_the_table(in_table, tmp_path, library, database):
    """A host on a copy of the folder gives up while the first one runs, and goes on with its lines after it ended."""
    subprocess.run(["cp", "-a", in_table.data, tmp_path / "copy"], check=True)
    second = Host(tmp_path / "copy", "--log", database, library=library)
    process = second.launch(stderr=subprocess.PIPE)
    _, said = process.communicate(timeout=PATIENCE)
    assert process.returncode == 1 and b"another host has run.monday" in said
    say(in_table.api(), "monday", "complete", "ida", "lesson")
    in_table.stop(signal.SIGKILL)
    second.start()
    say(second.api(), "monday", "complete", "ida", "lesson", status=409)
    say(second.api(), "monday", "complete", "jon", "lesson")
    second.stop()


@pytest.mark.parametrize("fault", ["another line", "a line less"])
def test_a_table_that_others_write(in_table, database, fault):
    """Nothing is acknowledged any more, and no line of the other is written over."""
    before = lines_of(database)
    if fault == "another line":
        rows(database, "insert into ld_lines values ('run.monday', %s, '[]')", len(before))
    else:
        rows(database, "delete from ld_lines where number = %s", len(before) - 1)
    stand = lines_of(database)
    body = {"verb": "complete", "words": ["ida", "lesson"]}
    assert in_table.api().post("/runs/monday/commands", json=body).status_code == 503
    assert lines_of(database) == stand
    assert "closed:" in in_table.browser().get("/admin").text


def test_a_log_of_the_other_kind(new_host, database):
    """A run goes on in the log in which it began, and in no other."""
    host = new_host()
    say(host.api(), "old", "create", host.publish("first"))
    host.stop()
    host.more = ("--log", database)
    host.start()
    assert "ld.journal" in host.browser().get("/admin").text and host.api().get("/runs").json() == []
    say(host.api(), "new", "create", host.publish("first"))
    host.stop()
    host.more = ()
    host.start()
    assert [run["run"] for run in host.api().get("/runs").json()] == ["old"]
    assert "in a table" in host.browser().get("/admin").text


def test_a_server_that_is_away_for_long(in_table, server, database):
    """The command waits, and is done once the server is back."""
    server.stop("immediate")
    with ThreadPoolExecutor(1) as pool:
        sending = pool.submit(say, in_table.api(), "monday", "complete", "ida", "lesson")
        time.sleep(2)
        server.start()
        assert sending.result(PATIENCE)["reply"].startswith("ok complete ")
    assert wait_for(lambda: sum('"complete"' in line for line in lines_of(database)) == 1)


@pytest.mark.parametrize("address", ["ld.journal", "postgresql://127.0.0.1:1/none", "postgresql://?nonsense=1"])
def test_addresses_that_lead_nowhere(address):
    with pytest.raises(Unfit):
        maker_of(address)
