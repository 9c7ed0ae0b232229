"""How time passes, with alarms and without."""

import asyncio
import json
import time

import pytest
from conftest import ENGINE, WITH_NEXT, say, wait_for

from ldhost import moments
from ldhost.journal import kept_lines
from ldhost.replies import NO_MEMORY, Reply
from ldhost.run import Alarm, Run
from ldhost.shard import Shard
from ldhost.timing import Alarms, Ticks

ANN = ("ann", "learner")


def act_b(host):
    return host.api().get("/runs/d/report").json()["plays"][0]["acts"][1]


def alarm_of(api):
    opened = say(api, "d", "open", "ann", "sprint")["moment"]
    return moments.after(opened, 2)


def test_alarm(host_with_next):
    """The tick has the alarm's own moment."""
    host = host_with_next
    alarm = alarm_of(host.run_of("limit", "d", ANN))
    assert wait_for(lambda: act_b(host)["state"] == "open")
    assert json.loads(host.kept()[-1]) == [alarm, "tick", "d"]
    assert act_b(host)["opened"] == alarm


def test_alarm_while_the_host_was_away(host_with_next):
    host = host_with_next
    alarm = alarm_of(host.run_of("limit", "d", ANN))
    host.stop()
    time.sleep(3)
    host.start()
    assert wait_for(lambda: act_b(host)["state"] == "open")
    assert act_b(host)["opened"] == alarm


def test_ticks(host_without):
    """Without `next` a tick comes soon after the limit. It is kept once; ticks that change nothing are not kept."""
    host = host_without
    limit = alarm_of(host.run_of("limit", "d", ANN))
    assert wait_for(lambda: act_b(host)["state"] == "open")
    assert limit <= act_b(host)["opened"]
    time.sleep(3)
    assert host.verbs_kept() == ["create", "enrol", "assign", "start", "open", "tick"]


def test_ticks_while_the_host_was_away(host_without):
    """The time away passes by one tick, at the moment of the next start."""
    host = host_without
    limit = alarm_of(host.run_of("limit", "d", ANN))
    host.stop()
    time.sleep(4)
    started = moments.present()
    host.start()
    assert wait_for(lambda: act_b(host)["state"] == "open")
    assert limit < started <= act_b(host)["opened"]
    host.stop()
    host.start()
    assert act_b(host)["state"] == "open"
    assert host.verbs_kept().count("tick") == 1


def test_a_command_after_the_limit_comes_after_it(host_without):
    """A limit that has passed counts for the next command, also where no tick came before."""
    host = host_without
    host.stop()
    host.more = ("--tick", "3600")
    host.start()
    alarm_of(host.run_of("limit", "d", ANN))
    time.sleep(3)
    assert host.verbs_kept()[-1] == "open"
    say(host.api(), "d", "complete", "ann", "rest")
    assert host.verbs_kept()[-2:] == ["open", "complete"]


def test_no_ticks_where_no_course_looks_at_time(host_without):
    host = host_without
    host.run_of("first", "r", ANN)
    time.sleep(2.5)
    assert host.verbs_kept() == ["create", "enrol", "assign", "start"]
    assert host.api().get("/runs/r").json()["moment"] == json.loads(host.kept()[-1])[0]


class Clock:
    """A shard of the course `limit` or another one, with a clock that stands still until it is set."""

    def __init__(self, folder, library, timing, engine=ENGINE, course="limit"):
        (folder / "shard").mkdir()
        (folder / "shard" / "editions").write_text(f"{course}\n")
        self.now = "2024-01-01T00:00:00Z"
        self.shard = Shard(folder / "shard", library, engine, timing, lambda: self.now)

    async def begin(self):
        await self.shard.open()
        for words in (["create", "d", "limit"], ["enrol", "d", "ann"], ["assign", "d", "ann", "learner"]):
            assert (await self.shard.say(*words)).ok
        assert (await self.shard.say("start", "d")).ok
        assert (await self.shard.say("open", "d", "ann", "sprint")).ok

    def lines(self):
        return [json.loads(line) for line in kept_lines(self.shard.log.journal)]


def test_alarms_ring_before_the_command_after_them(tmp_path, library):
    """Also where the host had no time to ring: the command comes after the tick at the alarm's moment."""
    clock = Clock(tmp_path, library, Alarms(), WITH_NEXT)

    async def go():
        await clock.begin()
        clock.now = "2024-01-01T01:00:00Z"
        assert (await clock.shard.say("complete", "d", "ann", "rest")).ok
        await clock.shard.close()

    asyncio.run(go())
    assert clock.lines()[-2] == ["2024-01-01T00:00:02Z", "tick", "d"]
    assert clock.lines()[-1][0] == "2024-01-01T01:00:00Z"


class Short:
    """A shard that has no memory for the first line."""

    line, kept = staticmethod(Shard.line), 0

    def __init__(self):
        self.answers = [Reply(NO_MEMORY), Reply("ok tick turns=1 fired=1 rejected=0 sent=0")]

    async def put(self, line):
        reply = self.answers.pop(0)
        self.kept += reply.ok
        return reply

    async def look_at(self, *words):
        return Reply("ok next turns=0 fired=0 rejected=0 sent=0 at=none")


def test_an_alarm_rings_again_where_memory_ran_out():
    alarm, late, shard = Alarm("2024-01-01T00:00:02Z", 0), "2024-01-01T00:00:03Z", Short()
    run = Run("d", None, "", started=True, alarm=alarm)
    assert not asyncio.run(Alarms().due(shard, run, late)) and run.alarm == alarm
    assert asyncio.run(Alarms().due(shard, run, late)) and run.alarm == Alarm(None, 1)


@pytest.mark.parametrize("seconds,kept", [(0, 5), (1, 5), (2, 6), (3, 6)])
def test_ticks_are_kept_where_they_change_something(tmp_path, library, seconds, kept):
    clock = Clock(tmp_path, library, Ticks(1))

    async def go():
        await clock.begin()
        clock.now = moments.after(clock.now, seconds)
        await clock.shard.pass_time()
        await clock.shard.pass_time()
        await clock.shard.close()

    asyncio.run(go())
    assert len(clock.lines()) == kept
    assert kept == 5 or clock.lines()[-1] == [clock.now, "tick", "d"]


def test_a_clock_that_is_set_back(tmp_path, library):
    """Commands and looks then come at the run's last moment, also one that only an unkept tick reached."""
    clock = Clock(tmp_path, library, Ticks(1))

    async def go():
        await clock.begin()
        clock.now = "2024-01-01T00:00:01Z"
        await clock.shard.pass_time()
        clock.now = "2023-01-01T00:00:00Z"
        await clock.shard.pass_time()
        assert (await clock.shard.say("enrol", "d", "bob")).ok
        assert (await clock.shard.look("report", "d")).ok
        await clock.shard.close()

    asyncio.run(go())
    assert clock.lines()[-1] == ["2024-01-01T00:00:01Z", "enrol", "d", "bob"]
