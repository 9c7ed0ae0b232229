"""Alarms that a later line moves: the old one does not ring, and the new one does."""

import asyncio

import pytest
from conftest import ENGINE, HERE, say
from test_time import Clock

from ldhost.engine import Engine
from ldhost.replies import NO_MEMORY
from ldhost.timing import Alarms

pytestmark = pytest.mark.skipif(not ENGINE.has_next, reason="the engine has no alarms (next)")


def at(seconds):
    return f"2024-01-01T00:{seconds // 60:02}:{seconds % 60:02}Z"


class Bells(Clock):
    """Runs whose alarm is a second after the moment that a property has."""

    def __init__(self, folder, library, course, engine=ENGINE):
        super().__init__(folder, library, Alarms(), engine, course)
        self.course = course

    async def say(self, *words):
        reply = await self.shard.say(*words)
        assert reply.ok, reply.head

    async def make(self, run, role, *persons):
        await self.say("create", run, self.course)
        for person in persons:
            await self.say("enrol", run, person)
            await self.say("assign", run, person, role)
        await self.say("start", run)

    async def pass_to(self, seconds):
        self.now = at(seconds)
        await self.shard.pass_time()

    def ticks(self):
        return [(moment, words[0]) for moment, verb, *words in self.lines() if verb == "tick"]


@pytest.fixture
def race(tmp_path, library):
    """A run `r`, in which `set_signal` says when the alarm is."""
    race = Bells(tmp_path, library, "race")

    async def set_signal(seconds):
        await race.say("set", "r", "ann", "signal", at(seconds))

    race.set_signal = set_signal
    return race


@pytest.fixture
def bell(tmp_path, library):
    """Runs that share the moment and what follows from it."""
    bell = Bells(tmp_path, library, "bell")

    async def set_bell(seconds):
        await bell.say("global-set", "urn:tests:bell", "", at(seconds))

    bell.set_bell = set_bell
    return bell


def done(course, steps):
    async def whole():
        await course.shard.open()
        await steps()
        await course.shard.close()

    asyncio.run(whole())
    return course


def test_an_alarm_that_is_put_off(race):
    async def steps():
        await race.make("r", "runner", "ann")
        await race.set_signal(10)
        await race.pass_to(5)
        await race.set_signal(100)
        await race.pass_to(50)
        assert race.ticks() == []
        await race.pass_to(200)

    assert done(race, steps).ticks() == [(at(101), "r")]


def test_an_alarm_that_is_brought_forward(race):
    async def steps():
        await race.make("r", "runner", "ann")
        await race.set_signal(100)
        await race.pass_to(5)
        await race.set_signal(10)
        await race.pass_to(50)

    assert done(race, steps).ticks() == [(at(11), "r")]


def test_an_alarm_that_is_called_off(race):
    async def steps():
        await race.make("r", "runner", "ann")
        await race.set_signal(10)
        await race.pass_to(5)
        await race.say("clear", "r", "ann", "signal")
        await race.pass_to(50)

    assert done(race, steps).ticks() == []


@pytest.mark.parametrize("is_asked", [False, True])
def test_the_new_alarm_rings_before_a_command(race, is_asked):
    """Whether or not the host had time to ask for it."""

    async def steps():
        await race.make("r", "runner", "ann")
        await race.set_signal(100)
        await race.pass_to(5)
        await race.set_signal(10)
        if is_asked:
            await race.pass_to(6)
        race.now = at(50)
        await race.say("complete", "r", "ann", "lap")

    assert [(line[0], line[1]) for line in done(race, steps).lines()[-2:]] == [(at(11), "tick"), (at(50), "complete")]


def test_alarms_after_a_new_start(race, tmp_path):
    """An alarm that a line moved just before the host ended is asked for again at its next start."""

    async def steps():
        await race.make("r", "runner", "ann")
        await race.set_signal(100)
        await race.pass_to(5)
        await race.set_signal(10)
        await race.shard.reopen()
        await race.pass_to(50)

    assert done(race, steps).ticks() == [(at(11), "r")]


@pytest.mark.parametrize("first,then", [(10, 100), (100, 10)])
def test_alarms_of_all_runs_that_share_a_value(bell, first, then):
    """A value that is written outside of a run, and that settles nothing there yet, moves the run's alarm. What the first
    run to ring writes, the other one takes in at its last moment."""

    async def steps():
        await bell.make("r1", "learner", "ann")
        await bell.make("r2", "learner", "bob")
        await bell.set_bell(first)
        await bell.pass_to(5)
        await bell.set_bell(then)
        await bell.pass_to(50)
        assert bell.ticks() == ([] if then == 100 else [(at(11), "r1"), (at(0), "r2"), (at(11), "r2")])
        await bell.pass_to(200)

    ticks = done(bell, steps).ticks()
    assert {(at(then + 1), "r1"), (at(then + 1), "r2")} <= set(ticks)
    assert {moment for moment, _ in ticks} == {at(0), at(then + 1)}


def test_what_an_alarm_writes_for_others_before_a_refused_command(bell):
    """The alarm rings before the command. What it writes is taken in by the other run, though the command is refused."""

    async def steps():
        await bell.make("r1", "learner", "ann")
        await bell.make("r2", "learner", "bob")
        await bell.set_bell(10)
        bell.now = at(50)
        assert not (await bell.shard.say("enrol", "r1", "ann")).ok
        assert (await bell.shard.look("outbox", "r2", "bob")).lines

    ticks = done(bell, steps).ticks()
    assert ticks[0] == (at(11), "r1") and "r2" in [run for _, run in ticks]


def test_nothing_comes_before_an_alarm_that_has_no_memory(tmp_path, library, monkeypatch):
    """The command is told to come again, and comes after the alarm then."""
    monkeypatch.setenv("DIE", f"keep 6 memory {tmp_path}")
    (tmp_path / "armed").touch()
    race = Bells(tmp_path, library, "race", Engine(HERE / "engines" / "dying.py", has_next=True))

    async def steps():
        await race.make("r", "runner", "ann")
        await race.say("set", "r", "ann", "signal", at(10))
        race.now = at(50)
        assert (await race.shard.say("complete", "r", "ann", "lap")).head == NO_MEMORY
        await race.say("complete", "r", "ann", "lap")

    assert [(line[0], line[1]) for line in done(race, steps).lines()[-2:]] == [(at(11), "tick"), (at(50), "complete")]


def test_the_administrator_sees_the_alarm_as_it_is(host):
    api, page = host.run_of("race", "r", ("ann", "runner")), host.browser()
    for year in ("2999", "2998"):
        say(api, "r", "set", "ann", "signal", f"{year}-01-01T00:00:00Z")
        text = page.get("/admin/runs/r").text
        assert f'next alarm <time datetime="{year}-01-01T00:00:01Z">' in text
    say(api, "r", "clear", "ann", "signal")
    assert "next alarm" not in page.get("/admin/runs/r").text
