"""How time passes in runs. An engine with the verb `next` is asked for alarms; any other is ticked every few seconds."""

from typing import TYPE_CHECKING, Protocol

from . import moments
from .engine import Engine
from .replies import NO_MEMORY
from .run import Alarm, Run

if TYPE_CHECKING:
    from .shard import Shard


class Timing(Protocol):
    """Each method is called while the shard's lock is held."""

    async def before(self, shard: "Shard", run: Run, moment: str) -> bool:
        """Lets pass what has to pass before a command at the moment, and tells whether anything changed."""

    async def due(self, shard: "Shard", run: Run, moment: str) -> bool:
        """Lets pass what is due by the moment, and tells whether anything changed."""

    async def alarm_of(self, shard: "Shard", run: Run) -> str | None:
        """The run's next alarm as of now, where it is known and there is one."""


class Alarms:
    """Ticks at each alarm's own moment, also late: how late the host looks makes no difference to the run.

    Any line that is kept may move a run's alarm, also a line of another run that shares a value with it. So an alarm
    counts only while the shard keeps as many lines as when it was asked for. After that it is stale, and is asked for
    again before it rings."""

    async def before(self, shard: "Shard", run: Run, moment: str) -> bool:
        return await self.due(shard, run, moment)

    async def due(self, shard: "Shard", run: Run, moment: str) -> bool:
        rung = False
        while (alarm := await self.alarm_of(shard, run)) and alarm <= moment:
            reply = await shard.put(shard.line(alarm, "tick", run.name))
            if reply.head == NO_MEMORY:
                break  # it rings again at the next turn
            if not reply.ok:
                run.alarm = Alarm(None, shard.kept)  # it is asked for again once another line is kept
                break
            rung = True
        return rung

    async def alarm_of(self, shard: "Shard", run: Run) -> str | None:
        if not run.started:
            return None
        if run.alarm is None or run.alarm.kept != shard.kept:
            reply = await shard.look_at("next", run.name)
            run.alarm = Alarm(reply.value, shard.kept)
        return run.alarm.moment


class Ticks:
    """Ticks at the present moment, every so many seconds, in runs of courses that look at time. A tick is a look: it is
    kept where it changed something, and else leaves no trace."""

    def __init__(self, seconds: int):
        self.seconds = seconds

    async def before(self, shard: "Shard", run: Run, moment: str) -> bool:
        """Nothing: the engine settles by itself at the moment of each command."""
        return False

    async def due(self, shard: "Shard", run: Run, moment: str) -> bool:
        if not (run.started and run.course.looks_at_time) or moment < moments.after(run.last, self.seconds):
            return False
        reply = await shard.look_at("tick", run.name, moment=moment)
        return reply.ok and reply.work[0] > 0

    async def alarm_of(self, shard: "Shard", run: Run) -> str | None:
        return None


def timing_of(engine: Engine, seconds: int) -> Timing:
    if engine.has_next:
        return Alarms()
    return Ticks(seconds)
