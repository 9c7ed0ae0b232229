"""The lines of a report and of an outbox, after docs/COMMANDS.md, "Replies"."""
from tree import json_text, said_of
from values import text_of_moment


def state_of_part(run, act, part):
    """A role-part is done, or else open where its act is opened, or else waiting."""
    if run.is_done(part["identifier"]):
        return "done"
    return "open" if run.is_opened(act["identifier"]) else "waiting"


def state_of_act(run, act):
    """An act is done, or else open where it is opened, or else waiting; the moment of its opening is told."""
    if not run.is_opened(act["identifier"]):
        return "waiting"
    return f"{said_of(run.is_done(act['identifier']))} {text_of_moment(run.cells['ActOpened', act['identifier']])}"


def lines_of_play(run, play):
    """The line of a play and those of its acts, each with its role-parts."""
    lines = [f"play {play['identifier']} {said_of(run.is_done(play['identifier']))}"]
    for act in play["acts"]:
        lines.append(f"act {act['identifier']} {state_of_act(run, act)}")
        lines.extend(f"part {part['identifier']} {state_of_part(run, act, part)}" for part in act["role-parts"])
    return lines


def report_of(run):
    """The lines: the start, the roles, the plays, the unit, and the number of all notices."""
    unit = run.unit
    lines = [f"started {text_of_moment(run.cells['Started'])}"]
    lines += [f"role {role['identifier']} members={len(run.members(role['identifier']))}" for role in unit.roles]
    for play in unit.plays:
        lines.extend(lines_of_play(run, play))
    return lines + [f"unit {unit.identifier} {said_of(run.is_done(unit.identifier))}", f"notices {len(run.outbox)}"]


def outbox_of(run, person):
    """The notices that reach the person, the oldest first, each by its number among all notices of the run."""
    return [f"notice {number} {text_of_moment(notice['moment'])} {notice['activity'] or '-'} "
            + json_text(notice["subject"] or "")
            for number, notice in enumerate(run.outbox, 1) if person in notice["persons"]]
