"""Who may what. The engine does not ask who acts, so the host does, by this one table.

A person has several standings at once: administrator or author by a token; staff, member or stranger in a run. What one
of them may, the person may. `own` means that the person acts for, or looks at, herself or himself.
"""

from .run import Run

ADMINISTRATOR, AUTHOR, STAFF, MEMBER, STRANGER = "administrator", "author", "staff", "member", "stranger"
STANDINGS = (ADMINISTRATOR, AUTHOR, STAFF, MEMBER, STRANGER)

TABLE: dict[str, set[str]] = {
    "open own": {STAFF, MEMBER},
    "complete own": {STAFF, MEMBER},
    "page-set own": {STAFF, MEMBER},
    "tree own": {STAFF, MEMBER},
    "outbox own": {STAFF, MEMBER},
    "page own": {STAFF, MEMBER},
    "files of the course": {ADMINISTRATOR, STAFF, MEMBER},
    "set of a role held": {ADMINISTRATOR, STAFF},
    "tree of others": {ADMINISTRATOR, STAFF},
    "outbox of others": {ADMINISTRATOR, STAFF},
    "page of others": {ADMINISTRATOR, STAFF},
    "get": {ADMINISTRATOR, STAFF},
    "report": {ADMINISTRATOR, STAFF},
    "members": {ADMINISTRATOR, STAFF},
    "open of others": {ADMINISTRATOR},
    "complete of others": {ADMINISTRATOR},
    "page-set of others": {ADMINISTRATOR},
    "create": {ADMINISTRATOR},
    "enrol": {ADMINISTRATOR},
    "assign": {ADMINISTRATOR},
    "drop": {ADMINISTRATOR},
    "start": {ADMINISTRATOR},
    "set": {ADMINISTRATOR},
    "clear": {ADMINISTRATOR},
    "tick": {ADMINISTRATOR},
    "global-set": {ADMINISTRATOR},
    "all runs": {ADMINISTRATOR},
    "tokens": {ADMINISTRATOR},
    "open a journal again": {ADMINISTRATOR},
    "units": {ADMINISTRATOR, AUTHOR},
    "check a course": {ADMINISTRATOR, AUTHOR},
    "publish a course": {ADMINISTRATOR, AUTHOR},
    "preview a course": {ADMINISTRATOR, AUTHOR},
}
PERSONAL = {"open", "complete", "page-set", "tree", "outbox", "page"}


def standings(person: str, is_admin: bool, is_author: bool, run: Run | None) -> set[str]:
    found = {ADMINISTRATOR} if is_admin else set()
    if is_author:
        found.add(AUTHOR)
    if run is None or person not in run.persons:
        return found | {STRANGER}
    return found | {STAFF if run.is_staff(person) else MEMBER}


def action_of(verb: str, words: list[str], person: str, run: Run | None) -> str:
    """The row of the table for a verb and the words behind the run's name."""
    is_own = words[:1] == [person]
    if verb in PERSONAL:
        return f"{verb} own" if is_own else f"{verb} of others"
    if verb == "set" and is_own and run and len(words) == 3:
        if words[1] in run.course.properties_of_roles(set(run.persons.get(person, ()))):
            return "set of a role held"
    return verb


def allows(action: str, standing: set[str]) -> bool:
    return bool(TABLE.get(action, set()) & standing)
