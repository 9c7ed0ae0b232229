"""What a person reads where the engine refuses."""

from ..replies import Reply

TEXTS = {
    "bad-line": "A name or word has not the form that it must have.",
    "unknown-unit": "There is no such published unit.",
    "run-exists": "A run has this name already.",
    "unknown-run": "There is no such run.",
    "not-started": "The course has not started yet.",
    "started-already": "The run is started already.",
    "unknown-person": "This person is not enrolled.",
    "person-exists": "This person is enrolled already.",
    "run-full": "A run has at most 200 persons.",
    "unknown-role": "There is no such role.",
    "holds-already": "The person holds this role already.",
    "not-held": "The person does not hold this role.",
    "role-full": "The role has as many members as it may have.",
    "role-exclusive": "The person holds a role that excludes this one.",
    "role-short": "A role has too few members: {}.",
    "not-by-choice": "This completes by itself.",
    "unknown-property": "There is no such property.",
    "bad-value": "This value is not allowed here.",
    "not-allowed": "This role may not change this.",
    "page-closed": "This form is closed.",
    "turn-budget": "The course's rules do not come to rest, so nothing was done. Tell the course's author.",
    "not-open": "This is not open for you any more, or not yet.",
    "no-memory": "The engine had no memory left, so nothing was done. Try again later.",
}


def said(reply: Reply) -> str:
    refusal = reply.refusal
    return TEXTS.get(refusal.word, refusal.word).format(" ".join(refusal.more))
