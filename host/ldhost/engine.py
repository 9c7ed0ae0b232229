"""The engine program: what it has, and its forms that answer once (`check`, `rank`)."""

import asyncio
import json
import tempfile
from dataclasses import dataclass
from pathlib import Path

from .replies import BAD_LINE

SECONDS = 60
BAD_WORDS = 2
UNIT_REFUSED = 4
MOMENT = "2024-01-01T00:00:00Z"
PROBE = {
    "roles.json": {"roles": [{"identifier": "r", "kind": "learner"}]},
    "activities.json": {"activities": [{"identifier": "a"}]},
    "unit.json": {
        "format": 1,
        "identifier": "probe",
        "level": "A",
        "method": {
            "plays": [
                {
                    "identifier": "p",
                    "acts": [{"identifier": "c", "role-parts": [{"identifier": "t", "role": "r", "ref": "a"}]}],
                }
            ]
        },
    },
}
SETTING_UP = [["create", "x", "probe"], ["enrol", "x", "ann"], ["assign", "x", "ann", "r"], ["start", "x"]]
LATER_VERBS = [["next", "x"], ["page", "x", "ann", "form"]]


class Unfit(Exception):
    """This program can't stand behind the host; says why."""


@dataclass(frozen=True)
class Engine:
    program: Path
    has_next: bool = False
    has_pages: bool = False


async def ask_what_it_has(program: Path) -> Engine:
    """Asks the program itself: a verb that it does not have is answered as a bad line."""
    with tempfile.TemporaryDirectory() as name:
        folder = Path(name)
        for document, content in PROBE.items():
            (folder / document).write_text(json.dumps(content))
        status, _ = await answer(program, "keep", [folder], place=folder)
        if status == BAD_WORDS:
            raise Unfit("the engine has no form 'keep', which the host needs")
        if status != 0:
            raise Unfit(f"the engine ended with status {status} when it was tried")
        lines = "".join(json.dumps([MOMENT, *words]) + "\n" for words in SETTING_UP + LATER_VERBS)
        status, out = await answer(program, "replay", [folder], lines)
    if status != 0:
        raise Unfit(f"the engine ended with status {status} when it was tried")
    replies = out.split("\n")[len(SETTING_UP) :]
    return Engine(program, replies[0] != BAD_LINE, replies[1] != BAD_LINE)


async def answer(
    program: Path, form: str, folders: list[Path], lines: str = "", place: Path | None = None
) -> tuple[int, str]:
    """The status and the output of a whole call."""
    pipe = asyncio.subprocess.PIPE
    try:
        process = await asyncio.create_subprocess_exec(
            str(program), form, *map(str, folders), cwd=place, stdin=pipe, stdout=pipe, stderr=pipe
        )
    except OSError as error:
        raise Unfit(f"{program} can't be started: {error.strerror}") from None
    try:
        out, _ = await asyncio.wait_for(process.communicate(lines.encode()), SECONDS)
    except asyncio.TimeoutError:
        process.kill()
        await process.wait()
        raise Unfit(f"{form} took more than {SECONDS} seconds") from None
    assert process.returncode is not None
    return process.returncode, out.decode()
