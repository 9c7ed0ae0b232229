"""The course page of a person, for staff also the state of the run and the pages of its members."""

from typing import Any
from urllib.parse import quote

from fastapi import APIRouter, Depends, HTTPException
from fastapi.responses import FileResponse, Response
from starlette.datastructures import FormData

from .. import rights
from ..access import Who
from ..files import file_at
from ..run import Run
from ..shard import Shard
from ..view import View, looks_for, view_of
from .said import said
from .site import Site, text_of

FIELD, OLD = "v-", "o-"
SANDBOX = {"content-security-policy": "sandbox allow-scripts allow-popups"}
PASSIVE = {"application/pdf"}


def routes(site: Site) -> APIRouter:
    router = APIRouter(include_in_schema=False)

    async def view(who: Who, shard: Shard, run: Run, person: str) -> View:
        """The person's page, if the one who asks may see all that stands there."""
        for verb, _, *words in looks_for(run, person):
            site.demand(who, rights.action_of(verb, words, who.person, run), run)
        return await view_of(shard, run, person, f"/files/{quote(run.name)}/")

    @router.get("/runs/{name}")
    async def page(name: str, who: Who = Depends(site.signed_in)) -> Response:
        shard, run = site.find_for(who, name, "files of the course")
        if who.person not in run.persons:
            return site.back(f"/admin/runs/{quote(name)}")
        return site.show("run.html", who, v=await view(who, shard, run, who.person), **acting(run))

    @router.get("/runs/{name}/view")
    async def part(name: str, who: Who = Depends(site.signed_in)) -> Response:
        shard, run = site.find(who, name, "tree", [who.person])
        return site.show("view.html", who, v=await view(who, shard, run, who.person), **acting(run))

    @router.get("/runs/{name}/persons/{person}")
    async def other(name: str, person: str, who: Who = Depends(site.signed_in)) -> Response:
        shard, run = site.find(who, name, "tree", [person])
        if person not in run.persons:
            raise HTTPException(404)
        is_own = person == who.person
        return site.show("run.html", who, v=await view(who, shard, run, person), **acting(run) | {"is_own": is_own})

    @router.post("/runs/{name}/do")
    async def do(
        name: str, form: FormData = Depends(site.checked_form), who: Who = Depends(site.signed_in)
    ) -> Response:
        notes, verb = [], text_of(form, "verb")
        for words in commands_of(form, verb, who.person):
            shard, _ = site.find(who, name, verb, words)
            reply = await shard.say(verb, name, *words, key=f"{who.person} {text_of(form, 'key')} {words}")
            if not reply.ok:
                notes.append(said(reply))
        return site.back(f"/runs/{quote(name)}", who, " ".join(notes))

    @router.get("/files/{name}/{path:path}")
    async def course_file(name: str, path: str, who: Who = Depends(site.signed_in)) -> Response:
        _, run = site.find_for(who, name, "files of the course")
        return sent(run, path)

    return router


def sent(run: Run, path: str) -> Response:
    """A file of the course. It gets an origin of its own, so that no script of an author acts as the reader. Browsers do
    not show PDF in such an origin; it has no script that acts, and is sent as it is."""
    target = file_at(run.course.folder, path)
    if target is None:
        raise HTTPException(404, "The course has no such file.")
    answer = FileResponse(target)
    if answer.media_type not in PASSIVE:
        answer.headers.update(SANDBOX)
    return answer


def acting(run: Run) -> dict[str, Any]:
    """What the page needs for its buttons."""
    return {"is_own": True, "act_at": f"/runs/{quote(run.name)}/do", "acting_for": "", "is_preview": False}


def commands_of(form: FormData, verb: str, person: str) -> list[list[str]]:
    """The words behind the run's name of each command that a button or a form asks for."""
    if verb in ("open", "complete"):
        return [[person, text_of(form, "activity")]]
    if verb not in ("page-set", "set"):
        raise HTTPException(400)
    first = [person, text_of(form, "page")] if verb == "page-set" else [person]
    return [[*first, name, value] for name, value in changed_fields(form)]


def changed_fields(form: FormData) -> list[tuple[str, str]]:
    """The properties whose values differ from those that the page showed."""
    fields = []
    for name in form:
        if name.startswith(FIELD):
            value = text_of(form, name).replace("\r\n", "\n")
            if value != text_of(form, OLD + name.removeprefix(FIELD)).replace("\r\n", "\n"):
                fields.append((name.removeprefix(FIELD), value))
    return fields
