"""Previews: an author presses the buttons of all persons, and moves the time."""

from fastapi import APIRouter, Depends, HTTPException
from fastapi.responses import Response
from starlette.datastructures import FormData

from ..access import Who
from ..preview import Preview
from ..view import view_of
from .courses import commands_of, sent
from .said import said
from .site import Site, text_of

PREVIEW = "preview a course"
STEPS = {"minute": 60, "hour": 3600, "day": 86400, "week": 604800}


def routes(site: Site) -> APIRouter:
    router = APIRouter(include_in_schema=False)
    previewer = Depends(site.allowed(PREVIEW))

    def find(who: Who, name: str) -> Preview:
        preview = site.previews.open.get(name)
        if preview is None or preview.author != who.person:
            raise HTTPException(404, "This preview has ended. Begin a new one on the author's page.")
        return preview

    def person_in(preview: Preview, person: str) -> str:
        """The person whose page is shown: the first one where none is chosen."""
        if not preview.run.persons:
            raise HTTPException(404, "The course could not be begun.")
        return person if person in preview.run.persons else next(iter(preview.run.persons))

    @router.post("/author/preview")
    async def begin(form: FormData = Depends(site.checked_form), who: Who = previewer) -> Response:
        edition = text_of(form, "unit")
        if edition not in site.house.units:
            raise HTTPException(404)
        preview, reply = await site.previews.begin(who.person, edition)
        note = "" if reply.ok else f"The course did not start: {said(reply)}"
        return site.back(f"/preview/{preview.name}", who, note)

    @router.get("/preview/{name}")
    async def page(name: str, person: str = "", who: Who = previewer) -> Response:
        preview = find(who, name)
        person = person_in(preview, person)
        view = await view_of(preview, preview.run, person, f"/preview/{name}/files/")
        return site.show(
            "preview.html",
            who,
            v=view,
            preview=preview,
            steps=STEPS,
            has_alarms=site.house.engine.has_next,
            is_own=True,
            is_preview=True,
            act_at=f"/preview/{name}/do",
            acting_for=person,
        )

    @router.post("/preview/{name}/do")
    async def do(name: str, form: FormData = Depends(site.checked_form), who: Who = previewer) -> Response:
        preview, verb = find(who, name), text_of(form, "verb")
        person, notes = person_in(preview, text_of(form, "person")), []
        for words in commands_of(form, verb, person):
            reply = await preview.say(verb, *words)
            if not reply.ok:
                notes.append(said(reply))
        return site.back(f"/preview/{name}?person={person}", who, " ".join(notes))

    @router.post("/preview/{name}/time")
    async def time(name: str, form: FormData = Depends(site.checked_form), who: Who = previewer) -> Response:
        preview, step = find(who, name), text_of(form, "step")
        person, note = person_in(preview, text_of(form, "person")), ""
        if step == "alarm" and site.house.engine.has_next:
            note = "" if await preview.move_to_alarm() else "Nothing more depends on time."
        elif step in STEPS:
            reply = await preview.move(STEPS[step])
            note = "" if reply.ok else said(reply)
        else:
            raise HTTPException(400)
        return site.back(f"/preview/{name}?person={person}", who, note)

    @router.post("/preview/{name}/set")
    async def set_property(name: str, form: FormData = Depends(site.checked_form), who: Who = previewer) -> Response:
        preview = find(who, name)
        person = person_in(preview, text_of(form, "person"))
        reply = await preview.say("set", person, text_of(form, "property"), text_of(form, "value"))
        return site.back(f"/preview/{name}?person={person}", who, "" if reply.ok else said(reply))

    @router.get("/preview/{name}/files/{path:path}")
    async def course_file(name: str, path: str, who: Who = previewer) -> Response:
        return sent(find(who, name).run, path)

    return router
