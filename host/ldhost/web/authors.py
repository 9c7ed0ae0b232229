"""The author's page: courses and packages are checked, shown with their first fault and losses, and published."""

from pathlib import Path
from typing import Any

from fastapi import APIRouter, Depends, HTTPException
from fastapi.responses import Response
from starlette.datastructures import FormData

from ..access import Who
from ..drafts import Draft
from ..files import missing_files
from ..uploads import Refused
from .site import Site, text_of

CHECK, PUBLISH = "check a course", "publish a course"
NOTHING: dict[str, Any] = {
    "fault": None,
    "error": "",
    "is_good": False,
    "published": "",
    "unrest": None,
    "missing": [],
    "report": None,
    "draft": None,
}


def routes(site: Site) -> APIRouter:
    router = APIRouter(include_in_schema=False)
    checker = Depends(site.allowed(CHECK))

    def shelf() -> list[str]:
        """The course folders of the library."""
        return sorted(f.parent.name for f in site.library.glob("*/unit.json")) if site.library else []

    def show(who: Who, status: int = 200, **values: Any) -> Response:
        return site.show("author.html", who, status, units=site.house.units, folders=shelf(), **NOTHING | values)

    async def judge(who: Who, folder: Path, is_asked: bool, draft: Draft | None = None) -> Response:
        """Checks the course, publishes it where that is asked for, and tells what an author should know. A draft that is
        not published now waits for its author's word."""
        report, published = draft.report if draft else None, ""
        try:
            if fault := await site.house.check(folder):
                return show(who, fault=fault, report=report)
            if is_asked:
                site.demand(who, PUBLISH, None)
                published = await site.house.publish(folder)
            unrest = await site.house.unrest(folder)
        except Refused as refused:
            return show(who, 422, error=str(refused), report=report)
        told: dict[str, Any] = {
            "published": published,
            "unrest": unrest,
            "missing": missing_files(site.house.course(folder)),
        }
        if draft and not published:
            site.drafts.keep(draft)
        return show(who, is_good=True, report=report, draft=draft, **told)

    async def judge_draft(who: Who, draft: Draft, is_asked: bool) -> Response:
        try:
            if draft.report and draft.report.fault:
                return show(who, fault=draft.report.fault, report=draft.report)
            return await judge(who, draft.folder, is_asked, draft)
        finally:
            if not site.drafts.has(draft):
                draft.end()

    @router.get("/author")
    async def page(who: Who = checker) -> Response:
        return show(who)

    @router.post("/author/choose")
    async def choose(who: Who = checker, form: FormData = Depends(site.checked_form)) -> Response:
        name = text_of(form, "folder")
        if site.library is None or name not in shelf():
            raise HTTPException(404)
        return await judge(who, site.library / name, text_of(form, "act") == "publish")

    @router.post("/author/upload")
    async def upload(who: Who = checker, form: FormData = Depends(site.checked_form)) -> Response:
        """Takes an archive. A package with losses is not published before its author has seen them."""
        archive = form.get("archive")
        if archive is None or isinstance(archive, str):
            raise HTTPException(400)
        try:
            draft = await site.drafts.make(who.person, await archive.read())
        except Refused as refused:
            return show(who, 422, error=str(refused))
        is_whole = draft.report is None or draft.report.is_whole
        return await judge_draft(who, draft, is_whole and text_of(form, "act") == "publish")

    @router.post("/author/accept")
    async def accept(who: Who = checker, form: FormData = Depends(site.checked_form)) -> Response:
        """Publishes a draft, with its losses."""
        draft = site.drafts.take(who.person, text_of(form, "draft"))
        if draft is None:
            raise HTTPException(404, "This upload waits no more. Upload the archive again.")
        return await judge_draft(who, draft, True)

    return router
