"""Signing in with a token, signing out, and the list of one's courses."""

from fastapi import APIRouter, Depends, Form, Request
from fastapi.responses import Response
from starlette.datastructures import FormData

from ..access import Denied, Who
from .site import Site


def routes(site: Site) -> APIRouter:
    router = APIRouter(include_in_schema=False)

    @router.get("/sign-in")
    async def page() -> Response:
        return site.show("sign-in.html", problem="")

    @router.post("/sign-in")
    async def sign_in(request: Request, token: str = Form(...)) -> Response:
        site.from_here(request)
        address = request.client.host if request.client else ""
        if seconds := site.attempts.wait(address):
            answer = site.show("sign-in.html", status=429, problem="Too many tries. Wait some minutes.")
            answer.headers["retry-after"] = str(seconds)
            return answer
        try:
            session = site.access.sign_in(token.strip())
        except Denied:
            site.attempts.failed(address)
            return site.show("sign-in.html", status=403, problem="This token is not known.")
        return site.with_session("/", session)

    @router.post("/sign-out")
    async def sign_out(form: FormData = Depends(site.checked_form), who: Who = Depends(site.signed_in)) -> Response:
        site.access.end_session(who.session)
        return site.back("/sign-in")

    @router.get("/")
    async def home(who: Who = Depends(site.signed_in)) -> Response:
        mine = [run for _, run in site.house.runs().values() if who.person in run.persons]
        return site.show("home.html", who, mine=mine)

    return router
