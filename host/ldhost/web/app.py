"""The whole application."""

from pathlib import Path
from urllib.parse import urlsplit

from fastapi import FastAPI, HTTPException, Request
from fastapi.exception_handlers import http_exception_handler
from fastapi.responses import Response
from fastapi.staticfiles import StaticFiles
from starlette.exceptions import HTTPException as AnyHTTPException

from ..access import Access
from ..house import House
from ..platforms import Platform
from ..shard import OtherCommand
from ..shut import Closed, Held
from . import administrators, authors, courses, events, interface, lti, previews, sign_in
from .shell import Shell
from .site import Site

STATIC = Path(__file__).parent.parent / "static"
ABOUT = "Runs of IMS Learning Design courses. Commands and refusals are those of docs/COMMANDS.md."
PAGES = (sign_in, courses, events, authors, previews, administrators, interface, lti)
TEXTS = {
    403: "You may not do this.",
    404: "There is nothing here, or nothing for you.",
    413: "This is more than the host takes.",
    503: "This course rests. Its journal takes no more lines; the administrator sees why.",
}


def make_app(
    house: House, access: Access, platforms: list[Platform], library: Path | None = None, is_secure: bool = False
) -> Shell:
    site = Site(house, access, platforms, library, is_secure)
    app = FastAPI(title="ld host", version="1", description=ABOUT, docs_url=None, redoc_url=None)
    app.mount("/static", StaticFiles(directory=STATIC))
    for page in PAGES:
        app.include_router(page.routes(site))

    @app.on_event("shutdown")
    async def end() -> None:
        await site.previews.end_all()
        await house.close()

    @app.exception_handler(AnyHTTPException)
    async def refused(request: Request, error: AnyHTTPException) -> Response:
        return await in_words(site, request, error)

    @app.exception_handler(Closed)
    @app.exception_handler(Held)
    async def closed(request: Request, error: Closed | Held) -> Response:
        return await in_words(site, request, HTTPException(503))

    @app.exception_handler(OtherCommand)
    async def other(request: Request, error: OtherCommand) -> Response:
        return await in_words(site, request, HTTPException(409, "This form was sent before, with other words."))

    origins = {"{0.scheme}://{0.netloc}".format(urlsplit(one.login)) for one in platforms}
    return Shell(app, is_secure, sorted(origins))


async def in_words(site: Site, request: Request, error: AnyHTTPException) -> Response:
    """A page for a person, and JSON for a program."""
    is_page = not request.url.path.startswith("/api/") and error.status_code != 303
    if not is_page:
        return await http_exception_handler(request, error)
    is_plain = error.detail in ("Forbidden", "Not Found", "Service Unavailable")
    text = TEXTS.get(error.status_code, str(error.detail)) if is_plain else str(error.detail)
    return site.show("problem.html", status=error.status_code, text=text)
