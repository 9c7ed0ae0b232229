"""What all pages share: who asks, forms that no other site can send, templates and notes."""

import secrets
from collections import Counter
from pathlib import Path
from typing import Any, Awaitable, Callable
from urllib.parse import urlsplit

import jinja2
from fastapi import Depends, HTTPException, Request
from fastapi.responses import HTMLResponse, RedirectResponse, Response
from starlette.datastructures import FormData

from .. import moments, rights
from ..access import Access, Who, digest, form_word
from ..attempts import Attempts
from ..drafts import Drafts
from ..house import House
from ..packages import Importer
from ..platforms import Platform
from ..preview import Previews
from ..run import Run
from ..shard import Shard

TEMPLATES = Path(__file__).parent.parent / "templates"
SESSION = "ldhost"
MOST_NOTES = 10_000


class Site:
    def __init__(self, house: House, access: Access, platforms: list[Platform], library: Path | None, is_secure: bool):
        self.house, self.access, self.platforms, self.library, self.is_secure = (
            house,
            access,
            platforms,
            library,
            is_secure,
        )
        self.attempts = Attempts()
        self.previews = Previews(house.engine, house.data / "units")
        self.drafts = Drafts(house.data / "drafts", Importer(house.engine))
        self.notes: dict[str, str] = {}
        self.streams: Counter[str] = Counter()
        """How many streams of events each session has open."""
        self.templates = jinja2.Environment(
            loader=jinja2.FileSystemLoader(TEMPLATES),
            autoescape=True,
            undefined=jinja2.StrictUndefined,
            trim_blocks=True,
            lstrip_blocks=True,
        )
        self.templates.filters["moment"] = moments.in_words

    # -- who asks

    async def signed_in(self, request: Request) -> Who:
        who = self.access.who(request.cookies.get(SESSION), "session")
        if who is None:
            raise HTTPException(303, headers={"location": "/sign-in"})
        return who

    def allowed(self, action: str) -> Callable[..., Awaitable[Who]]:
        """A dependency: the one who is signed in and may do this outside of any run."""

        async def check(who: Who = Depends(self.signed_in)) -> Who:
            self.demand(who, action, None)
            return who

        return check

    def standing(self, who: Who, run: Run | None) -> set[str]:
        return rights.standings(who.person, who.is_admin, who.is_author, run)

    def may(self, who: Who, action: str, run: Run | None = None) -> bool:
        return rights.allows(action, self.standing(who, run))

    def demand(self, who: Who, action: str, run: Run | None) -> None:
        """Refuses what the table does not allow. To strangers a run looks as if it were not there."""
        standing = self.standing(who, run)
        if not rights.allows(action, standing):
            is_hidden = run is not None and standing <= {rights.STRANGER, rights.AUTHOR}
            raise HTTPException(404 if is_hidden else 403)

    def find(self, who: Who, name: str, verb: str, words: list[str]) -> tuple[Shard, Run]:
        """The run, if this person may say this there."""
        found = self.house.find(name)
        if found is None:
            raise HTTPException(404)
        self.demand(who, rights.action_of(verb, words, who.person, found[1]), found[1])
        return found

    def find_for(self, who: Who, name: str, action: str) -> tuple[Shard, Run]:
        found = self.house.find(name)
        if found is None:
            raise HTTPException(404)
        self.demand(who, action, found[1])
        return found

    # -- forms

    async def checked_form(self, request: Request) -> FormData:
        """The form's fields, if it is one of this session."""
        who = await self.signed_in(request)
        form = await request.form()
        word = form.get("word")
        if not isinstance(word, str) or not secrets.compare_digest(word.encode(), form_word(who.session).encode()):
            raise HTTPException(403, "this form is not from this session")
        return form

    @staticmethod
    def from_here(request: Request) -> None:
        """Refuses a form that another site sends to begin a session in somebody's browser."""
        origin = request.headers.get("origin")
        host = request.headers.get("host")
        if origin is not None and urlsplit(origin).netloc != host:
            raise HTTPException(403, "this form is from another site")

    # -- answers

    def show(self, name: str, who: Who | None = None, status: int = 200, **values: Any) -> HTMLResponse:
        session = who.session if who else ""
        html = self.templates.get_template(name).render(
            who=who,
            word=form_word(session) if session else "",
            note=self.notes.pop(digest(session), "") if session else "",
            key=lambda: secrets.token_hex(12),
            may=lambda action, run=None: who is not None and self.may(who, action, run),
            **values,
        )
        return HTMLResponse(html, status)

    def back(self, to: str, who: Who | None = None, note: str = "") -> RedirectResponse:
        """Sends the browser to a page, which shows the note once."""
        if who:
            self.leave_note(who, note)
        return RedirectResponse(to, 303)

    def leave_note(self, who: Who, note: str) -> None:
        """The next page of this session shows the note."""
        if note:
            self.notes[digest(who.session)] = note
            if len(self.notes) > MOST_NOTES:
                self.notes.pop(next(iter(self.notes)))

    def begin_session(self, to: str, person: str, rights_words: str = "") -> Response:
        return self.with_session(to, self.access.begin_session(person, rights_words))

    def with_session(self, to: str, session: str) -> Response:
        answer = self.back(to)
        self.set_cookie(answer, SESSION, session)
        return answer

    def set_cookie(self, answer: Response, name: str, value: str) -> None:
        """A platform shows launches in a frame, for which a cookie has to be `none`; that needs HTTPS."""
        is_framed = self.is_secure and bool(self.platforms)
        answer.set_cookie(name, value, httponly=True, secure=self.is_secure, samesite="none" if is_framed else "lax")


def text_of(form: FormData, name: str) -> str:
    """A text of the form; one that is not there is empty."""
    value = form.get(name, "")
    if not isinstance(value, str):
        raise HTTPException(400)
    return value
