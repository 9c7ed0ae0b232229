"""LTI 1.3: a learning platform (Moodle, Canvas) sends a person to a run."""

import secrets
from urllib.parse import quote, urlencode

from fastapi import APIRouter, Form, HTTPException, Request
from fastapi.responses import RedirectResponse, Response

from .. import launches, platforms
from ..access import Denied
from ..platforms import Platform
from ..run import Run
from ..shard import Shard
from .site import Site

STATE, LAUNCH_SECONDS = "ldhost-state", 600


def routes(site: Site) -> APIRouter:
    router = APIRouter(include_in_schema=False)

    @router.get("/lti/login")
    @router.post("/lti/login")
    async def login(request: Request) -> Response:
        """The platform's first call, which is answered with a call back to it."""
        asked = dict(request.query_params) | {name: str(value) for name, value in (await request.form()).items()}
        platform = platforms.find(site.platforms, asked.get("iss"), asked.get("client_id"))
        if platform is None:
            raise HTTPException(403, "unknown platform")
        state, nonce = secrets.token_urlsafe(24), secrets.token_urlsafe(24)
        try:
            site.access.lay("state " + state, LAUNCH_SECONDS)
            site.access.lay(f"nonce {platform.client} {nonce}", LAUNCH_SECONDS)
        except Denied as denied:
            raise HTTPException(429, str(denied)) from None
        back = str(request.url_for("launch"))
        answer = RedirectResponse(call_back(platform, asked, state, nonce, back), 302)
        site.set_cookie(answer, STATE, state)
        return answer

    @router.post("/lti/launch", name="launch")
    async def launch(request: Request, id_token: str = Form(...), state: str = Form(...)) -> Response:
        """The platform's second call: who the person is and where to."""
        if request.cookies.get(STATE) != state:
            raise HTTPException(403, "begun in another browser")
        try:
            platform, claims = await launches.trusted(site.access, site.platforms, id_token, state)
        except Denied as denied:
            raise HTTPException(403, str(denied)) from None
        name = launches.run_named(claims)
        found = site.house.find(name)
        if found is None or name not in platform.runs:
            raise HTTPException(404, "The link names no run of this platform.")
        person = launches.person_of(claims)
        await join(*found, person, launches.role_for(claims, found[1]))
        return site.begin_session(f"/runs/{quote(name)}", person)

    return router


def call_back(platform: Platform, asked: dict[str, str], state: str, nonce: str, launch: str) -> str:
    words = {
        "scope": "openid",
        "response_type": "id_token",
        "response_mode": "form_post",
        "prompt": "none",
        "client_id": platform.client,
        "redirect_uri": launch,
        "state": state,
        "nonce": nonce,
        "login_hint": asked.get("login_hint", ""),
    }
    if "lti_message_hint" in asked:
        words["lti_message_hint"] = asked["lti_message_hint"]
    return platform.login + ("&" if "?" in platform.login else "?") + urlencode(words)


async def join(shard: Shard, run: Run, person: str, role: str | None) -> None:
    """Enrols whoever comes for the first time, and gives a role to whoever has none."""
    if person not in run.persons:
        await shard.say("enrol", run.name, person)
    if role and not run.persons.get(person, [role]):
        await shard.say("assign", run.name, person, role)
