"""The interface for programs: commands, looks and lists as JSON. OpenAPI describes it at /openapi.json."""

from typing import Any

from fastapi import APIRouter, Depends, Header, HTTPException, Request
from fastapi.security import HTTPAuthorizationCredentials, HTTPBearer

from .. import replies, rights
from ..access import Who
from ..replies import NO_MEMORY, Reply
from ..shard import OtherCommand
from .models import Command, Done, Refusal, RunState, Shared, Unit, Value
from .site import Site

COMMANDS = {"create", "enrol", "assign", "drop", "start", "open", "complete", "set", "clear", "tick", "page-set"}
KEY = Header(None, description="a command that was accepted under this key is not done again; its reply comes again")
REFUSALS: dict[int | str, dict[str, Any]] = {
    401: {"description": "no token, or one that is not known"},
    403: {"description": "the person of the token may not do this"},
    404: {"description": "no such run for this person"},
    409: {"model": Refusal, "description": "the engine refuses; nothing changed"},
    429: {"description": "too many tries with tokens that are not known"},
    503: {"description": "the run's journal takes no lines, or memory ran out; send the same again later"},
}


def refuse(reply: Reply) -> HTTPException:
    refusal = reply.refusal
    status = 503 if reply.head == NO_MEMORY else 422 if refusal.number == 1 else 409
    return HTTPException(status, {"number": refusal.number, "word": refusal.word, "more": refusal.more})


def routes(site: Site) -> APIRouter:
    router = APIRouter(prefix="/api/v1", tags=["runs"], responses=REFUSALS)
    bearer = HTTPBearer(auto_error=False, description="a token that the administrator made")

    async def asker(request: Request, given: HTTPAuthorizationCredentials | None = Depends(bearer)) -> Who:
        who = site.access.who(given.credentials if given else None, "token")
        if who is None:
            address = request.client.host if request.client else ""
            if seconds := site.attempts.wait(address):
                raise HTTPException(429, headers={"retry-after": str(seconds)})
            if given:
                site.attempts.failed(address)
            raise HTTPException(401, headers={"www-authenticate": "Bearer"})
        return who

    async def look(who: Who, run: str, verb: str, *words: str) -> Reply:
        shard, _ = site.find(who, run, verb, list(words))
        reply = await shard.look(verb, run, *words)
        if not reply.ok:
            raise refuse(reply)
        return reply

    @router.get("/units", response_model=list[Unit])
    async def units(who: Who = Depends(asker)) -> Any:
        site.demand(who, "units", None)
        return [
            {"unit": name, "title": one.title, "level": one.level, "roles": list(one.roles.values())}
            for name, one in site.house.units.items()
        ]

    @router.get("/runs", response_model=list[RunState])
    async def runs(who: Who = Depends(asker)) -> Any:
        """The runs whose members the person may see."""
        return [RunState.of(run) for _, run in site.house.runs().values() if site.may(who, "members", run)]

    @router.get("/runs/{run}", response_model=RunState)
    async def run_state(run: str, who: Who = Depends(asker)) -> Any:
        return RunState.of(site.find_for(who, run, "members")[1])

    @router.post("/runs/{run}/commands", response_model=Done)
    async def command(run: str, body: Command, who: Who = Depends(asker), idempotency_key: str | None = KEY) -> Any:
        found = site.house.find(run)
        there = found[1] if found and body.verb != "create" else None
        if there is None and body.verb != "create" and not site.may(who, "all runs"):
            raise HTTPException(404)
        site.demand(who, rights.action_of(body.verb, body.words, who.person, there), there)
        if body.verb not in COMMANDS:
            raise HTTPException(422, f"the verb is one of {', '.join(sorted(COMMANDS))}")
        key = f"{who.person} {run} {idempotency_key}" if idempotency_key else None
        try:
            reply = await site.house.say(body.verb, run, body.words, key)
        except OtherCommand:
            raise HTTPException(422, "this key was used for another command") from None
        if not reply.ok:
            raise refuse(reply)
        return Done.of(reply, site.house.runs()[run][1])

    @router.get("/runs/{run}/report")
    async def report(run: str, who: Who = Depends(asker)) -> dict[str, Any]:
        return replies.report((await look(who, run, "report")).lines)

    @router.get("/runs/{run}/persons/{person}/tree")
    async def tree(run: str, person: str, who: Who = Depends(asker)) -> dict[str, Any]:
        return replies.tree((await look(who, run, "tree", person)).lines)

    @router.get("/runs/{run}/persons/{person}/outbox")
    async def outbox(run: str, person: str, who: Who = Depends(asker)) -> list[dict[str, Any]]:
        return replies.outbox((await look(who, run, "outbox", person)).lines)

    @router.get("/runs/{run}/persons/{person}/properties/{name}", response_model=Value)
    async def get(run: str, person: str, name: str, who: Who = Depends(asker)) -> Any:
        return {"value": (await look(who, run, "get", person, name)).value}

    if site.house.engine.has_pages:

        @router.get("/runs/{run}/persons/{person}/pages/{page}")
        async def page(run: str, person: str, page: str, who: Who = Depends(asker)) -> list[dict[str, Any]]:
            return replies.page((await look(who, run, "page", person, page)).lines)

    @router.post("/units/{unit}/globals")
    async def global_set(
        unit: str, body: Shared, who: Who = Depends(asker), idempotency_key: str | None = KEY
    ) -> dict[str, str]:
        """Gives a value that runs share. The unit is an edition of a course that has the uri."""
        site.demand(who, "global-set", None)
        if unit not in site.house.units or not site.house.units[unit].uris:
            raise HTTPException(404)
        shard = site.house.shard_of_edition(unit)
        key = f"{who.person} {idempotency_key}" if idempotency_key else None
        try:
            reply = await shard.say("global-set", body.uri, body.person, body.value, key=key)
        except OtherCommand:
            raise HTTPException(422, "this key was used for another command") from None
        if not reply.ok:
            raise refuse(reply)
        return {"reply": reply.head}

    return router
