"""Tells an open page that it has changed: a stream of versions."""

import asyncio
from collections import Counter
from typing import AsyncIterator
from urllib.parse import quote

from fastapi import APIRouter, Depends, HTTPException
from fastapi.responses import Response, StreamingResponse

from ..access import Who
from ..shut import Closed
from ..view import view_of
from .site import Site

WAIT, GATHER, MOST_STREAMS = 15, 0.05, 20


def routes(site: Site) -> APIRouter:
    router = APIRouter(include_in_schema=False)

    @router.get("/runs/{name}/events")
    async def events(name: str, who: Who = Depends(site.signed_in)) -> Response:
        site.find(who, name, "tree", [who.person])
        if site.streams[who.session] >= MOST_STREAMS:
            raise HTTPException(429, "too many open pages of one session")
        return StreamingResponse(versions(site, name, who), media_type="text/event-stream")

    return router


async def versions(site: Site, name: str, who: Who) -> AsyncIterator[str]:
    """The versions of the person's page, as long as the session lasts and the person may see the page."""
    event, told = site.house.listen(name), ""
    site.streams[who.session] += 1
    try:
        while not site.house.ending.is_set() and site.access.who(who.session, "session"):
            version = await version_of(site, name, who)
            if version is None:
                return
            yield ": nothing new\n\n" if version == told else f"event: changed\ndata: {version}\n\n"
            told = version
            try:
                await asyncio.wait_for(event.wait(), WAIT)
            except asyncio.TimeoutError:
                pass
            event.clear()
            await asyncio.sleep(GATHER)  # several changes at once are one message
    finally:
        site.house.listeners[name].discard(event)
        site.streams[who.session] -= 1
        site.streams += Counter()  # forgets who has none


async def version_of(site: Site, name: str, who: Who) -> str | None:
    found = site.house.find(name)
    if found is None or who.person not in found[1].persons:
        return None
    try:
        return (await view_of(found[0], found[1], who.person, f"/files/{quote(name)}/")).version
    except Closed:
        return None
