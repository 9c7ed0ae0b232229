"""python3 -m ldhost --engine PROGRAM --data FOLDER [--library FOLDER] [--publish] [--platforms FILE] [--port N] [--log ADDRESS]"""

import argparse
import asyncio
import logging
import os
import sys
from pathlib import Path
from types import FrameType

import uvicorn

from .access import ADMIN, AUTHOR, Access
from .engine import Unfit, ask_what_it_has
from .house import House
from .logs import maker_of
from .platforms import read_platforms
from .shut import Held
from .uploads import Refused
from .web.app import make_app

log = logging.getLogger("ldhost")


class Server(uvicorn.Server):
    """Ends the open streams of events first, so that nothing waits for them."""

    def __init__(self, config: uvicorn.Config, house: House):
        super().__init__(config)
        self.house = house

    def handle_exit(self, sig: int, frame: FrameType | None) -> None:
        self.house.wake_all()
        super().handle_exit(sig, frame)


def parsed(words: list[str] | None = None) -> argparse.Namespace:
    given = argparse.ArgumentParser(prog="ldhost")
    given.add_argument("--engine", required=True, type=Path, help="the program ld")
    given.add_argument("--data", required=True, type=Path, help="the folder in which the host keeps everything")
    given.add_argument("--library", type=Path, help="a folder of course folders that authors may choose from")
    given.add_argument("--publish", action="store_true", help="publish the library's courses that are not published")
    given.add_argument("--platforms", type=Path, help="a JSON file of LTI platforms")
    given.add_argument("--log", help="keep lines in PostgreSQL: postgresql://USER@HOST/DATABASE")
    given.add_argument("--port", type=int, default=8391)
    given.add_argument("--tick", type=int, default=5, help="seconds between ticks, for an engine without 'next'")
    given.add_argument("--secure", action="store_true", help="behind HTTPS: cookies for HTTPS alone")
    return given.parse_args(words)


def make_administrator(access: Access, data: Path) -> None:
    """At the first start the administrator's token is written to a file."""
    path = data / "admin.token"
    if not path.exists():
        with open(os.open(path, os.O_CREAT | os.O_WRONLY, 0o600), "w") as out:
            out.write(access.grant("admin", f"{ADMIN} {AUTHOR}") + "\n")


async def publish_all(house: House, library: Path) -> None:
    """Publishes each course of the library that has no fault and no edition yet."""
    for folder in sorted(f.parent for f in library.glob("*/unit.json")):
        try:
            if await house.check(folder):
                log.warning("%s has a fault and is not published", folder.name)
            elif house.course(folder).id not in {course.id for course in house.units.values()}:
                await house.publish(folder)
        except Refused as refused:
            log.warning("%s is not published: %s", folder.name, refused)


async def server_for(given: argparse.Namespace) -> Server:
    """Opens all that the folder keeps, and makes the server before it."""
    given.data.mkdir(parents=True, exist_ok=True)
    engine = await ask_what_it_has(given.engine.resolve())
    if not engine.has_next:
        log.warning("the engine has no 'next': time passes by a tick every %s seconds", given.tick)
    if not engine.has_pages:
        log.warning("the engine has no forms (pages.json): learners can't be offered properties")
    access = Access(given.data / "access.db")
    make_administrator(access, given.data)
    house = House(given.data, engine, given.tick, make_log=await asyncio.to_thread(maker_of, given.log))
    await house.open()
    if given.publish and given.library:
        await publish_all(house, given.library)
    app = make_app(house, access, read_platforms(given.platforms), given.library, given.secure)
    return Server(uvicorn.Config(app, host="127.0.0.1", port=given.port, log_level="warning"), house)


async def serve(given: argparse.Namespace) -> int:
    server = await server_for(given)
    log.warning("http://127.0.0.1:%s, the administrator's token is in %s", given.port, given.data / "admin.token")
    await server.serve()
    return 0 if server.started else 3


def main() -> int:
    os.umask(0o077)
    logging.basicConfig(format="ldhost: %(message)s")
    try:
        return asyncio.run(serve(parsed()))
    except (Unfit, Held) as problem:
        what = f"another host has {problem}" if isinstance(problem, Held) else str(problem)
        log.error("%s", what)
        return 1


if __name__ == "__main__":
    sys.exit(main())
