"""The administrator's pages: runs, persons with their roles, lists of persons, tokens, and journals that rest."""

from urllib.parse import quote

from fastapi import APIRouter, Depends, HTTPException
from fastapi.responses import Response
from starlette.datastructures import FormData

from ..access import ADMIN, AUTHOR, Who
from ..house import IDENTIFIER
from ..persons_list import BadList, rows_of
from .said import said
from .site import Site, text_of

RIGHTS = ("", AUTHOR, f"{ADMIN} {AUTHOR}")


def routes(site: Site) -> APIRouter:
    router = APIRouter(include_in_schema=False)
    administrator = Depends(site.allowed("all runs"))
    checked = Depends(site.checked_form)

    def show(who: Who, tokens: list[tuple[str, str]], status: int = 200) -> Response:
        house = site.house
        lists = {"units": house.units, "runs": house.runs(), "shards": house.shards, "holders": site.access.holders()}
        return site.show("admin.html", who, status, tokens=tokens, **lists)

    async def show_run(who: Who, name: str, tokens: list[tuple[str, str]]) -> Response:
        found = site.house.find(name)
        if found is None:
            raise HTTPException(404)
        shard, run = found
        return site.show("admin-run.html", who, run=run, alarm=await shard.next_alarm(run), tokens=tokens)

    async def say(who: Who, form: FormData, verb: str, name: str, commands: list[list[str]]) -> list[str]:
        """Does the commands and tells what was refused of them."""
        notes = []
        site.demand(who, verb, None)
        for words in commands:
            key = f"{who.person} {name} {text_of(form, 'key')} {verb} {words}"
            reply = await site.house.say(verb, name, words, key)
            if not reply.ok:
                notes.append(f"{' '.join(words)}: {said(reply)}" if words else said(reply))
        return notes

    @router.get("/admin")
    async def page(who: Who = administrator) -> Response:
        return show(who, [])

    @router.get("/admin/runs/{name}")
    async def run_page(name: str, who: Who = administrator) -> Response:
        return await show_run(who, name, [])

    @router.post("/admin/create")
    async def create(form: FormData = checked, who: Who = administrator) -> Response:
        name = text_of(form, "run")
        notes = await say(who, form, "create", name, [[text_of(form, "unit")]])
        return site.back("/admin" if notes else f"/admin/runs/{quote(name)}", who, " ".join(notes))

    @router.post("/admin/runs/{name}/do")
    async def do(name: str, form: FormData = checked, who: Who = administrator) -> Response:
        verb = text_of(form, "verb")
        commands = commands_of(form, verb)
        notes = await say(who, form, verb, name, commands)
        return site.back(f"/admin/runs/{quote(name)}", who, " ".join(notes))

    @router.post("/admin/runs/{name}/list")
    async def take_list(name: str, form: FormData = checked, who: Who = administrator) -> Response:
        """Enrols the persons of a list and gives them their roles; whoever is there already stays as before."""
        archive = form.get("file")
        raw = b"" if archive is None or isinstance(archive, str) else await archive.read()
        try:
            rows = rows_of(raw.decode("utf-8-sig", "replace") or text_of(form, "text"))
        except BadList as bad:
            return site.back(f"/admin/runs/{quote(name)}", who, str(bad))
        notes, tokens = [], []
        for person, role in rows:
            persons = members(name)
            if person not in persons:
                notes += await say(who, form, "enrol", name, [[person]])
                if form.get("tokens") and person in persons:
                    tokens.append((person, site.access.grant(person)))
            if role and role not in persons.get(person, [role]):
                notes += await say(who, form, "assign", name, [[person, role]])
        site.leave_note(who, " ".join(notes))
        return await show_run(who, name, tokens) if tokens else site.back(f"/admin/runs/{quote(name)}")

    def members(name: str) -> dict[str, list[str]]:
        found = site.house.find(name)
        if found is None:
            raise HTTPException(404)
        return found[1].persons

    @router.post("/admin/tokens")
    async def grant(form: FormData = checked, who: Who = Depends(site.allowed("tokens"))) -> Response:
        person, words = text_of(form, "person"), text_of(form, "rights")
        if not IDENTIFIER.fullmatch(person) or words not in RIGHTS:
            return site.back("/admin", who, "A person's name has letters, digits, '_', '-' and '.'.")
        return show(who, [(person, site.access.grant(person, words))])

    @router.post("/admin/tokens/revoke")
    async def revoke(form: FormData = checked, who: Who = Depends(site.allowed("tokens"))) -> Response:
        person = text_of(form, "person")
        if person == who.person:
            return site.back("/admin", who, "You can't take back your own tokens.")
        site.access.revoke(person)
        return site.back("/admin", who, f"The tokens of {person} are taken back.")

    @router.post("/admin/reopen")
    async def reopen(form: FormData = checked, who: Who = Depends(site.allowed("open a journal again"))) -> Response:
        shard = site.house.shards.get(text_of(form, "shard"))
        if shard is None:
            raise HTTPException(404)
        await shard.reopen()
        return site.back("/admin", who, "The journal is open again." if not shard.closed else "It is still closed.")

    return router


def commands_of(form: FormData, verb: str) -> list[list[str]]:
    """The words behind the run's name of each command that a form of the page asks for."""
    role, chosen = text_of(form, "role"), [str(person) for person in form.getlist("person")]
    commands: dict[str, list[list[str]]] = {
        "start": [[]],
        "enrol": [[person] for person in text_of(form, "persons").split()],
        "assign": [[person, role] for person in chosen],
        "drop": [[person, role] for person in chosen],
        "set": [[person, text_of(form, "property"), text_of(form, "value")] for person in chosen],
        "clear": [[person, text_of(form, "property")] for person in chosen],
    }
    if verb not in commands:
        raise HTTPException(400)
    return commands[verb]
