"""Who someone is: tokens and sessions. Secrets are stored as digests: who reads the file can't sign in with it."""

import hashlib
import hmac
import secrets
import sqlite3
import time
from dataclasses import dataclass
from pathlib import Path

SESSION_SECONDS = 12 * 3600
MOST_LAID = 20_000
TABLES = """
    create table if not exists secret(digest text primary key, kind text, person text, rights text, ends real);
    create table if not exists once(value text primary key, ends real);
    create index if not exists once_ends on once(ends);
"""
ADMIN, AUTHOR = "admin", "author"


class Denied(Exception):
    """Somebody is not let in; says why."""


@dataclass
class Who:
    person: str
    is_admin: bool = False
    is_author: bool = False
    session: str = ""


def digest(secret: str) -> str:
    return hashlib.sha256(secret.encode()).hexdigest()


def form_word(session: str) -> str:
    """The word that each form of this session carries, so that no other site can send it."""
    return hmac.new(session.encode(), b"form", "sha256").hexdigest()


class Access:
    def __init__(self, path: Path):
        self.db = sqlite3.connect(path, isolation_level=None)
        self.db.executescript(TABLES)

    def grant(self, person: str, rights: str = "", kind: str = "token", seconds: float | None = None) -> str:
        """A new secret of the person, which is told this once. Rights are words with spaces between them."""
        secret = secrets.token_urlsafe(32)
        ends = time.time() + seconds if seconds else None
        self.db.execute("insert into secret values(?,?,?,?,?)", (digest(secret), kind, person, rights, ends))
        return secret

    def revoke(self, person: str) -> None:
        """Takes back all tokens and sessions of the person."""
        self.db.execute("delete from secret where person=?", (person,))

    def holders(self) -> list[tuple[str, str, int]]:
        """Who has tokens: person, rights and how many, in the order of names."""
        return self.db.execute(
            "select person, rights, count(*) from secret where kind='token' group by person, rights order by person"
        ).fetchall()

    def who(self, secret: str | None, kind: str) -> Who | None:
        if not secret:
            return None
        row = self.db.execute(
            "select person, rights from secret where digest=? and kind=? and (ends is null or ends>?)",
            (digest(secret), kind, time.time()),
        ).fetchone()
        if row is None:
            return None
        rights = row[1].split()
        session = secret if kind == "session" else ""
        return Who(row[0], ADMIN in rights, AUTHOR in rights or ADMIN in rights, session)

    def begin_session(self, person: str, rights: str = "") -> str:
        self.db.execute("delete from secret where ends<?", (time.time(),))
        return self.grant(person, rights, "session", SESSION_SECONDS)

    def sign_in(self, token: str) -> str:
        who = self.who(token, "token")
        if who is None:
            raise Denied("unknown token")
        rights = [ADMIN] * who.is_admin + [AUTHOR] * who.is_author
        return self.begin_session(who.person, " ".join(rights))

    def end_session(self, session: str) -> None:
        self.db.execute("delete from secret where digest=?", (digest(session),))

    # -- values that are used once

    def lay(self, value: str, seconds: float) -> None:
        self.db.execute("delete from once where ends<?", (time.time(),))
        if self.db.execute("select count(*) from once").fetchone()[0] >= MOST_LAID:
            raise Denied("too many launches that were begun and not ended")
        self.db.execute("insert or ignore into once values(?,?)", (value, time.time() + seconds))

    def take(self, value: str) -> bool:
        """Uses up a value that was laid; tells whether it was there."""
        return self.db.execute("delete from once where value=? and ends>=?", (value, time.time())).rowcount == 1
