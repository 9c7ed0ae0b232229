"""The table of kept lines in PostgreSQL.

A shard has a connection of its own. Its session holds a lock, which the server gives up when the session ends. So one
host writes a shard's lines at a time, and the primary key makes sure of it where a lock was lost.
"""

import threading
import time
from typing import Any

import psycopg2

from .engine import Unfit

SCHEMA = """
create table if not exists ld_shards (
    shard text primary key,
    taken timestamptz not null
);
create table if not exists ld_lines (
    shard text not null,
    number bigint not null,
    line text not null,
    primary key (shard, number)
);
"""
SCHEMA_LOCK = 7_310_277
LOCK = "select pg_try_advisory_lock(hashtextextended('ldhost ' || %s, 0))"
TAKE = "insert into ld_shards values (%s, now()) on conflict (shard) do update set taken = now()"
LINES = "select line from ld_lines where shard = %s order by number"
ADD = """
insert into ld_lines select %(shard)s, %(number)s, %(line)s
where %(number)s = 0 or exists (select 1 from ld_lines where shard = %(shard)s and number = %(number)s - 1)
on conflict (shard, number) do update set line = ld_lines.line returning line
"""
PATIENCE, PAUSE, CONNECT_SECONDS = 20.0, 0.1, 5
LOST = (psycopg2.OperationalError, psycopg2.InterfaceError)


class Overtaken(Exception):
    """The table has not the lines that this host wrote."""


class Table:
    FAILURES = (psycopg2.Error, Overtaken)

    def __init__(self, address: str, shard: str):
        self.address, self.shard = address, shard
        self.session: Any = None
        self.using = threading.Lock()

    def connect(self) -> None:
        """A session whose commits wait for the disk, and for the standbys that the server is told to wait for."""
        self.session = psycopg2.connect(
            self.address,
            connect_timeout=CONNECT_SECONDS,
            application_name="ldhost",
            options="-c synchronous_commit=on",
        )

    def do(self, command: str, given: Any = None) -> list[tuple[Any, ...]]:
        """The rows of one command, which is committed."""
        with self.session, self.session.cursor() as cursor:
            cursor.execute(command, given)
            return list(cursor.fetchall()) if cursor.description else []

    def disconnect(self) -> None:
        if self.session is not None:
            self.session.close()
            self.session = None

    def prepare(self) -> None:
        """Makes the tables where they are not there."""
        try:
            self.connect()
            self.do(f"select pg_advisory_xact_lock({SCHEMA_LOCK}); {SCHEMA}")
        except psycopg2.Error as error:
            raise Unfit(f"the log's database can't be used: {error}".strip()) from None
        finally:
            self.disconnect()

    def take(self) -> bool:
        """Waits until no other session has the shard; tells whether none has it."""
        with self.using:
            self.disconnect()
            self.connect()
            return self.lock()

    def lock(self) -> bool:
        """Locks the shard. The write after it is there once the standbys have all that was written before."""
        ends = time.monotonic() + PATIENCE
        while not self.do(LOCK, [self.shard])[0][0]:
            if time.monotonic() > ends:
                self.disconnect()
                return False
            time.sleep(PAUSE)
        self.do(TAKE, [self.shard])
        return True

    def lines(self) -> list[str]:
        with self.using:
            return [line for (line,) in self.again(LINES, [self.shard])]

    def add(self, number: int, line: str) -> None:
        """Keeps the line as the one after so many others. It may stand there, where an answer of the server was lost."""
        with self.using:
            found = self.again(ADD, {"shard": self.shard, "number": number, "line": line})
        if found != [(line,)]:
            raise Overtaken("another line stands there" if found else "lines are missing")

    def again(self, command: str, given: Any) -> list[tuple[Any, ...]]:
        """Does the command, in a new session where one is lost, as long as patience lasts."""
        ends = time.monotonic() + PATIENCE
        while True:
            try:
                if self.session is None:
                    self.connect()
                    if not self.lock():
                        raise Overtaken("another host has the shard")
                return self.do(command, given)
            except psycopg2.Error as error:
                is_lost = self.session is None or self.session.closed or isinstance(error, LOST)
                self.disconnect()
                if not is_lost or time.monotonic() > ends:
                    raise
                time.sleep(PAUSE)

    def release(self) -> None:
        with self.using:
            self.disconnect()
