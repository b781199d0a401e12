"""A store in SQLite, which takes the commands that servers send to a redis-server, and replies the same. A transaction is durable before it is
answered; those that come together are stored together."""
from __future__ import annotations

import asyncio
import fcntl
import json
import os
import sqlite3
from collections.abc import Callable
from pathlib import Path

from ..resp import ErrorReply, Part, Reply

FILE = "store.sqlite"
SCHEMA = """
CREATE TABLE IF NOT EXISTS texts (key BLOB PRIMARY KEY, value BLOB NOT NULL) WITHOUT ROWID;
CREATE TABLE IF NOT EXISTS items (key BLOB, place INTEGER, value BLOB NOT NULL, PRIMARY KEY (key, place)) WITHOUT ROWID;
CREATE TABLE IF NOT EXISTS fields (number INTEGER PRIMARY KEY, key BLOB, field BLOB, value BLOB NOT NULL, UNIQUE (key, field));
CREATE TABLE IF NOT EXISTS members (key BLOB, member BLOB, PRIMARY KEY (key, member)) WITHOUT ROWID;
"""
TABLES = ("texts", "items", "fields", "members")
# The table that a command's key has to be in, if it is in one.
KINDS = {"GET": "texts", "STRLEN": "texts", "INCR": "texts", "APPEND": "texts", "LLEN": "items", "LRANGE": "items", "RPUSH": "items", "LTRIM": "items"}


def bytes_of(part: Part) -> bytes:
    """A part of a command as it is stored."""
    return part if isinstance(part, bytes) else str(part).encode()


class Tables:
    """What is stored, and the commands on it. Each is a method named after it, in small letters."""

    def __init__(self, path: Path) -> None:
        self.base = sqlite3.connect(path, isolation_level=None)
        self.base.execute("PRAGMA journal_mode=WAL")
        self.base.execute("PRAGMA synchronous=FULL")
        self.base.executescript(SCHEMA)

    def run(self, words: tuple[Part, ...]) -> Reply:
        """Executes a command; raises ErrorReply if that fails."""
        name, *rest = [bytes_of(it) for it in words]
        word = name.decode().upper()
        kind = KINDS.get(word)
        if kind is not None and self.table_of(rest[0]) not in (None, kind):
            raise ErrorReply("WRONGTYPE Operation against a key holding the wrong kind of value")
        return getattr(self, word.lower())(*rest)

    def rows(self, text: str, *values: object) -> list[tuple]:
        """The rows of a query."""
        return self.base.execute(text, values).fetchall()

    def value(self, text: str, *values: object) -> Reply:
        """The only value of a query, none if there is no row."""
        found = self.base.execute(text, values).fetchone()
        return None if found is None else found[0]

    def table_of(self, key: bytes) -> str | None:
        """The table that has a key."""
        return next((it for it in TABLES if self.rows(f"SELECT 1 FROM {it} WHERE key = ? LIMIT 1", key)), None)

    # Texts.

    def ping(self) -> Reply:
        """Says that it is there."""
        return b"PONG"

    def get(self, key: bytes) -> Reply:
        """A text."""
        return self.value("SELECT value FROM texts WHERE key = ?", key)

    def set(self, key: bytes, value: bytes) -> Reply:
        """Stores a text in place of whatever there is."""
        self.unlink(key)
        self.base.execute("INSERT INTO texts VALUES (?, ?)", (key, value))
        return b"OK"

    def incr(self, key: bytes) -> Reply:
        """Counts a text up."""
        count = int(self.get(key) or 0) + 1
        self.set(key, b"%d" % count)
        return count

    def append(self, key: bytes, more: bytes) -> Reply:
        """Makes a text longer."""
        text = (self.get(key) or b"") + more
        self.set(key, text)
        return len(text)

    def strlen(self, key: bytes) -> Reply:
        """How long a text is."""
        return self.value("SELECT length(value) FROM texts WHERE key = ?", key) or 0

    # Lists.

    def llen(self, key: bytes) -> Reply:
        """How long a list is."""
        return self.value("SELECT count(*) FROM items WHERE key = ?", key)

    def rpush(self, key: bytes, *values: bytes) -> Reply:
        """Makes a list longer."""
        last = self.value("SELECT max(place) FROM items WHERE key = ?", key)
        first = 0 if last is None else last + 1
        self.base.executemany("INSERT INTO items VALUES (?, ?, ?)", ((key, first + it, value) for it, value in enumerate(values)))
        return self.llen(key)

    def span(self, key: bytes, first: bytes, last: bytes) -> tuple[int, int]:
        """The places of a part of a list."""
        low, high = self.rows("SELECT min(place), max(place) FROM items WHERE key = ?", key)[0]
        if low is None:
            return 0, -1
        begin, end = (low + it if it >= 0 else high + 1 + it for it in (int(first), int(last)))
        return begin, end

    def lrange(self, key: bytes, first: bytes, last: bytes) -> Reply:
        """A part of a list."""
        return [it for it, in self.rows("SELECT value FROM items WHERE key = ? AND place BETWEEN ? AND ? ORDER BY place", key, *self.span(key, first, last))]

    def ltrim(self, key: bytes, first: bytes, last: bytes) -> Reply:
        """Keeps a part of a list."""
        self.base.execute("DELETE FROM items WHERE key = ? AND place NOT BETWEEN ? AND ?", (key, *self.span(key, first, last)))
        return b"OK"

    # Hashes and sets.

    def hset(self, key: bytes, *pairs: bytes) -> Reply:
        """Stores fields; how many are new."""
        count = sum(self.hget(key, it) is None for it in set(pairs[::2]))
        rows = [(key, pairs[it], pairs[it + 1]) for it in range(0, len(pairs), 2)]
        self.base.executemany("INSERT INTO fields (key, field, value) VALUES (?, ?, ?) ON CONFLICT (key, field) DO UPDATE SET value = excluded.value", rows)
        return count

    def hget(self, key: bytes, field: bytes) -> Reply:
        """A field."""
        return self.value("SELECT value FROM fields WHERE key = ? AND field = ?", key, field)

    def hgetall(self, key: bytes) -> Reply:
        """All fields with their values, one behind the other."""
        return [it for row in self.rows("SELECT field, value FROM fields WHERE key = ? ORDER BY number", key) for it in row]

    def hscan(self, key: bytes, cursor: bytes, _: bytes, count: bytes) -> Reply:
        """Some fields with their values, and where the next ones begin."""
        rows = self.rows("SELECT number, field, value FROM fields WHERE key = ? AND number > ? ORDER BY number LIMIT ?", key, int(cursor), int(count))
        return [b"%d" % rows[-1][0] if len(rows) == int(count) else b"0", [it for row in rows for it in row[1:]]]

    def hdel(self, key: bytes, *fields: bytes) -> Reply:
        """Deletes fields."""
        return self.base.executemany("DELETE FROM fields WHERE key = ? AND field = ?", ((key, it) for it in fields)).rowcount

    def sadd(self, key: bytes, *members: bytes) -> Reply:
        """Adds members."""
        return self.base.executemany("INSERT OR IGNORE INTO members VALUES (?, ?)", ((key, it) for it in members)).rowcount

    def srem(self, key: bytes, *members: bytes) -> Reply:
        """Takes members out."""
        return self.base.executemany("DELETE FROM members WHERE key = ? AND member = ?", ((key, it) for it in members)).rowcount

    def smembers(self, key: bytes) -> Reply:
        """All members."""
        return [it for it, in self.rows("SELECT member FROM members WHERE key = ?", key)]

    # Keys of any kind.

    def unlink(self, *keys: bytes) -> Reply:
        """Deletes keys; how many there were."""
        count = sum(self.table_of(it) is not None for it in keys)
        for table in TABLES:
            self.base.executemany(f"DELETE FROM {table} WHERE key = ?", ((it,) for it in keys))
        return count

    def __getattr__(self, name: str) -> Callable[..., Reply]:
        """`del` is a word of Python's own."""
        if name == "del":
            return self.unlink
        raise ErrorReply(f"ERR unknown command '{name}'")

    def rename(self, key: bytes, name: bytes) -> Reply:
        """Gives a key another name, in place of what there is."""
        table = self.table_of(key)
        if table is None:
            raise ErrorReply("ERR no such key")
        if key != name:
            self.unlink(name)
        self.base.execute(f"UPDATE {table} SET key = ? WHERE key = ?", (name, key))
        return b"OK"

    def type(self, key: bytes) -> Reply:
        """Which kind of value there is."""
        return {None: b"none", "texts": b"string", "items": b"list", "fields": b"hash", "members": b"set"}[self.table_of(key)]

    def memory(self, _: bytes, key: bytes) -> Reply:
        """How many bytes a value has."""
        size = self.strlen(key) if self.table_of(key) == "texts" else self.value("SELECT sum(length(value)) FROM items WHERE key = ?", key)
        return size or None

    def dump(self, key: bytes) -> Reply:
        """A value as another store takes it."""
        table = self.table_of(key)
        if table is None:
            return None
        return b"t" + self.get(key) if table == "texts" else b"l" + json.dumps([it.decode("latin-1") for it in self.lrange(key, b"0", b"-1")]).encode()

    def restore(self, key: bytes, _: bytes, dump: bytes, *__: bytes) -> Reply:
        """Stores what another store has dumped."""
        self.unlink(key)
        if dump[:1] == b"t":
            return self.set(key, dump[1:])
        self.rpush(key, *(it.encode("latin-1") for it in json.loads(dump[1:])))
        return b"OK"


class Sqlite:
    """The store of a folder. What comes in one moment is done in one transaction, each request as a whole."""

    def __init__(self, folder: Path) -> None:
        # (who starts next waits until this process has ended)
        self.lock = os.open(folder / "lock", os.O_RDWR | os.O_CREAT)
        fcntl.flock(self.lock, fcntl.LOCK_EX)
        self.tables = Tables(folder / FILE)
        self.jobs: list[tuple[list[tuple[Part, ...]], "asyncio.Future[list[Reply]]"]] = []

    def work(self) -> None:
        """Does all that has come, and tells of it once it is durable."""
        jobs, self.jobs = self.jobs, []
        try:
            self.tables.base.execute("BEGIN IMMEDIATE")
            told = [self.done(commands) for commands, _ in jobs]
            self.tables.base.execute("COMMIT")
        except sqlite3.Error as error:
            told = [OSError(f"SQLite: {error}")] * len(jobs)
        for (_, future), what in zip(jobs, told):
            if not future.done():
                (future.set_exception if isinstance(what, Exception) else future.set_result)(what)

    def done(self, commands: list[tuple[Part, ...]]) -> "list[Reply] | Exception":
        """Executes commands, all or none of them."""
        self.tables.base.execute("SAVEPOINT one")
        try:
            replies = [self.tables.run(it) for it in commands]
        except ErrorReply as error:
            self.tables.base.execute("ROLLBACK TO one")
            return error
        finally:
            self.tables.base.execute("RELEASE one")
        return replies

    def future(self, commands: list[tuple[Part, ...]]) -> "asyncio.Future[list[Reply]]":
        """The replies to come, whose error may pass unseen."""
        loop = asyncio.get_running_loop()
        future: "asyncio.Future[list[Reply]]" = loop.create_future()
        future.add_done_callback(lambda done: done.cancelled() or done.exception())
        if not self.jobs:
            loop.call_soon(self.work)
        self.jobs.append((commands, future))
        return future

    def send(self, *parts: Part) -> "asyncio.Task[Reply]":
        """Sends a command; its reply comes later, be it an error."""
        return asyncio.ensure_future(self.reply(self.future([parts])))

    async def reply(self, replies: "asyncio.Future[list[Reply]]") -> Reply:
        """The reply to one command."""
        try:
            return (await replies)[0]
        except ErrorReply as error:
            return error

    async def call(self, *parts: Part) -> Reply:
        """Sends a command and returns its reply; an error is raised."""
        return (await self.future([parts]))[0]

    async def transaction(self, commands: list[tuple[Part, ...]]) -> list[Reply]:
        """Runs commands in one transaction. Raises if one of them fails; then none has its effect."""
        return await self.future(commands)

    def close(self) -> None:
        """Ends it."""
        self.tables.base.close()
        os.close(self.lock)
