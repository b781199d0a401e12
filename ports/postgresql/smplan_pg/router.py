"""For clients: sends each request to the server that serves its shard, wherever that goes, and executes it once.

    router = Router({"a": "service=pg-a", "b": "service=pg-b"}, "map.json")
    reply = router.run("tenant_17", "order-4711", lambda cursor: cursor.execute("UPDATE ..").rowcount)
    rows = router.read("tenant_17", lambda cursor: cursor.execute("SELECT ..").fetchall())

The function is called once for each try, in a transaction whose search_path is the schema; it may be called again, so it changes nothing but the database.
What it returns is kept as JSON beside the request's identity: a request that comes again gets the same reply. Threads may share a router.
"""
from __future__ import annotations

import json
import random
import threading
import time
import weakref
from collections import Counter
from dataclasses import dataclass
from pathlib import Path
from typing import Any, Callable, Dict, Mapping, Optional, Union

import psycopg

from .database import Connection, Database, Row, shut, value

EXECUTE, PASS_ON, NOT_HERE, NOT_YET, AGAIN = 12, 13, 14, 15, 11
Work = Callable[[psycopg.Cursor], Any]

# What may be over when a request is sent again: the server is gone, or has ended the session, or two transactions were in each other's way.
PASSING = (psycopg.OperationalError, psycopg.InterfaceError)

# The shortest rest between two tries, the longest while a handover may be the reason, and the longest behind HANDOVER, in seconds.
SHORTEST, LONGEST, LONGEST_LATER, HANDOVER = 0.003, 0.02, 0.15, 1.0


class NotServed(Exception):
    """A request could not be executed within its patience. It may have been: send it again under its identity."""


@dataclass(frozen=True)
class Onward:
    """How a request is passed on: to whom, in which handover, behind which cut, and by whom."""

    server: str
    handover: int = 0
    cut: int = 0
    by: Optional[int] = None


@dataclass(frozen=True)
class Told:
    """What a try has come to."""

    answer: int
    reply: Any = None
    onward: Optional[Onward] = None


class Router:
    """Requests to shards."""

    def __init__(self, servers: Mapping[str, str], map_file: Union[str, Path], patience: float = 30.0) -> None:
        self.servers = {name: Database(reach, options="") for name, reach in servers.items()}
        self.map_file, self.patience = Path(map_file), patience
        self.listed: Dict[str, Optional[str]] = {}
        self.numbers: Dict[int, str] = {}
        self.counts: "Counter[str]" = Counter()
        threading.Thread(target=watch, args=(weakref.ref(self),), daemon=True).start()

    def run(self, shard: str, identity: str, work: Work) -> Any:
        """Executes a request once, and returns its reply when it is acknowledged: all who have to have what it wrote have it."""
        return self.send(shard, identity, work)

    def read(self, shard: str, work: Work) -> Any:
        """Reads what is acknowledged."""
        return self.send(shard, None, work)

    def send(self, shard: str, identity: Optional[str], work: Work) -> Any:
        """Tries until it is done."""
        begun, onward, pause = time.monotonic(), None, SHORTEST
        while time.monotonic() < begun + self.patience:
            place = onward or self.place(shard)
            try:
                told = Told(NOT_HERE) if place is None else self.once(place, shard, identity, work)
            except PASSING as why:
                self.counts[type(why).__name__] += 1
                told = Told(NOT_HERE)
            if told.answer in (EXECUTE, AGAIN):
                return told.reply
            self.counts[{PASS_ON: "passed on", NOT_HERE: "not here"}.get(told.answer, "not yet")] += 1
            onward = told.onward if told.answer == PASS_ON else onward if told.answer == NOT_YET else None
            if told.answer == NOT_HERE:
                self.listed.pop(shard, None)
            if told.answer != PASS_ON:
                time.sleep(pause * (0.5 + random.random()))
                pause = min(1.3 * pause, LONGEST if time.monotonic() < begun + HANDOVER else LONGEST_LATER)
        raise NotServed(f"{shard}: not within {self.patience:g} s")

    def cut_off(self) -> None:
        """Ends what has waited for longer than its patience at a server that stands still."""
        for database in self.servers.values():
            late = database.used_for(self.patience)
            for it in late if late and not database.is_up() else ():
                shut(it)

    def place(self, shard: str) -> Optional[Onward]:
        """Where the map lists a shard."""
        if self.listed.get(shard) is None:
            try:
                entry = json.loads(self.map_file.read_text(encoding="utf-8"))["entries"].get(shard) or {}
            except (OSError, ValueError, KeyError):
                entry = {}
            self.listed[shard] = entry.get("to")
        server = self.listed[shard]
        return Onward(server) if server in self.servers else None

    def name_of(self, c: Connection, number: int) -> str:
        """A server's name."""
        if number not in self.numbers:
            self.numbers.update({it["number"]: it["name"] for it in c.execute("SELECT number, name FROM sm.servers").fetchall()})
        return self.numbers[number]

    def once(self, place: Onward, shard: str, identity: Optional[str], work: Work) -> Told:
        """One try at one server."""
        with self.servers[place.server].connection() as c:
            c.execute("BEGIN")
            row = c.execute("SELECT * FROM sm.enter(%s, %s, %s, %s, %s)", (shard, identity, place.handover, place.cut, place.by)).fetchone()
            assert row is not None
            reply = self.reply(c, shard, identity, work, row)
            if row["answer"] not in (EXECUTE, AGAIN):
                c.execute("ROLLBACK")
                return Told(row["answer"], None, self.onward(c, row))
            self.commit(c)
            if not value(c.execute("SELECT sm.acknowledged(%s, '2 s')", (shard,)).fetchone()):
                self.counts["not acknowledged"] += 1
                return Told(NOT_HERE)
            return Told(row["answer"], reply)

    def reply(self, c: Connection, shard: str, identity: Optional[str], work: Work, row: Row) -> Any:
        """Executes the request, and stores its reply; or repeats that of one that was executed before."""
        if row["answer"] == AGAIN:
            self.counts["again"] += 1
            return None if row["reply"] is None else json.loads(row["reply"])
        if row["answer"] != EXECUTE:
            return None
        with c.cursor() as cursor:
            reply = work(cursor)
        if identity is not None:
            c.execute("SELECT sm.reply(%s, %s, %s)", (shard, identity, json.dumps(reply)))
        return reply

    def commit(self, c: Connection) -> None:
        """Commits. If the answer is lost, the request is sent again, and its identity tells whether it was executed."""
        c.execute("COMMIT")

    def onward(self, c: Connection, row: Row) -> Optional[Onward]:
        """Where a request is passed on to."""
        return Onward(self.name_of(c, row["party"]), row["handover"], row["cut"], row["me"]) if row["answer"] == PASS_ON else None


def watch(router: "weakref.ref[Router]") -> None:
    """Looks each second, for as long as there is a router, whether what it sends waits in vain."""
    while (it := router()) is not None:
        it.cut_off()
        del it
        time.sleep(1.0)
