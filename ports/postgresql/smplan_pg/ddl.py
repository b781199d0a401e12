"""A change of a shard's schema, at all its replicas: logical replication carries rows alone. No request of the shard runs meanwhile."""
from __future__ import annotations

import time
from contextlib import ExitStack
from pathlib import Path
from typing import Dict, List

import psycopg
from smplan.agent import Cell
from smplan.failure import Failure

from . import streams
from .database import Connection, Database, value
from .records import Peer, Records


def change(database: Database, shard: str, name: str, file: str, wait: float) -> List[str]:
    """Changes a schema at the primary and at all that follow it; returns where. If it comes again under its name, it is done where it was not yet."""
    text = Path(file).read_text(encoding="utf-8")
    with database.connection() as c:
        members = members_of(c, shard)
        with ExitStack() as stack:
            others = {it.name: stack.enter_context(Database(it.reach or "").connect()) for it in members.values()}
            numbers = {it.name: it.number for it in members.values()}
            hold(c, shard, wait)
            try:
                wait_for_all(c, shard)
                for there in [*others.values(), c]:
                    apply(there, shard, name, text)
                for it, there in others.items():
                    refresh(there, shard, numbers[it])
            finally:
                c.execute("SELECT pg_advisory_unlock(1936531056, hashtext(%s))", (shard,))
    return [*others, "the primary"]


def members_of(c: Connection, shard: str) -> Dict[int, Peer]:
    """Who follows the shard, which this server has to serve and which must not move."""
    it = Records(c)
    slot, base = it.slot(shard), it.base()
    if slot.cell != Cell.PRIMARY or not base.known:
        raise Failure(f"{shard} is not served here: name its primary, which the map lists", 1)
    if c.execute("SELECT FROM sm.copied WHERE shard = %s AND seen > clock_timestamp() - interval '10 s'", (shard,)).fetchone() is not None:
        raise Failure(f"{shard} is copied now: try again once it has moved", 1)
    peers = it.peers()
    return {number: peers[number] for number in it.members(shard)}


def hold(c: Connection, shard: str, wait: float) -> None:
    """Takes the shard's lock until it is given back. It waits shortly and rests long, since no request begins while it waits."""
    until = time.monotonic() + wait
    c.execute("SET lock_timeout = '150ms'")
    while True:
        try:
            c.execute("SELECT pg_advisory_lock(1936531056, hashtext(%s))", (shard,))
            return
        except psycopg.errors.LockNotAvailable:
            if time.monotonic() > until:
                raise Failure(f"requests of {shard} run for longer than {wait:g} s. Nothing was changed", 1) from None
            time.sleep(1.0)
        finally:
            c.execute("RESET lock_timeout")


def wait_for_all(c: Connection, shard: str, seconds: float = 3.0) -> None:
    """Waits until all followers have all rows."""
    place, until = value(c.execute("SELECT pg_current_wal_flush_lsn()::text").fetchone()), time.monotonic() + seconds
    while not value(c.execute("SELECT sm.has_all(%s, %s::pg_lsn)", (shard, place)).fetchone()):
        if time.monotonic() > until:
            raise Failure("a follower does not get on. Nothing was changed", 1)
        time.sleep(0.01)


def apply(c: Connection, shard: str, name: str, text: str) -> None:
    """Changes the schema at one server, unless this was done."""
    with c.transaction():
        if c.execute("SELECT FROM sm.changes WHERE shard = %s AND name = %s", (shard, name)).fetchone() is None:
            c.execute("SELECT set_config('search_path', quote_ident(%s) || ', public', true)", (shard,))
            c.execute(text)  # type: ignore[arg-type]
            c.execute("SELECT sm.guard_tables(%s)", (shard,))
            c.execute("INSERT INTO sm.changes VALUES (%s, %s)", (shard, name))


def refresh(c: Connection, shard: str, number: int, seconds: float = 60.0) -> None:
    """Lets a follower see new tables, and waits until it has them whole."""
    mine, until = streams.name_of(c, shard, number), time.monotonic() + seconds
    c.execute(streams.said("ALTER SUBSCRIPTION {} REFRESH PUBLICATION", mine))
    while streams.lacks_tables(c, mine):
        if time.monotonic() > until:
            raise Failure(f"a new table does not come to a follower within {seconds:g} s: try again", 1)
        time.sleep(0.02)
