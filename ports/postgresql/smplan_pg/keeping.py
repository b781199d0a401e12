"""What a server does by itself: it goes on without followers that are dead, forgets old identities, and tidies streams that nobody will read."""
from __future__ import annotations

import time
from collections import Counter
from contextlib import suppress
from dataclasses import dataclass
from typing import TYPE_CHECKING, Dict, List, Optional

import psycopg
from smplan.agent import Base, Cell

from . import streams
from .copies import DELETED, REPLACED
from .database import Row, value
from .records import Records
from .sources import is_of
from .streams import Stuck, said

if TYPE_CHECKING:
    from .server import Server

# All streams that begin in this database, each with its shard and follower as far as these are known here, and what this server has of the shard.
STREAMS = """SELECT r.slot_name, r.active, r.wal_status = 'lost' AS is_lost, r.confirmed_flush_lsn::text AS has, w.shard, w.server, w.cell, w.at_work,
    pg_current_wal_flush_lsn() > r.confirmed_flush_lsn AS is_behind,
    EXISTS (SELECT FROM sm.copied c WHERE c.shard = w.shard AND c.server = w.server AND seen > clock_timestamp() - interval '10 s') AS is_copied
  FROM pg_replication_slots r LEFT JOIN (SELECT s.shard, p.number AS server, s.cell, s.at_work FROM sm.slots s CROSS JOIN sm.servers p) w
    ON r.slot_name = sm.stream(w.shard, w.server)
  WHERE r.database = current_database() AND r.slot_name ~ '^sm_.*_[0-9a-f]{8}_[0-9]+$'"""

# Streams by which tables are copied, and which nobody reads now.
UNREAD = "SELECT slot_name FROM pg_replication_slots WHERE database = current_database() AND NOT active AND slot_name ~ '^pg_[0-9]+_sync_[0-9]+_[0-9]+$'"

# Deletes old identities of a shard's requests, some at once; how many. And how often that is tried where there are none,
# in seconds.
FORGET = "SELECT sm.forget_requests(%s, make_interval(secs => %s))"
FORGETTING = 30.0

# The shards that this server serves, and that have tables without a guard.
UNGUARDED = """SELECT DISTINCT shard FROM sm.slots JOIN pg_namespace n ON nspname = shard
    JOIN pg_class c ON relnamespace = n.oid
  WHERE cell = 4 AND relkind IN ('r', 'p') AND relname NOT LIKE 'sm\\_%%'
    AND NOT EXISTS (SELECT FROM pg_trigger WHERE tgrelid = c.oid AND tgname = 'sm_guard')"""


@dataclass
class Watched:
    """What a stream had when it was seen first without a reader, or without getting on, and since when."""

    has: Optional[str]
    silent: Optional[float] = None
    since: float = 0.0


class Keeping:
    """The loops of a server."""

    def __init__(self, server: "Server") -> None:
        self.server = server
        self.watched: Dict[str, Watched] = {}
        self.unread: Dict[str, float] = {}
        self.forgotten: Dict[str, float] = {}

    def leave_out_the_dead(self) -> None:
        """A follower that has read nothing for a while, or got on with nothing for long, counts no more, and copies the shard anew; an old owner counts, dead or
        not. A stream that is lost, or that was never made, is dead at once. Who is silent is waited for if too few would count without it: writes would wait
        all the same, and until it has copied."""
        with self.server.database.transaction() as tx:
            it = Records(tx)
            rows, base, copies = tx.execute(STREAMS).fetchall(), it.base(), it.copies()
            served = [shard for shard, slot in it.slots().items() if slot.cell == Cell.PRIMARY]
            members = {streams.name_of(tx, shard, number): (shard, number, was_owner)
                       for shard, its in it.members_of(served).items() for number, was_owner in its.items()}
        present = {it["slot_name"]: it for it in rows}
        self.watched = {name: it for name, it in self.watched.items() if name in present or name in members}
        counts = Counter(shard for shard, *_ in members.values())
        for name in {*present, *members} if base.known else ():
            shard, number, was_owner = members.get(name, ("", 0, False))
            is_needed = name in members and counts[shard] < copies
            if self.has_left(shard, number, base) if was_owner else self.is_dead(name, present.get(name), is_needed):
                counts[shard] -= 1
                self.leave_out(name, members.get(name))

    def has_left(self, shard: str, number: int, base: Base) -> bool:
        """Whether an old owner has dropped its copy, and may not have told it."""
        try:
            it = self.server.sources.offer(number, shard)
        except (Stuck, OSError, psycopg.Error):
            return False
        return is_of(it, base) and it["cell"] == Cell.ABSENT

    def is_dead(self, name: str, row: Optional[Row], is_needed: bool = False) -> bool:
        """Whether nobody will go on with a stream, as far as can be seen from here; of one whose follower is needed and silent this can't be seen."""
        now = self.server.silence.now()
        if row is not None and (row["is_copied"] or row["cell"] in (Cell.PREPARED, Cell.FORWARDING) or row["at_work"]):
            self.watched.pop(name, None)
            return False
        it = self.watched.setdefault(name, Watched(row["has"] if row else None, None, now))
        if row is None or not row["active"]:
            it.silent = it.silent or now
        else:
            it.silent = None
        if row is not None and (row["has"] != it.has or not row["is_behind"]):
            it.has, it.since = row["has"], now
        if is_needed and row is not None and not row["active"]:
            it.silent, it.since = None, now
        limits = self.server.limits
        return bool((row and row["is_lost"]) or (it.silent and now - it.silent > limits.dead) or now - it.since > limits.stalled)

    def leave_out(self, name: str, member: "Optional[tuple[str, int, bool]]") -> None:
        """Goes on without a follower, and drops its stream."""
        if member is not None:
            shard, number, _ = member
            try:
                with self.server.database.transaction() as tx:
                    it = Records(tx)
                    tx.execute("SET LOCAL lock_timeout = '1s'")
                    tx.execute("SELECT sm.share(%s)", (shard,))  # (behind a cut nothing is written)
                    if it.slot(shard).cell == Cell.PRIMARY and number in it.members(shard):
                        tx.execute(it.own("DELETE FROM {}.sm_members WHERE server = %s", shard), (number,))
                        it.count(shard)
                        self.server.say("goes on without", self.server.names.get(number), "for", shard)
            except psycopg.errors.LockNotAvailable:
                return  # (the schema is changed, or a cut waits; it comes again)
        self.watched.pop(name, None)
        try:
            with self.server.database.connection() as c:
                c.execute("SELECT pg_terminate_backend(active_pid) FROM pg_replication_slots WHERE slot_name = %s AND active", (name,))
            streams.drop_stream(self.server.database, name, 0.5)
        except (Stuck, psycopg.Error):
            pass  # (it comes again)

    def tidy(self) -> None:
        """Forgets identities that are old enough, guards tables that have come to a shard, and deletes copies that
        nobody needs, or that were replaced by what has all of them."""
        for shard in self.served():
            if time.monotonic() >= self.forgotten.get(shard, 0.0):
                count = value(self.server.database.row(FORGET, shard, self.server.limits.keeping))
                self.forgotten[shard] = time.monotonic() + (0.0 if count else FORGETTING)
        for row in self.server.database.rows(UNGUARDED):
            self.server.database.row("SELECT sm.guard_tables(%s)", row["shard"])
        for row in self.server.database.rows("SELECT schema FROM sm.asides WHERE why IN (%s, %s)", REPLACED, DELETED):
            with self.server.database.transaction() as tx:
                tx.execute("SET LOCAL lock_timeout = '1s'")
                tx.execute(said("DROP SCHEMA IF EXISTS {} CASCADE", row["schema"]))
                tx.execute("DELETE FROM sm.asides WHERE schema = %s", (row["schema"],))

    def tidy_sources(self) -> None:
        """Drops streams that the copying of tables has left at other servers."""
        own = value(self.server.database.row("SELECT system_identifier::text FROM pg_control_system()"))
        for row in self.server.database.rows("SELECT source, streams FROM sm.left_behind"):
            there = self.server.peer(row["source"])
            left = "FROM pg_replication_slots WHERE starts_with(slot_name, %s) AND slot_name LIKE %s"
            names = (row["streams"], f"%\\_{own}")
            there.rows(f"SELECT pg_drop_replication_slot(slot_name) {left} AND NOT active", *names)
            if not there.rows(f"SELECT 1 {left}", *names):
                self.server.database.do("DELETE FROM sm.left_behind WHERE source = %s AND streams = %s", row["source"], row["streams"])

    def drop_unread(self) -> None:
        """Drops streams by which tables were copied and which nobody has read for long: who read them is lost, or begins anew. While a copy is made from here
        they may have no reader: a table's is made before its rows are copied, and read behind them."""
        now = self.server.silence.now()
        if value(self.server.database.row("SELECT EXISTS (SELECT FROM sm.copied WHERE seen > clock_timestamp() - interval '10 s')")):
            self.unread = {}
            return
        self.unread = {it["slot_name"]: self.unread.get(it["slot_name"], now) for it in self.server.database.rows(UNREAD)}
        for name, since in self.unread.items():
            if now - since > 2 * self.server.limits.dead:
                with suppress(Stuck, psycopg.Error):
                    streams.drop_stream(self.server.database, name, 0.0)

    def served(self) -> List[str]:
        """The shards whose primary this server is."""
        with self.server.database.transaction() as tx:
            return [shard for shard, slot in Records(tx).slots().items() if slot.cell == Cell.PRIMARY]
