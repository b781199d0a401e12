"""Streams between servers: logical replication. A shard's publication, and the subscription and the slot by which a server follows it, have the names of
sm.stream. A subscription that is dropped leaves its slot at the source, so that this may stand in a transaction."""
from __future__ import annotations

import time
from contextlib import contextmanager
from typing import Dict, Iterable, Iterator, List, Optional, Tuple

import psycopg
from psycopg import sql

from .database import Connection, Database, value

ALL = "insert, update, delete, truncate"

# What each subscription has: a stream that is there already; and long transactions in pieces of logical_decoding_work_mem, not all at their commit. (A stream reads
# what comes to its server's other shards, too. A copy is one transaction: all writes behind it would wait until it has been read through.)
STREAM = "slot_name = {name}, create_slot = false, synchronous_commit = 'local', streaming = on"

# For how long a source may take to tell what its publication has, in milliseconds.
ASKING = 30000


class Stuck(Exception):
    """Something can't be done now; it is tried again."""


# Names that were asked for, by shard and follower.
NAMES: Dict[Tuple[str, Optional[int]], str] = {}


def name_of(tx: Connection, shard: str, server: Optional[int] = None) -> str:
    """The name of a publication, or with a follower's number of a stream."""
    if (shard, server) not in NAMES:
        NAMES[shard, server] = value(tx.execute("SELECT sm.stream(%s, %s)", (shard, server)).fetchone())
    return NAMES[shard, server]


def said(text: str, *names: str, **literals: str) -> sql.Composed:
    """A statement with names and literals in their places."""
    return sql.SQL(text).format(*(sql.Identifier(it) for it in names), **{key: sql.Literal(it) for key, it in literals.items()})


# -- publications

def publish(tx: Connection, shard: str, what: str) -> None:
    """Sets what a publication tells; what the log has before is told as before."""
    tx.execute(said("ALTER PUBLICATION {} SET (publish = {what})", name_of(tx, shard), what=what))


# -- subscriptions

def has_subscription(tx: Connection, name: str) -> bool:
    """Whether there is a subscription in this database."""
    row = tx.execute("SELECT FROM pg_subscription s JOIN pg_database d ON d.oid = subdbid WHERE subname = %s AND datname = current_database()", (name,))
    return row.fetchone() is not None


def halt(database: Database, name: str, seconds: float = 3.0) -> None:
    """Disables a subscription, and waits until nobody applies what it brings. It keeps what it knows of its place."""
    with database.connection() as c:
        if not has_subscription(c, name):
            return
        with c.transaction():
            c.execute("SET LOCAL synchronous_commit = off")  # (what is done behind it is durable, and this before that)
            c.execute(said("ALTER SUBSCRIPTION {} DISABLE", name))
        until = time.monotonic() + seconds
        at_work = "SELECT pid FROM pg_stat_subscription WHERE subname = %s AND pid IS NOT NULL"
        while rows := c.execute(at_work, (name,)).fetchall():
            for it in rows:
                c.execute("SELECT pg_terminate_backend(%s)", (it["pid"],))
            if time.monotonic() > until:
                raise Stuck(f"{name} still applies")
            time.sleep(0.003)


def bring_up(tx: Connection) -> None:
    """Lets the subscriptions that an older program has made get long transactions in pieces, too."""
    its = ("SELECT subname FROM pg_subscription JOIN pg_database d ON d.oid = subdbid WHERE datname = current_database() AND substream::text IN ('f', 'false') "
           "AND subname ~ '^sm_.*_[0-9a-f]{8}_[0-9]+$'")
    for it in tx.execute(its).fetchall():
        tx.execute(said("ALTER SUBSCRIPTION {} SET (streaming = on)", it["subname"]))


def drop_subscription(tx: Connection, name: str) -> None:
    """Drops a subscription. A transaction that may end otherwise halts it before: its place is forgotten even if the transaction is rolled back.
    (If tables are not copied yet, DROP SUBSCRIPTION would ask the source to drop their streams, and wait while these wait for transactions there: two
    servers that copy from each other would wait for ever. So it finds no source.)"""
    if has_subscription(tx, name):
        tx.execute(said("ALTER SUBSCRIPTION {} DISABLE", name))
        tx.execute(said("ALTER SUBSCRIPTION {} SET (slot_name = NONE)", name))
        tx.execute(said("ALTER SUBSCRIPTION {} CONNECTION 'host=/nowhere'", name))
        tx.execute(said("DROP SUBSCRIPTION {}", name))


@contextmanager
def asking(c: Connection) -> Iterator[Connection]:
    """A transaction in which this server asks a source, which may stand still."""
    with c.transaction():
        c.execute(f"SET LOCAL statement_timeout = {ASKING}")
        yield c


def follow(c: Connection, name: str, publication: str, reach: str) -> None:
    """Follows a publication by a stream that is there already, from its beginning on."""
    with asking(c):
        text = "CREATE SUBSCRIPTION {} CONNECTION {reach} PUBLICATION {} WITH (" + STREAM + ", copy_data = false)"
        c.execute(said(text, name, publication, reach=reach, name=name))


def subscribe(database: Database, name: str, publication: str, reach: str) -> None:
    """Makes a subscription that copies nothing, by a stream that is there already. It is not enabled yet. (The
    former one was dropped in another transaction: a drop locks the subscriptions of all databases, so that no stream
    begins, and a source may take long to answer.)"""
    with database.connection() as c, asking(c) as tx:
        tx.execute(said("CREATE SUBSCRIPTION {} CONNECTION {reach} PUBLICATION {} WITH (" + STREAM + ", copy_data = false, enabled = false)",
                        name, publication, reach=reach, name=name))


def begin_behind(tx: Connection, name: str, place: str) -> None:
    """Lets such a subscription begin behind a place of its source's log. (The place is stored here: what
    pg_replication_slot_advance says at the source is forgotten by a crash. And it is there before the subscription is
    enabled, whether the transaction is committed or not.)"""
    origin = "'pg_' || (SELECT oid FROM pg_subscription WHERE subname = %s)"
    tx.execute(f"SELECT pg_replication_origin_advance({origin}, %s::pg_lsn)", (name, place))
    enable(tx, name)


def enable(tx: Connection, name: str) -> None:
    """Lets a subscription begin."""
    tx.execute(said("ALTER SUBSCRIPTION {} ENABLE", name))


def lacks_tables(tx: Connection, name: str) -> int:
    """How many tables of a subscription are not copied yet."""
    return value(tx.execute("SELECT count(*) FROM pg_subscription_rel r JOIN pg_subscription s ON s.oid = srsubid WHERE subname = %s AND srsubstate <> 'r'",
                            (name,)).fetchone())


# -- streams at their source

def streams_of(tx: Connection, shard: str) -> List[str]:
    """The streams of a shard that begin in a server's database; other servers may be other databases of its cluster."""
    its = "SELECT slot_name FROM pg_replication_slots WHERE database = current_database() AND starts_with(slot_name, %s)"
    return [it["slot_name"] for it in tx.execute(its, (name_of(tx, shard) + "_",)).fetchall()]


def make_stream(database: Database, shard: str, follower: int, seconds: float) -> bool:
    """Makes a stream for a server that will follow this one, if there is none. It waits for all transactions that are open in this PostgreSQL, whatever they
    write: not for longer than some seconds. Whether there is one. (It is refused if another database of the cluster has one of this name.)"""
    with database.connection() as c:
        name = name_of(c, shard, follower)
        if name in streams_of(c, shard):
            return True
        try:
            with c.transaction():
                c.execute(f"SET LOCAL statement_timeout = {int(1000 * seconds)}")
                c.execute("SELECT pg_create_logical_replication_slot(%s, 'pgoutput')", (name,))
        except psycopg.errors.QueryCanceled:
            return False
    return True


def make_with_snapshot(c: Connection, name: str) -> str:
    """Makes a stream over a connection for replication. The snapshot of what is before it."""
    row = c.execute(said("CREATE_REPLICATION_SLOT {} LOGICAL pgoutput (SNAPSHOT 'export')", name)).fetchone()
    assert row is not None
    return str(row["snapshot_name"])


def make_streams(database: Database, shard: str, followers: Iterable[int], seconds: float) -> bool:
    """Makes streams for servers that will follow this one, but no more once one has waited in vain: who has none copies the shard anew. Whether all are there."""
    return all(make_stream(database, shard, it, seconds) for it in followers)


def drop_stream(database: Database, name: str, seconds: float = 2.0) -> None:
    """Drops a stream at its source, once nobody reads it; never that of another database of the cluster, which may have the same name."""
    until = time.monotonic() + seconds
    while True:
        with database.connection() as c:
            row = c.execute("SELECT active_pid FROM pg_replication_slots WHERE slot_name = %s AND database = current_database()", (name,)).fetchone()
            if row is None:
                return
            try:
                if row["active_pid"] is None:
                    c.execute("SELECT pg_drop_replication_slot(%s)", (name,))
                    return
            except (psycopg.errors.ObjectInUse, psycopg.errors.UndefinedObject):
                pass
        if time.monotonic() > until:
            raise Stuck(f"{name} is still read")
        time.sleep(0.02)


def drop_streams(database: Database, shard: str) -> None:
    """Drops all streams of a shard that begin here."""
    with database.connection() as c:
        names = streams_of(c, shard)
    for it in names:
        drop_stream(database, it)


def advance(database: Database, shard: str) -> None:
    """Moves streams that are to begin here up to now, so that they hold no log back, and begin fast. (A crash forgets it.)"""
    with database.connection() as c:
        for it in streams_of(c, shard):
            c.execute("SELECT pg_replication_slot_advance(slot_name, pg_current_wal_flush_lsn()) FROM pg_replication_slots WHERE slot_name = %s AND NOT active", (it,))
