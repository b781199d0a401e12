"""A server's database: transactions over connections that are kept.

psycopg 3 is what Debian has that is libpq itself, so that services, password files and certificates work as for psql; asyncpg, the other choice, speaks
the protocol by itself, and has errors outside its documented classes when a server dies.
"""
from __future__ import annotations

import os
import socket
import threading
import time
from contextlib import contextmanager, suppress
from typing import Any, Dict, Iterator, List, Optional, Tuple

import psycopg
from psycopg import pq
from psycopg.conninfo import conninfo_to_dict, make_conninfo
from psycopg.rows import dict_row

Row = Dict[str, Any]
Connection = psycopg.Connection


def signed(number: int) -> int:
    """A number of 64 bits as PostgreSQL keeps it."""
    return number - (1 << 64) if number >= 1 << 63 else number


def unsigned(number: int) -> int:
    """A number of 64 bits that PostgreSQL keeps."""
    return number + (1 << 64) if number < 0 else number


# How smplan-pg itself connects: guards let it pass, what it stores is durable, and what it waits for ends soon after it.
OWN = "-c sm.own=on -c synchronous_commit=local -c client_connection_check_interval=1000"

# How soon it is noticed that a server's machine is gone: within some ten seconds.
ALIVE = {"keepalives_idle": 5, "keepalives_interval": 2, "keepalives_count": 3, "tcp_user_timeout": 10000}

# A server that has not answered so long after its time was up stands still, in seconds: its system takes what comes, so that no timeout of the network's ends it.
STILL = 5.0

# A connection that has rested for so long, in seconds, is tried before it is used.
RESTED = 1.0


class Database:
    """One database, over connections that are kept."""

    def __init__(self, reach: str, patience: Optional[float] = None, options: str = OWN) -> None:
        if patience:  # (and what a question has locked is free again soon after who asks is gone)
            options += f" -c statement_timeout={int(patience * 1000)} -c idle_in_transaction_session_timeout={int((patience + STILL) * 1000)}"
        more = {"connect_timeout": 3, "application_name": "smplan-pg", **({"options": options} if options else {})}
        self.reach = make_conninfo(**{**ALIVE, **conninfo_to_dict(reach), **more})
        self.idle: List[Tuple[Connection, float]] = []
        self.used: Dict[Connection, float] = {}
        self.patience, self.lock = patience, threading.Lock()

    def connect(self, **more: Any) -> Connection:
        """A new connection. It prepares no statements, so that pgbouncer may stand between."""
        return psycopg.connect(self.reach, autocommit=True, row_factory=dict_row, prepare_threshold=None, **more)

    def is_up(self) -> bool:
        """Whether a server answers there, or nobody could be asked; not one that starts or ends."""
        return pq.PGconn.ping(self.reach.encode()) not in (pq.Ping.NO_RESPONSE, pq.Ping.REJECT)

    @contextmanager
    def connection(self) -> Iterator[Connection]:
        """A connection, which is kept afterwards if nothing went wrong."""
        c = self.kept() or self.use(self.connect())
        try:
            yield c
        except BaseException:
            c.close()
            raise
        finally:
            self.leave(c)
        with self.lock:
            self.idle.append((c, time.monotonic()))

    def kept(self) -> Optional[Connection]:
        """A connection that was kept and still serves, in use from now on, if there is one."""
        with self.lock:
            c, rested = self.idle.pop() if self.idle else (None, 0.0)
        if c is None or time.monotonic() - rested <= RESTED or is_alive(self.use(c)):
            return c and self.use(c)
        self.leave(c)
        return None

    def use(self, c: Connection) -> Connection:
        """Notes that a connection is in use from now on."""
        with self.lock:
            self.used[c] = time.monotonic()
        return c

    def leave(self, c: Connection) -> None:
        """Notes that a connection is in use no more."""
        with self.lock:
            self.used.pop(c, None)

    def cut_off(self) -> None:
        """Ends connections whose server stands still: who waits for an answer there has none, at once."""
        for it in self.used_for(self.patience + STILL) if self.patience else ():
            shut(it)

    def used_for(self, seconds: float) -> List[Connection]:
        """The connections that have been in use for longer than some seconds."""
        with self.lock:
            return [c for c, since in self.used.items() if time.monotonic() - since > seconds]

    def close(self) -> None:
        """Closes what is kept."""
        with self.lock:
            idle, self.idle = self.idle, []
        for c, _ in idle:
            c.close()

    @contextmanager
    def transaction(self) -> Iterator[Connection]:
        """A transaction. It is durable when it ends; if it ends by an exception, nothing is changed."""
        with self.connection() as c, c.transaction():
            yield c

    def row(self, statement: str, *values: Any) -> Optional[Row]:
        """The first row of a statement's answer, in a transaction of its own."""
        with self.connection() as c:
            return c.execute(statement, values).fetchone()

    def rows(self, statement: str, *values: Any) -> List[Row]:
        """A statement's answer, in a transaction of its own."""
        with self.connection() as c:
            return c.execute(statement, values).fetchall()

    def do(self, statement: str, *values: Any) -> int:
        """How many rows a statement has changed, in a transaction of its own."""
        with self.connection() as c:
            return c.execute(statement, values).rowcount


def shut(c: Connection) -> None:
    """Ends a connection on which another thread waits, without a word to its server."""
    with suppress(OSError, psycopg.Error), socket.socket(fileno=os.dup(c.fileno())) as it:
        it.shutdown(socket.SHUT_RDWR)


def is_alive(c: Connection) -> bool:
    """Whether a connection that was at rest still serves."""
    try:
        c.execute("SELECT 1")
        return True
    except psycopg.Error:
        c.close()
        return False


def value(row: Optional[Row]) -> Any:
    """The only value of a row; none if there is no row."""
    return None if row is None else next(iter(row.values()))
