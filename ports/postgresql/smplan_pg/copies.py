"""Copies of shards: the schema by pg_dump, the rows by COPY out of the snapshot with which a stream begins, which is
then followed."""
from __future__ import annotations

import os
import select
import subprocess
import threading
import time
from concurrent.futures import Future, wait
from contextlib import closing, contextmanager, suppress
from typing import TYPE_CHECKING, Any, Callable, Iterator, List, Optional

import psycopg
from psycopg.conninfo import make_conninfo
from smplan.agent import Cell

from . import streams
from .database import OWN, Connection, Database, shut, value
from .records import Records
from .streams import Stuck, said

if TYPE_CHECKING:
    from .server import Server

Still = Callable[[], bool]

# Why a copy is set aside whose place another one has taken. If that has all that this one has, this one is deleted by itself.
REPLACED = "a whole copy has taken its place"
LACKING = "a whole copy has taken its place, and lacks writes of this one"

# Why data is set aside that nobody needs any more: it is deleted by itself.
DELETED = "nobody needs it"

# A shard's tables that have rows, with their columns.
TABLES = """SELECT format('%%I.%%I', nspname, relname) AS name, string_agg(quote_ident(attname), ', ' ORDER BY attnum)
    AS columns FROM pg_class c JOIN pg_namespace n ON n.oid = relnamespace JOIN pg_attribute a ON attrelid = c.oid
    AND attnum > 0 AND NOT attisdropped AND attgenerated = ''
  WHERE nspname = %s AND relkind = 'r' GROUP BY nspname, relname ORDER BY relname"""

# How a source writes values, as it would for a subscription, and for how long it may.
FORMS = ("-c datestyle=ISO -c intervalstyle=postgres -c extra_float_digits=3 -c statement_timeout=0 "
         "-c idle_in_transaction_session_timeout=0")

# How a server takes them. (What follows is durable, and they are before it.)
PUTTING = ("SET LOCAL session_replication_role = replica; SET LOCAL synchronous_commit = off; "
           "SET LOCAL intervalstyle = postgres")

# How many bytes of rows are read at once.
PIECE = 1 << 18

# How often a copy tells its source that it goes on, in seconds.
TELLING = 1.0

# How soon behind the end of its copy a shard is handed over, and for how long another copy waits for that, in seconds.
ABOUT, PATIENCE = 0.3, 3.0


class GivenUp(Exception):
    """Whoever wanted a copy wants it no more."""


def check(still: Still) -> None:
    """Stops a copy that nobody wants any more."""
    if not still():
        raise GivenUp("the copy is not wanted any more")


def begun(work: Callable[..., Any], *its: Any) -> "Future[Any]":
    """What becomes of work in a thread of its own. (The server's threads may all wait for it.)"""
    told: "Future[Any]" = Future()

    def run() -> None:
        try:
            told.set_result(work(*its))
        except Exception as why:  # pylint: disable=broad-exception-caught  (who waits gets it)
            told.set_exception(why)

    threading.Thread(target=run, daemon=True).start()
    return told


def make_patiently(c: Connection, name: str) -> str:
    """Makes a stream, however long it takes. The snapshot of what is before it, which is there until the next word."""
    c.execute("SET statement_timeout = 0")
    c.execute("SET idle_in_transaction_session_timeout = 0")
    return streams.make_with_snapshot(c, name)


def run_while(words: List[str], still: Still) -> "subprocess.CompletedProcess[bytes]":
    """What a program has printed, which is ended if nobody wants the copy any more: its server may stand still."""
    with subprocess.Popen(words, stdout=subprocess.PIPE, stderr=subprocess.PIPE) as process:
        while True:
            with suppress(subprocess.TimeoutExpired):
                printed = process.communicate(timeout=0.2)
                return subprocess.CompletedProcess(words, process.returncode, *printed)
            try:
                check(still)
            except BaseException:
                process.kill()
                raise


def rows_of(reach: str, snapshot: str, what: str, check_on: Callable[[int], None]) -> Iterator[bytes]:
    """A table's rows in a snapshot of another server, in pieces. (psql reads them: psycopg has a call for each row.)"""
    words = ["psql", "-qXAt", "-v", "ON_ERROR_STOP=1", "-d", reach, "-c", "BEGIN ISOLATION LEVEL REPEATABLE READ READ ONLY"]
    words += ["-c", f"SET TRANSACTION SNAPSHOT '{snapshot}'", "-c", f"COPY {what} TO STDOUT"]
    with subprocess.Popen(words, stdout=subprocess.PIPE, stderr=subprocess.PIPE) as process:
        try:
            assert process.stdout is not None and process.stderr is not None
            number, size = process.stdout.fileno(), 0
            while True:
                check_on(size)
                if select.select([number], [], [], 0.2)[0]:
                    piece = os.read(number, PIECE)
                    size += len(piece)
                    if not piece:
                        break
                    yield piece
            told = process.stderr.read()
            if process.wait():
                raise Stuck(f"the rows do not come: {told.decode(errors='replace').strip()[-300:]}")
        finally:
            process.kill()


def put_rows(tx: Connection, what: str, rows: Iterator[bytes]) -> None:
    """Writes rows into a table. (psycopg would keep them all while the server is slower; and if they end amid the table
    it raises what the server says of that, not why.)"""
    why: Optional[BaseException] = None
    try:
        with tx.cursor() as cursor, cursor.copy(f"COPY {what} FROM STDIN") as copy:
            try:
                for piece in rows:
                    copy.write(piece)
                    while tx.pgconn.flush():
                        select.select([], [tx.fileno()], [], 1.0)
            except BaseException as it:
                why = it
                raise
    except psycopg.errors.QueryCanceled:
        if why is not None:
            raise why from None
        raise


class Copies:
    """The copies that this server makes."""

    def __init__(self, server: "Server") -> None:
        self.server = server

    def make(self, shard: str, number: int, still: Still, said_of: Callable[[str], None], waits: bool = True) -> None:
        """Copies a shard from another server, and follows it. Whoever calls has the shard's hands. While its source makes enough copies, this waits, or is
        stuck: threads that look at shards may not all wait, as other shards are in a handover."""
        there = self.server.peer(number)
        self.server.sources.check_copies(self.server.number, number)
        self.admit(there, shard, still, said_of, waits)
        since = time.monotonic()
        self.server.say("copies", shard, "from", self.server.names[number])
        with self.telling(there, shard):
            if not value(there.row("SELECT sm.part(%s, %s)", shard, self.server.number)):
                raise Stuck("the source has forgotten that a copy begins")
            self.clear(shard, number)
            with self.server.database.connection() as c:
                mine, publication = streams.name_of(c, shard, self.server.number), streams.name_of(c, shard)
            streams.drop_stream(there, mine)
            with closing(there.connect(replication="database")) as source:
                snapshot = self.begin_stream(source, mine, still, said_of)
                self.copy_schema(there, shard, still)
                said_of("copies")
                self.copy_rows(there, shard, snapshot, self.watching(number, shard, still))
            reach = self.server.peers[number].reach
            with self.server.database.connection() as c:
                c.execute(said("CREATE PUBLICATION {} FOR TABLES IN SCHEMA {} WITH (publish = '')", publication, shard))
                streams.follow(c, mine, publication, reach or "")
            self.wait(number, shard, still, said_of)
        self.server.say("copied", shard, "from", self.server.names[number], f"in {time.monotonic() - since:.2f} s")

    def admit(self, there: Database, shard: str, still: Still, said_of: Callable[[str], None], waits: bool) -> None:
        """Waits until its source makes few enough copies. If it has waited, the copy before is about to be handed over:
        then it also waits until that is done, since a copy would slow it down."""
        is_behind = False
        while not value(there.row("SELECT sm.copy(%s, %s, %s)", shard, self.server.number, self.server.limits.at_once)):
            if not waits:
                raise Stuck("waits for other copies")
            said_of("waits for other copies")
            check(still)
            is_behind = True
            time.sleep(0.2)
        if is_behind:
            self.wait_for_handovers(there, still, said_of)

    def wait_for_handovers(self, there: Database, still: Still, said_of: Callable[[str], None]) -> None:
        """Waits until a source hands nothing over, nor is about to: not for long."""
        until = time.monotonic() + PATIENCE
        rest = ABOUT
        while time.monotonic() < until:
            said_of("waits for a handover")
            time.sleep(rest)
            check(still)
            if not value(there.row("SELECT EXISTS (SELECT FROM sm.slots WHERE cell = %s)", int(Cell.FORWARDING))):
                return
            rest = 0.05

    @contextmanager
    def telling(self, there: Database, shard: str) -> Iterator[None]:
        """Tells a source all the time that a copy from it goes on, and at last that it has ended. (Nobody reads its stream while the schema is made, and the
        source drops it if it hears nothing.)"""
        ended = threading.Event()

        def tell() -> None:
            while not ended.wait(TELLING):
                with suppress(psycopg.Error):
                    there.row("SELECT sm.copy(%s, %s, 1000)", shard, self.server.number)

        teller = begun(tell)
        try:
            yield
        finally:
            ended.set()
            wait([teller])
            with suppress(psycopg.Error):  # (it is forgotten after a while)
                there.do("DELETE FROM sm.copied WHERE shard = %s AND server = %s", shard, self.server.number)

    def begin_stream(self, c: Connection, mine: str, still: Still, said_of: Callable[[str], None]) -> str:
        """Makes a stream at its source, which waits for the transactions that run there, however long they take. Gives
        the snapshot of what is before it. (No transaction is open here meanwhile, as by CREATE SUBSCRIPTION: two
        servers that copy from each other would wait for ever.)"""
        made = begun(make_patiently, c, mine)
        try:
            while not wait([made], 0.2).done:
                said_of("waits for transactions that are open at the source")
                check(still)
        except GivenUp:
            shut(c)
            raise
        return str(made.result())

    def clear(self, shard: str, number: int) -> None:
        """Deletes what an attempt before has left, and the old copy of a follower; never a schema that it did not make."""
        with self.server.database.connection() as c:
            mine = streams.name_of(c, shard, self.server.number)
        streams.halt(self.server.database, mine)
        with self.server.database.transaction() as tx:
            it = Records(tx)
            is_own = value(tx.execute("SELECT EXISTS (SELECT FROM sm.copying WHERE shard = %s)", (shard,)).fetchone())
            is_replica = it.slot(shard).cell in (Cell.SECONDARY, Cell.PREPARED) and it.is_adopted(shard)
            if not is_own and not is_replica and has_schema(tx, shard):
                raise Stuck(f"there is a schema {shard} that is no copy: rename it, or `smplan-pg drop` it")
            kept = it.kept(shard)
            if kept is None and is_replica and it.is_whole(shard):
                kept = keep(tx, shard, self.server.number)
            delete(tx, shard, self.server.number)
            tx.execute("INSERT INTO sm.copying (shard, source, kept) VALUES (%s, %s, %s) ON CONFLICT (shard) DO UPDATE "
                       "SET source = excluded.source, since = now(), kept = excluded.kept", (shard, number, kept))
            it.put_source(shard, number, False)
        streams.drop_streams(self.server.database, shard)

    def copy_schema(self, there: Database, shard: str, still: Still) -> None:
        """Makes the schema with its tables, indexes and functions, all or nothing of it."""
        dump = ["pg_dump", "-d", make_conninfo(there.reach, options=""), "--schema-only", "--no-publications", "--no-subscriptions", "-n", quoted(shard)]
        told = run_while(dump, still)
        if told.returncode:
            raise Stuck(f"pg_dump: {told.stderr.decode(errors='replace').strip()[-300:]}")
        make = ["psql", "-qX1", "-v", "ON_ERROR_STOP=1", "-d", make_conninfo(self.server.database.reach, options=f"{OWN} -c client_min_messages=warning")]
        told = subprocess.run(make, input=told.stdout, capture_output=True, check=False)
        if told.returncode:
            raise Stuck(f"the schema is not made: {told.stderr.decode(errors='replace').strip()[-300:]}")

    def copy_rows(self, there: Database, shard: str, snapshot: str, check_on: Callable[[int], None]) -> None:
        """Copies the rows of a snapshot, each table in a transaction: who makes a stream here waits for that alone. (A
        subscription would make a stream for each table, and each makes all others store where they are.)"""
        with self.server.database.connection() as c:
            tables, mine = c.execute(TABLES, (shard,)).fetchall(), streams.name_of(c, shard, self.server.number)
            encoding = c.info.parameter_status("server_encoding") or ""
        reach = make_conninfo(there.reach, options=FORMS, client_encoding=encoding, application_name=mine)
        for it in tables:
            what = f"{it['name']} ({it['columns']})"
            with self.server.database.transaction() as tx, closing(rows_of(reach, snapshot, what, check_on)) as rows:
                tx.execute(PUTTING)
                tx.execute("SELECT set_config('client_encoding', %s, true)", (encoding,))
                put_rows(tx, what, rows)

    def watching(self, number: int, shard: str, still: Still) -> Callable[[int], None]:
        """What stops a copy that nobody wants any more, or that does not get on by what is told, or whose source is
        gone or has dropped its stream."""
        seen, since, wanted, asked = -1, 0.0, 0.0, 0.0

        def check_on(now: int) -> None:
            nonlocal seen, since, wanted, asked
            clock = self.server.silence.now()
            seen, since = (seen, since) if now == seen else (now, clock)
            if clock - since > 10 * self.server.limits.stalled:
                raise Stuck("the copy does not get on: it begins anew")
            if time.monotonic() > wanted:
                wanted = time.monotonic() + 0.2
                check(still)
            if time.monotonic() > asked:
                asked = time.monotonic() + 1.0
                self.server.sources.check(shard, number)
        return check_on

    def wait(self, number: int, shard: str, still: Still, said_of: Callable[[str], None]) -> None:
        """Waits until all that the source had executed by now is here."""
        check_on = self.watching(number, shard, still)
        goal = value(self.server.peer(number).row("SELECT sm.position(%s)", shard))
        said_of("copied; catches up")
        while (position := value(self.server.database.row("SELECT sm.position(%s)", shard))) < goal:
            check_on(position)
            time.sleep(0.02)

    def end(self, tx: Connection, shard: str) -> None:
        """The copy is whole: nobody needs the old one, unless that has writes that the new one has not."""
        kept = value(tx.execute("DELETE FROM sm.copying WHERE shard = %s RETURNING kept", (shard,)).fetchone())
        if kept is not None:
            why = REPLACED if Records(tx).begins(kept, shard) else LACKING
            tx.execute("INSERT INTO sm.asides (schema, shard, why) VALUES (%s, %s, %s)", (kept, shard, why))

    def put_back(self, tx: Connection, shard: str) -> bool:
        """Puts an old copy back in place of one that is not whole and will not be. Whether there was one. The subscription is halted before."""
        kept = Records(tx).kept(shard)
        if kept is None:
            return False
        delete(tx, shard, self.server.number)
        tx.execute("DELETE FROM sm.copying WHERE shard = %s", (shard,))
        tx.execute(said("ALTER SCHEMA {} RENAME TO {}", kept, shard))
        tx.execute(said("CREATE PUBLICATION {} FOR TABLES IN SCHEMA {} WITH (publish = '')", streams.name_of(tx, shard), shard))
        Records(tx).put_source(shard, None, True)
        return True

    def is_copying(self, tx: Connection, shard: str) -> bool:
        """Whether what is here of a shard is a copy that is not whole."""
        return value(tx.execute("SELECT EXISTS (SELECT FROM sm.copying WHERE shard = %s)", (shard,)).fetchone())


def quoted(name: str) -> str:
    """A schema's name as a pattern of pg_dump that fits it alone."""
    return '"' + name.replace('"', '""') + '"'


def has_schema(tx: Connection, shard: str) -> bool:
    """Whether there is a schema of this name."""
    return tx.execute("SELECT FROM pg_namespace WHERE nspname = %s", (shard,)).fetchone() is not None


def keep(tx: Connection, shard: str, number: int) -> str:
    """Renames an old copy, which then stands beside the new one."""
    tx.execute(said("DROP PUBLICATION IF EXISTS {}", streams.name_of(tx, shard)))
    kept = value(tx.execute("SELECT 'sm_aside_' || to_char(clock_timestamp(), 'YYYYMMDDHH24MISSUS_') || left(md5(%s), 8)", (shard,)).fetchone())
    tx.execute(said("ALTER SCHEMA {} RENAME TO {}", shard, kept))
    streams.drop_subscription(tx, streams.name_of(tx, shard, number))  # (last, as no stream begins here behind it)
    return kept


def delete(tx: Connection, shard: str, number: int) -> None:
    """Deletes a shard's data, publication and subscription. The schema gets another name, and is dropped soon: that may
    wait for who reads it, or gathers its statistics, and no stream would begin at this server meanwhile. What the
    copying of tables has left at the source is dropped later, too."""
    tx.execute("INSERT INTO sm.left_behind SELECT source, format('pg_%%s_sync_', s.oid) FROM sm.copying, pg_subscription s WHERE shard = %s AND subname = sm.stream(%s, %s) "
               "ON CONFLICT DO NOTHING", (shard, shard, number))
    if has_schema(tx, shard):
        kept = keep(tx, shard, number)
        tx.execute("INSERT INTO sm.asides (schema, shard, why) VALUES (%s, %s, %s)", (kept, shard, DELETED))
    else:
        streams.drop_subscription(tx, streams.name_of(tx, shard, number))
        tx.execute(said("DROP PUBLICATION IF EXISTS {}", streams.name_of(tx, shard)))


def remove(tx: Connection, shard: str, number: int) -> None:
    """Deletes a shard's data, publication and subscription, and what stands beside its slot."""
    delete(tx, shard, number)
    forget_copy(tx, shard)


def set_aside(tx: Connection, shard: str, number: int, why: str) -> None:
    """Renames a shard's schema, which waits for nobody who reads it, and keeps it until somebody deletes it."""
    if has_schema(tx, shard):
        tx.execute("INSERT INTO sm.asides (schema, shard, why) VALUES (%s, %s, %s)", (keep(tx, shard, number), shard, why))
    forget_copy(tx, shard)


def forget_copy(tx: Connection, shard: str) -> None:
    """Deletes what is kept of a copy that is gone."""
    kept = value(tx.execute("DELETE FROM sm.copying WHERE shard = %s RETURNING kept", (shard,)).fetchone())
    if kept is not None:
        tx.execute("INSERT INTO sm.asides (schema, shard, why) VALUES (%s, %s, 'a copy of before, beside one that came to nothing') ON CONFLICT DO NOTHING", (kept, shard))
    tx.execute("UPDATE sm.slots SET source = NULL, is_whole = false, sealed = NULL, sealed_view = NULL, sealed_position = NULL WHERE shard = %s", (shard,))
