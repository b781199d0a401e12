"""One PostgreSQL server: what may be adopted, the guard, requests and their identities, positions, changes of a schema, and what is refused."""
import contextlib
import itertools
import os
import shutil
import signal
import socket
import socketserver
import struct
import subprocess
import tempfile
import threading
import time
import unittest
from concurrent.futures import ThreadPoolExecutor
from pathlib import Path
from unittest import mock

import servers  # (it makes the packages be found)
import psycopg
from smplan import agent
from smplan.agent import Base, Cell, Request, Slot
from smplan.control_http import fetch
from smplan.failure import Failure
from smplan_pg import adopt, copies, orders, silence, status, streams
from smplan_pg.database import Database, signed, unsigned, value
from smplan_pg.records import Cut, Mark, Peer, Records
from smplan_pg.server import Limits, Server
from smplan_pg.silence import SILENT, Silence, patiently

TABLES = "CREATE SCHEMA {0}; CREATE TABLE {0}.things (id bigserial PRIMARY KEY, word text)"
VECTORS = Path(servers.ROOT) / "build/agent-vectors.txt"


def setUpModule():
    """One server for all."""
    global FOLDER, POST, DATABASE
    FOLDER = Path(tempfile.mkdtemp(prefix="pg-test-", dir="/dev/shm"))
    os.chmod(FOLDER, 0o777)
    POST = servers.Postgres(FOLDER, "a", servers.free_ports(1)[0], 20, 3)
    if POST.make().wait():
        raise SystemExit("initdb failed")
    POST.start()
    POST.wait()
    DATABASE = Database(POST.reach)


def tearDownModule():
    DATABASE.close()
    POST.kill()
    shutil.rmtree(FOLDER)


def serve(shard, cell=Cell.PRIMARY, **rest):
    """Makes this server number 1, with a slot."""
    with DATABASE.transaction() as tx:
        it = Records(tx)
        tx.execute("UPDATE sm.state SET me = 1, name = 'a'")
        it.put_base(Base(journal=9, number=0, known=1), 0)
        it.put_slot(shard, Slot(cell=cell, load=1, **rest))
        it.put_source(shard, None, True)


class Case(unittest.TestCase):
    """A test with a shard of its own."""

    count = itertools.count()

    def setUp(self):
        self.shard = f"it{next(Case.count)}"
        POST.query(TABLES.format(self.shard))
        self.clients = []

    def tearDown(self):
        for it in self.clients:
            it.close()

    def client(self):
        self.clients.append(psycopg.connect(POST.reach, autocommit=True, row_factory=psycopg.rows.dict_row))
        return self.clients[-1]

    def adopt(self, **slot):
        adopt.adopt(DATABASE, [self.shard])
        if slot:
            serve(self.shard, **slot)

    def enter(self, c, request, *passed):
        return c.execute(f"SELECT * FROM sm.enter(%s, %s{', %s' * len(passed)})", (self.shard, request, *passed)).fetchone()


class AdoptTest(Case):
    """What can't be moved is named with its remedy, and nothing is changed."""

    def faults(self, statement):
        POST.query(statement.format(self.shard))
        with self.assertRaises(Failure) as told:
            self.adopt()
        self.assertFalse(DATABASE.row("SELECT sm.is_adopted(%s) AS it", self.shard)["it"])
        self.assertIn("Nothing was changed", str(told.exception))
        return str(told.exception)

    def test_each_thing_that_stays_behind(self):
        with DATABASE.transaction() as tx:
            adopt.install(tx)
        for statement, words in (
                ("CREATE TABLE {0}.bare (n int)", ("bare has no primary key", "ADD PRIMARY KEY")),
                ("CREATE TABLE {0}.nobody (n int PRIMARY KEY); ALTER TABLE {0}.nobody REPLICA IDENTITY NOTHING", ("nobody has no replica identity",)),
                ("CREATE UNLOGGED TABLE {0}.fast (n int PRIMARY KEY)", ("fast is unlogged", "SET LOGGED")),
                ("CREATE TABLE {0}.large (n int PRIMARY KEY, o oid)", ("large.o may name large objects", "bytea")),
                ("CREATE TABLE public.{0}_far (n int PRIMARY KEY); CREATE TABLE {0}.near (n int PRIMARY KEY REFERENCES public.{0}_far)", ("leaves the schema",)),
                ("CREATE TABLE public.{0}_top (n int PRIMARY KEY); CREATE TABLE {0}.below (PRIMARY KEY (n)) INHERITS (public.{0}_top)", ("inherits across",)),
                ("CREATE MATERIALIZED VIEW {0}.seen AS SELECT 1 AS n", ("materialized view",)),
                ("CREATE TRIGGER twice BEFORE UPDATE ON {0}.things FOR EACH ROW EXECUTE FUNCTION suppress_redundant_updates_trigger(); "
                 "ALTER TABLE {0}.things ENABLE ALWAYS TRIGGER twice", ("fires for what replication brings",)),
                ("CREATE PUBLICATION mine_{0} FOR TABLE {0}.things", ("stays behind", "drop it"))):
            with self.subTest(statement):
                told = self.faults(statement)
                for it in words:
                    self.assertIn(it, told)
            POST.query(f"DROP SCHEMA {self.shard} CASCADE")
            self.setUp()

    def test_a_schema_that_is_not_there_or_has_a_long_name(self):
        with self.assertRaisesRegex(Failure, "there is no schema nowhere"):
            adopt.adopt(DATABASE, ["nowhere"])
        POST.query(TABLES.format("a" * 33))
        with self.assertRaisesRegex(Failure, "more than 32 bytes"):
            adopt.adopt(DATABASE, ["a" * 33])

    def test_adopted_twice_and_dropped(self):
        self.assertEqual(adopt.adopt(DATABASE, [self.shard]), [self.shard])
        self.assertEqual(adopt.adopt(DATABASE, [self.shard]), [])
        status.drop(DATABASE, [self.shard], False, False)
        POST.query(f"INSERT INTO {self.shard}.things (word) VALUES ('plain again')")
        self.assertEqual(POST.query("SELECT count(*) FROM pg_publication_namespace JOIN pg_namespace n ON n.oid = pnnspid WHERE nspname = %s", (self.shard,)), [(0,)])
        with self.assertRaisesRegex(Failure, "is no shard"):
            status.drop(DATABASE, [self.shard], False, False)

    def test_what_is_served_is_not_dropped(self):
        self.adopt(cell=Cell.PRIMARY)
        with self.assertRaisesRegex(Failure, "is served or followed here"):
            status.drop(DATABASE, [self.shard], False, False)


class RequestTest(Case):
    """The guard, identities and counters."""

    def setUp(self):
        super().setUp()
        self.adopt(cell=Cell.PRIMARY)

    def test_executed_once(self):
        c = self.client()
        for answer, reply in ((12, None), (11, "7")):
            with c.transaction():
                told = self.enter(c, "r1")
                self.assertEqual((told["answer"], told["reply"]), (answer, reply))
                if answer == 12:
                    c.execute("INSERT INTO things (word) VALUES ('x')")
                    c.execute("SELECT sm.reply(%s, 'r1', '7')", (self.shard,))
        self.assertEqual(value(c.execute("SELECT sm.position(%s)", (self.shard,)).fetchone()), 1)
        self.assertTrue(value(c.execute("SELECT sm.acknowledged(%s)", (self.shard,)).fetchone()))

    def test_what_is_rolled_back_was_not_executed(self):
        c = self.client()
        with c.transaction(force_rollback=True):
            self.assertEqual(self.enter(c, "r1")["answer"], 12)
        with c.transaction():
            self.assertEqual(self.enter(c, "r1")["answer"], 12)

    def test_two_at_once_with_one_identity(self):
        one, other, told = self.client(), self.client(), []
        one.execute("BEGIN")
        self.assertEqual(self.enter(one, "r1")["answer"], 12)
        waiting = threading.Thread(target=lambda: told.append(self.enter(other, "r1")["answer"]))
        waiting.start()
        time.sleep(0.1)
        self.assertEqual(told, [])
        one.execute("COMMIT")
        waiting.join()
        self.assertEqual(told, [11])

    def test_writers_do_not_queue(self):
        clients = [self.client() for _ in range(20)]
        for n, c in enumerate(clients):
            c.execute("BEGIN; SET LOCAL lock_timeout = '1s'")
            self.assertEqual(self.enter(c, f"r{n}")["answer"], 12)
        for c in clients:
            c.execute("COMMIT")
        self.assertEqual(value(DATABASE.row("SELECT sm.position(%s)", self.shard)), 20)

    def test_a_read_leaves_no_identity_and_writes_nothing_unguarded(self):
        c = self.client()
        with c.transaction():
            self.assertEqual(self.enter(c, None)["answer"], 12)
            self.assertEqual(c.execute("SELECT count(*) AS n FROM things").fetchone()["n"], 0)
        self.assertEqual(POST.query(f"SELECT count(*) FROM {self.shard}.sm_requests"), [(0,)])

    def test_an_older_snapshot_is_refused(self):
        c = self.client()
        with self.assertRaisesRegex(psycopg.Error, "read committed"), c.transaction():
            c.execute("SET TRANSACTION ISOLATION LEVEL REPEATABLE READ")
            self.enter(c, "r1")

    def test_plain_statements_only_where_it_is_served(self):
        c = self.client()
        c.execute(f"INSERT INTO {self.shard}.things (word) VALUES ('x')")
        self.assertEqual(value(DATABASE.row("SELECT sm.position(%s)", self.shard)), 1)
        for cell in (Cell.ABSENT, Cell.PREPARED, Cell.SECONDARY, Cell.FORWARDING):
            serve(self.shard, cell)
            for statement in ("INSERT INTO {0}.things (word) VALUES ('y')", "UPDATE {0}.things SET word = 'z'", "DELETE FROM {0}.things", "TRUNCATE {0}.things"):
                with self.assertRaisesRegex(psycopg.Error, "is not served here"):
                    c.execute(statement.format(self.shard))

    def test_commits_are_durable_though_a_client_wants_them_fast(self):
        c = self.client()
        c.execute("SET synchronous_commit = off")
        with c.transaction():
            self.enter(c, "r1")
            self.assertEqual(c.execute("SHOW synchronous_commit").fetchone()["synchronous_commit"], "local")

    def test_not_acknowledged_without_a_member(self):
        with DATABASE.transaction() as tx:
            Records(tx).put_members(self.shard, {2: False})
        c = self.client()
        self.assertFalse(value(c.execute("SELECT sm.acknowledged(%s, '50 ms')", (self.shard,)).fetchone()))
        serve(self.shard, Cell.SECONDARY)
        self.assertFalse(value(c.execute("SELECT sm.acknowledged(%s)", (self.shard,)).fetchone()))

    def test_old_identities_go(self):
        c = self.client()
        for it in ("old", "new"):
            with c.transaction():
                self.enter(c, it)
        POST.query(f"UPDATE {self.shard}.sm_requests SET at = now() - interval '2 h' WHERE id = 'old'")
        self.assertEqual(value(DATABASE.row("SELECT sm.forget_requests(%s, '1 h')", self.shard)), 1)
        self.assertEqual(POST.query(f"SELECT id FROM {self.shard}.sm_requests"), [("new",)])
        self.assertEqual(value(DATABASE.row("SELECT sm.position(%s)", self.shard)), 3)


class RouteTest(Case):
    """Routes are those of the agent's port, which passes the proved functions' vectors."""

    def test_all_kinds_and_flags(self):
        self.adopt()
        cases = []
        for known, fenced, cell, at_work, has_cut, passed, party, handover, applied, cut in itertools.product(
                (0, 1), (0, 1), range(6), (0, 9), (0, 1), (0, 1), (1, 2), (1, 2), (3, 4, 5), (0, 4)):
            base, slot = Base(journal=1, number=1, known=known, fenced=fenced), Slot(cell, 1, 1, 1, at_work, 1, 4 if has_cut else 0, has_cut)
            answer, _ = agent.route(base, slot, applied, Request(handover, cut, party, passed))
            cases.append((known, fenced, int(cell), at_work, 4 if has_cut else 0, has_cut, applied, bool(passed), handover, cut, party, int(answer)))
        with DATABASE.transaction() as tx:
            tx.execute("CREATE TEMP TABLE cases (known int, fenced int, cell int, at_work bigint, cut bigint, has_cut int, applied bigint, passed bool, handover bigint, "
                       "passed_cut bigint, party int, answer int) ON COMMIT DROP")
            with tx.cursor() as cursor:
                cursor.executemany(f"INSERT INTO cases VALUES ({', '.join(['%s'] * 12)})", cases)
            rows = tx.execute("SELECT count(*) AS n FROM cases WHERE answer IS DISTINCT FROM sm.route(known, fenced, ROW('s', cell, 1, 1, 1, at_work, 1, cut, has_cut, "
                              "NULL, false, NULL, NULL, NULL, NULL)::sm.slots, applied, passed, handover, passed_cut, party)").fetchone()
        self.assertEqual((rows["n"], len(cases)), (0, 4608))

    def test_the_agent_decides_if_it_is_there(self):
        self.adopt()
        slot = "ROW('s', 4, 1, 1, 1, 0, 1, 0, 0, NULL, false, NULL, NULL, NULL, NULL)::sm.slots"
        with DATABASE.transaction() as tx, tx.transaction(force_rollback=True):
            tx.execute("CREATE OR REPLACE FUNCTION sm.agent(name text, numbers bigint[]) RETURNS bigint[] LANGUAGE sql IMMUTABLE STRICT AS "
                       "$$ SELECT ARRAY[cardinality(numbers)] WHERE name = 'route' $$")
            rows = tx.execute(f"SELECT sm.route(1, 0, it, 0, false, 0, 0, NULL) FROM (VALUES ({slot}), (NULL)) its (it)").fetchall()
        self.assertEqual([value(it) for it in rows], [18, 14])

    def test_vectors_through_the_extension(self):
        self.adopt()
        if not VECTORS.exists() or value(DATABASE.row("SELECT to_regprocedure('sm.agent(text, bigint[])') IS NULL")):
            self.skipTest("smplan_agent is not installed")
        wrong = []
        with DATABASE.connection() as c:
            for line in VECTORS.read_text().splitlines():
                asked, told = line.split(" = ")
                name, *numbers = asked.split()
                answer = value(c.execute("SELECT sm.agent(%s, %s::bigint[])", (name, [signed(int(it)) for it in numbers])).fetchone())
                if [unsigned(it) for it in answer] != [int(it) for it in told.split()]:
                    wrong.append((line, answer))
        self.assertEqual(wrong[:3], [])


# What schema sm has, in words.
MADE = """SELECT pg_get_functiondef(oid) FROM pg_proc WHERE pronamespace = 'sm'::regnamespace
  UNION ALL SELECT concat_ws(' ', attrelid::regclass, attnum, attname, format_type(atttypid, atttypmod), attnotnull, pg_get_expr(adbin, adrelid))
    FROM pg_attribute a JOIN pg_class c ON c.oid = attrelid LEFT JOIN pg_attrdef ON adrelid = attrelid AND adnum = attnum
    WHERE relnamespace = 'sm'::regnamespace AND attnum > 0 AND NOT attisdropped
  UNION ALL SELECT concat_ws(' ', conrelid::regclass, pg_get_constraintdef(oid)) FROM pg_constraint WHERE connamespace = 'sm'::regnamespace
  UNION ALL SELECT concat_ws(' ', evtname, evtevent, evtfoid::regproc) FROM pg_event_trigger ORDER BY 1"""

# The commits with the texts of older versions, from that on whose shards have the tables of now.
OLDER = (("86969a7b1d8d4e0dc1b4166589172c8e9bde755c", "1.0"), ("c21182cef3621f23d2135508f3de08a1418b0f11", "1.0"), ("a9d2eeeb3f3e3fc9afa5e9d6fd16f83db2bb4b27", "1.0"),
         ("2604bc8e5185c110b56af0183e6ab5509ce82694", "1.0"), ("a3322cdeae32ff7122f6d9a762e90490cf446412", "1.0"), ("1c290fccdf972bc920e305b7a7d5213b0ab496c0", "1.1"),
         ("a79f44e23c33328868dbe9e2fbeb726821d89410", "1.2"))


# A subscription as such a version has made it.
STREAM = "sm_it_0d149b90_1"


class UpgradeTest(unittest.TestCase):
    """A schema sm that an older text has made becomes as one that is made now, and keeps what is in it."""

    def database(self, name):
        POST.query(f"CREATE DATABASE {name}")
        its = Database(POST.reach.replace("dbname=postgres", f"dbname={name}"))
        self.addCleanup(POST.query, f"DROP DATABASE {name}")
        self.addCleanup(its.close)
        return its

    def made(self, database):
        with database.transaction() as tx:
            adopt.install(tx)
            return [value(it) for it in tx.execute(MADE).fetchall()]

    def test_from_older_texts(self):
        wanted = self.made(self.database("now"))
        for commit, version in OLDER:
            words = ["git", "-C", str(servers.ROOT), "show", f"{commit}:ports/postgresql/extension/smplan--{version}.sql"]
            told = subprocess.run(words, capture_output=True, text=True, check=False)
            if told.returncode:
                self.skipTest("the repository has no history here")
            database = self.database(f"from_{commit[:8]}")
            with database.transaction() as tx:
                tx.execute(told.stdout)
                tx.execute(TABLES.format("it") + "; SELECT sm.adopt('it'); UPDATE sm.state SET known = 1; INSERT INTO sm.slots VALUES ('it', 4, 0, 0, 0, 0, 1, 0, 0)")
                tx.execute(f"CREATE SUBSCRIPTION {STREAM} CONNECTION '' PUBLICATION it WITH (connect = false, slot_name = NONE)")
                self.assertEqual(adopt.version_of(tx), tuple(int(it) for it in version.split(".")))
            self.assertEqual(self.made(database), wanted)
            self.assertEqual(self.made(database), wanted)
            with database.transaction() as tx:
                self.assertEqual(adopt.version_of(tx), adopt.VERSION)
                self.assertEqual(tx.execute("SELECT answer FROM sm.enter('it', 'r1')").fetchone(), {"answer": 12})
                tx.execute("INSERT INTO it.things (word) VALUES ('x')")
                self.assertTrue(value(tx.execute("SELECT substream FROM pg_subscription WHERE subname = %s", (STREAM,)).fetchone()))
                tx.execute(f"DROP SUBSCRIPTION {STREAM}")


class RecordTest(Case):
    """Bases, slots and a shard's own tables."""

    def test_numbers_of_64_bits(self):
        self.adopt(cell=Cell.PRIMARY)
        with DATABASE.transaction() as tx:
            Records(tx).put_base(Base(journal=(1 << 64) - 1, number=5, nonce=1 << 63, known=0), 7)
            self.assertEqual((Records(tx).base(), Records(tx).heard()), (Base((1 << 64) - 1, 5, 1 << 63, 0, 0), 7))

    def test_a_cut_carries_sequences_and_wakes_listeners(self):
        self.adopt(cell=Cell.PRIMARY)
        c = self.client()
        told = []
        c.add_notify_handler(lambda it: told.append(it.payload))
        c.execute("LISTEN sm_cut")
        POST.query(f"INSERT INTO {self.shard}.things (word) VALUES ('x'), ('y')")
        with DATABASE.transaction() as tx:
            Records(tx).put_cut(self.shard, Cut(3, 1, 2, {}))
        with DATABASE.transaction() as tx:
            self.assertEqual(Records(tx).cut(self.shard), Cut(3, 1, 2, {"things_id_seq": 2}))
            self.assertEqual(Records(tx).mark(self.shard), Mark(0, 1))
            tx.execute("SELECT sm.set_sequences(%s, '{\"things_id_seq\": 41}')", (self.shard,))
            tx.execute("SELECT sm.advance_sequences(%s)", (self.shard,))
        self.assertEqual(POST.query(f"SELECT nextval('{self.shard}.things_id_seq')"), [(42,)])
        c.execute("SELECT 1")
        self.assertEqual(told, [self.shard])

    def test_sequences_go_behind_what_is_there(self):
        self.adopt(cell=Cell.PRIMARY)
        POST.query(f"INSERT INTO {self.shard}.things VALUES (90, 'x')")
        DATABASE.row("SELECT sm.advance_sequences(%s)", self.shard)
        self.assertEqual(POST.query(f"SELECT nextval('{self.shard}.things_id_seq')"), [(91,)])

    def test_names_of_streams(self):
        for shard in ("s", "Öl-Schiff 7", "x" * 63):
            told = [value(DATABASE.row("SELECT sm.stream(%s, %s)", shard, it)) for it in (1, 12, 1 << 30)]
            self.assertEqual(len(set(told)), 3)
            for it in told:
                self.assertRegex(it, r"^sm_[a-z0-9_]{1,60}$")


class StreamTest(Case):
    """What a stream tells: the changes of a transaction as the publication was at each of them, so that a cut is the last, and what a primary begins with the
    first."""

    def told(self, c, name):
        rows = c.execute("SELECT data FROM pg_logical_slot_get_binary_changes(%s, NULL, NULL, 'proto_version', '1', 'publication_names', %s)",
                         (name, streams.name_of(c, self.shard))).fetchall()
        return [chr(it["data"][0]) for it in rows if it["data"][:1] in (b"I", b"D", b"U")]

    def test_around_a_change_of_the_publication(self):
        self.adopt(cell=Cell.PRIMARY)
        streams.make_stream(DATABASE, self.shard, 2, 60.0)
        c = self.client()
        name = streams.name_of(c, self.shard, 2)
        for before, after in (("", streams.ALL), (streams.ALL, "")):
            with c.transaction():
                streams.publish(c, self.shard, before)
            with c.transaction():
                c.execute(f"DELETE FROM {self.shard}.sm_views")
                c.execute(f"INSERT INTO {self.shard}.sm_cut VALUES (7, 1, 1, '{{}}')" if after == "" else "SELECT 1")
                streams.publish(c, self.shard, after)
                c.execute(f"INSERT INTO {self.shard}.sm_views VALUES (1, 1)")
            found = self.told(c, name)
            self.assertEqual(found, ["I"] if after else ["D", "I"])
        streams.drop_stream(DATABASE, name)


    def test_dropped_while_the_copy_of_a_table_waits_at_the_source(self):
        POST.query("CREATE DATABASE far")
        far = POST.reach.replace("dbname=postgres", "dbname=far")
        with psycopg.connect(far, autocommit=True) as there, psycopg.connect(far) as other:
            there.execute(f"CREATE SCHEMA {self.shard}; CREATE TABLE {self.shard}.things (id int PRIMARY KEY, word text); CREATE PUBLICATION p FOR TABLE {self.shard}.things")
            there.execute("SELECT pg_create_logical_replication_slot('sm_far', 'pgoutput')")
            other.execute("SELECT txid_current()")
            with DATABASE.connection() as c:
                c.execute(streams.said("CREATE SUBSCRIPTION sm_far CONNECTION {reach} PUBLICATION p WITH (" + streams.STREAM + ")", reach=far, name="sm_far"))
                while not c.execute("SELECT FROM pg_replication_slots WHERE slot_name LIKE 'pg#_%' ESCAPE '#'").fetchall():
                    time.sleep(0.02)
            streams.halt(DATABASE, "sm_far", 30.0)
            begun = time.monotonic()
            with DATABASE.transaction() as tx:
                tx.execute("SET LOCAL statement_timeout = '20s'")
                streams.drop_subscription(tx, "sm_far")
            self.assertLess(time.monotonic() - begun, 20.0)
            other.rollback()
            database = Database(far)
            streams.drop_stream(database, "sm_far", 30.0)
            database.close()

    def test_made_unless_transactions_are_open_for_long(self):
        self.adopt()
        with psycopg.connect(POST.reach) as other:
            other.execute("SELECT txid_current()")
            self.assertFalse(streams.make_streams(DATABASE, self.shard, [2, 3], 0.5))
            self.assertEqual(POST.query("SELECT slot_name FROM pg_replication_slots"), [])
        self.assertTrue(streams.make_streams(DATABASE, self.shard, [2, 3], 60.0))
        self.assertEqual(len(POST.query("SELECT slot_name FROM pg_replication_slots")), 2)
        streams.drop_streams(DATABASE, self.shard)

    def test_a_source_that_says_nothing(self):
        with socket.create_server(("127.0.0.1", 0)) as mute, mock.patch.object(streams, "ASKING", 500):
            far = f"host=127.0.0.1 port={mute.getsockname()[1]} dbname=it user=it"
            with self.assertRaises(psycopg.errors.QueryCanceled), DATABASE.connection() as c:
                streams.follow(c, "sm_mute", "p", far)
            with self.assertRaises(psycopg.errors.QueryCanceled):
                streams.subscribe(DATABASE, "sm_mute", "p", far)
        self.assertEqual(POST.query("SELECT subname FROM pg_subscription"), [])

    def test_a_copy_tells_its_source_that_it_goes_on_while_the_schema_is_made(self):
        self.adopt(cell=Cell.PRIMARY)
        server, seen = Server("a", DATABASE, POST.reach, []), []
        server.number, server.peers = 1, {2: Peer(2, "b", "", POST.reach)}

        def copy_schema(there, shard, _):
            time.sleep(3.5)
            seen.extend(there.rows("SELECT clock_timestamp() - seen < interval '2.5 s' AS it FROM sm.copied WHERE shard = %s", shard))
            raise streams.Stuck("the schema is not made")

        server.copies.copy_schema, server.beside = copy_schema, ThreadPoolExecutor(1)
        with self.assertRaisesRegex(streams.Stuck, "not made"):  # (a copy needs none of the server's threads but its own)
            server.beside.submit(server.copies.make, "elsewhere", 2, lambda: True, lambda _: None).result(60)
        self.assertEqual((seen, POST.query("SELECT count(*) FROM sm.copied")), ([{"it": True}], [(0,)]))
        streams.drop_streams(DATABASE, "elsewhere")
        POST.query("DELETE FROM sm.copying; INSERT INTO sm.copied VALUES ('x', 3), ('y', 3)")
        with self.assertRaisesRegex(streams.Stuck, "waits for other copies"):
            server.copies.make("elsewhere", 2, lambda: True, lambda _: None, waits=False)
        POST.query("DELETE FROM sm.copied")


class StillTest(Case):
    """Another server's PostgreSQL that stands still is not waited for; its system still takes what comes."""

    def setUp(self):
        super().setUp()
        self.server = Server("a", DATABASE, POST.reach, [])
        self.server.number, self.server.peers = 1, {2: Peer(2, "b", "", POST.reach)}
        self.there = self.server.peer(2)
        self.addCleanup(self.there.close)

    def test_a_question_has_no_answer(self):
        pid, self.there.patience = value(self.there.row("SELECT pg_backend_pid()")), 0.5
        with ThreadPoolExecutor(1) as pool, mock.patch("smplan_pg.database.STILL", 0.5):
            try:
                os.kill(pid, signal.SIGSTOP)
                asked, until = pool.submit(self.there.row, "SELECT 1"), time.monotonic() + 20.0
                while not asked.done() and time.monotonic() < until:
                    self.server.cut_off()
                    time.sleep(0.05)
                self.assertTrue(asked.done())
                self.assertIsInstance(asked.exception(), psycopg.OperationalError)
            finally:
                os.kill(pid, signal.SIGCONT)
        self.assertEqual((value(self.there.row("SELECT 1")), self.there.used), (1, {}))

    def test_a_stream_that_nobody_wants_any_more(self):
        with ThreadPoolExecutor(1) as pool, psycopg.connect(POST.reach) as other, contextlib.ExitStack() as still:
            other.execute("SELECT txid_current()")  # (the stream waits for it)
            making = pool.submit(self.server.copies.begin_stream, self.there.connect(replication="database"), "sm_still", lambda: False, lambda _: still.enter_context(POST.still()))
            self.assertIsInstance(making.exception(20), copies.GivenUp)
        streams.drop_stream(self.there, "sm_still", 30.0)

    def test_a_program_that_nobody_wants_any_more(self):
        begun = time.monotonic()
        with self.assertRaises(copies.GivenUp):
            copies.run_while(["sleep", "60"], lambda: False)
        self.assertLess(time.monotonic() - begun, 20.0)
        told = copies.run_while(["sh", "-c", "sleep 0.5; echo it; exit 3"], lambda: True)
        self.assertEqual((told.stdout, told.returncode), (b"it\n", 3))


class BeginTest(Case):
    """What a list begins with is taken by a copy that is the same alone."""

    def test_compared_where_all_is_copied(self):
        self.adopt(cell=Cell.PRIMARY)
        begin, tables = f"INSERT INTO {self.shard}.sm_begun (view, position) VALUES (%s, %s)", ("sm_begun", "sm_counters", "sm_views")
        with self.client() as c:
            c.execute(streams.said("CREATE SUBSCRIPTION {} CONNECTION 'host=/nowhere' PUBLICATION p WITH (connect = false)", self.shard))
            c.execute("SET allow_system_table_mods = on")
            c.execute("INSERT INTO pg_subscription_rel (srsubid, srrelid, srsubstate) SELECT s.oid, to_regclass(%s || '.' || it), 'd' "
                      "FROM pg_subscription s, unnest(%s::text[]) it WHERE subname = %s", (self.shard, list(tables), self.shard))
        POST.query(f"UPDATE {self.shard}.sm_counters SET writes = 1 WHERE n < 4; INSERT INTO {self.shard}.sm_views VALUES (7, 1)")
        for state, role, mark, is_taken in (("d", "replica", (7, 9), True), ("r", "origin", (7, 9), True), ("r", "replica", (7, 4), False), ("r", "replica", (6, 3), False),
                                            ("r", "replica", (7, 3), True)):
            with self.subTest(state + role), self.client() as c:
                c.execute("SET allow_system_table_mods = on")
                c.execute("UPDATE pg_subscription_rel SET srsubstate = %s", (state,))
                c.execute(f"DELETE FROM {self.shard}.sm_begun")
                c.execute(f"SET session_replication_role = {role}")
                if is_taken:
                    c.execute(begin, mark)
                else:
                    with self.assertRaisesRegex(psycopg.Error, "can't be followed by a copy that has 7/3"):
                        c.execute(begin, mark)
        with DATABASE.transaction() as tx:
            streams.drop_subscription(tx, self.shard)


class SchemaTest(Case):
    """Changes of a schema."""

    def change(self):
        POST.query(f"ALTER TABLE {self.shard}.things ADD COLUMN more int")

    def test_at_rest_and_alone(self):
        self.adopt(cell=Cell.PRIMARY)
        self.change()

    def test_refused_while_it_moves(self):
        for slot in ({"cell": Cell.FORWARDING}, {"cell": Cell.PREPARED}, {"cell": Cell.ABSENT, "at_work": 7}):
            self.adopt(**slot)
            for statement in ("ALTER TABLE {0}.things ADD COLUMN more int", "DROP TABLE {0}.things", "CREATE TABLE {0}.other (n int PRIMARY KEY)", "DROP SCHEMA {0} CASCADE"):
                with self.assertRaisesRegex(psycopg.Error, "moves"):
                    POST.query(statement.format(self.shard))

    def test_refused_while_it_is_copied_with_the_time(self):
        self.adopt(cell=Cell.PRIMARY)
        POST.query("INSERT INTO sm.copied (shard, server, since) VALUES (%s, 2, now() - interval '12 s')", (self.shard,))
        with self.assertRaisesRegex(psycopg.Error, r"moves, for 1\d s so far.*\n.*Try again"):
            self.change()
        POST.query("UPDATE sm.copied SET seen = now() - interval '1 min' WHERE shard = %s", (self.shard,))
        self.change()

    def test_refused_where_others_would_not_get_it(self):
        self.adopt(cell=Cell.PRIMARY)
        with DATABASE.transaction() as tx:
            Records(tx).put_members(self.shard, {2: False})
        with self.assertRaisesRegex(psycopg.Error, "smplan-pg ddl"):
            self.change()

    def test_most_copies_at_once(self):
        self.adopt(cell=Cell.PRIMARY)
        POST.query("DELETE FROM sm.copied")
        told = [value(DATABASE.row("SELECT sm.copy(%s, %s, 2)", self.shard, it)) for it in (2, 3, 4, 3)]
        self.assertEqual(told, [True, True, False, True])
        POST.query("DELETE FROM sm.copied")


class WholeTest(Case):
    """Fences, settles and restores."""

    def setUp(self):
        super().setUp()
        self.adopt()
        POST.query("DELETE FROM sm.slots")
        serve(self.shard)
        POST.query(f"INSERT INTO {self.shard}.sm_views VALUES (0, 0)")
        POST.query("INSERT INTO sm.servers VALUES (1, 'a', ''), (2, 'b', '') ON CONFLICT DO NOTHING")
        self.server = Server("a", DATABASE, POST.reach, [])
        self.server.number, self.server.peers = 1, {1: Peer(1, "a", "", None), 2: Peer(2, "b", "", None)}

    def fence(self, number):
        return self.server.whole.fence({"journal": "9", "base": number})

    def settle(self, number, nonce, *slots):
        return self.server.whole.settle({"journal": "9", "base": number, "nonce": nonce, "slots": list(slots)})

    def has(self):
        return POST.query("SELECT to_regnamespace(%s) IS NOT NULL", (self.shard,)) == [(True,)]

    def slot(self):
        return POST.query("SELECT cell FROM sm.slots WHERE shard = %s", (self.shard,))

    def test_told_and_settled(self):
        told = self.fence(100)
        self.assertEqual([(it["shard"], it["cell"], it["view"], it["position"]) for it in told["slots"]], [(self.shard, "primary", 0, 0)])
        self.assertEqual(self.server.whole.tell_base({}), {"base": None})
        self.assertEqual(self.settle(100, None, {"shard": self.shard, "cell": "primary", "load": 1}), {"done": True})
        self.assertEqual((self.server.whole.tell_base({}), self.has()), ({"base": 100}, True))
        self.assertEqual(self.settle(100, None, {"shard": self.shard, "cell": "absent", "load": 1}), {"done": True})
        self.assertTrue(self.has())

    def test_a_secondary_that_becomes_primary_begins_a_view(self):
        serve(self.shard, Cell.SECONDARY)
        self.fence(100)
        self.settle(100, None, {"shard": self.shard, "cell": "primary", "load": 1})
        self.assertEqual(POST.query(f"SELECT view, position FROM {self.shard}.sm_views ORDER BY view"), [(0, 0), (100, 0)])
        self.assertEqual(POST.query("SELECT sealed_view, sealed_position, sealed IS NOT NULL FROM sm.slots WHERE shard = %s", (self.shard,)), [(0, 0, True)])
        self.assertEqual(POST.query("SELECT pubinsert FROM pg_publication WHERE pubname = sm.stream(%s)", (self.shard,)), [(True,)])
        self.assertEqual([(it["cell"], it["view"]) for it in self.fence(200)["slots"]], [("primary", 100)])

    def test_a_copy_that_is_made_anew_is_told_as_the_old_one_beside_it(self):
        serve(self.shard, Cell.SECONDARY)
        old = f"{self.shard}_old"
        POST.query(f"CREATE SCHEMA {old}")
        DATABASE.row("SELECT sm.adopt(%s)", old)
        POST.query(f"INSERT INTO {old}.sm_views VALUES (0, 0), (7, 4); UPDATE {old}.sm_counters SET writes = 5 WHERE n = 1")
        POST.query(f"INSERT INTO {self.shard}.sm_views VALUES (9, 2); UPDATE {self.shard}.sm_counters SET writes = 3 WHERE n = 1")
        POST.query("UPDATE sm.slots SET is_whole = false")
        POST.query(f"INSERT INTO sm.copying VALUES ('{self.shard}', 2, now(), '{old}')")
        self.assertEqual([(it["view"], it["position"]) for it in self.fence(100)["slots"]], [(7, 5)])
        with DATABASE.transaction() as tx:
            self.server.copies.end(tx, self.shard)
        status.drop(DATABASE, [], True, False)
        self.assertEqual(POST.query("SELECT to_regnamespace(%s) IS NULL, (SELECT count(*) FROM sm.copying)", (old,)), [(True, 0)])

    def test_what_is_absent_at_the_end_is_set_aside_if_it_is_whole(self):
        for is_whole in (True, False):
            self.setUp()
            POST.query("UPDATE sm.slots SET is_whole = %s", (is_whole,))
            self.fence(100)
            self.settle(100, None, {"shard": self.shard, "cell": "absent", "load": 1})
            self.assertEqual((self.has(), self.slot()), (False, [(1,)]))
            why = "a reopening has left it to other servers" if is_whole else copies.DELETED
            self.assertEqual(POST.query("SELECT why FROM sm.asides WHERE shard = %s", (self.shard,)), [(why,)])
        status.drop(DATABASE, [], True, False)

    def test_an_old_owner_counts_no_more_once_the_new_one_is_settled(self):
        with DATABASE.transaction() as tx:
            Records(tx).put_members(self.shard, {2: True})
        self.fence(100)
        self.settle(100, None, {"shard": self.shard, "cell": "primary", "load": 1})
        with DATABASE.transaction() as tx:
            self.assertEqual((Records(tx).members(self.shard), Records(tx).mark(self.shard)), ({}, Mark(0, 1)))
        self.assertTrue(value(DATABASE.row("SELECT sm.acknowledged(%s, '50 ms')", self.shard)))

    def test_a_fence_ends_questions_for_leave(self):
        DATABASE.row("SELECT sm.begin_leaving(%s, 7)", self.shard)
        self.fence(100)
        self.assertFalse(value(DATABASE.row("SELECT sm.end_leaving(%s, 7)", self.shard)))

    def test_a_copy_that_was_replaced_is_deleted_if_nothing_of_it_is_lacking(self):
        for number, (views, position, why) in enumerate((([], 4, copies.REPLACED), ([], 5, copies.LACKING), ([5], 3, copies.LACKING), ([7], 9, copies.REPLACED), ([7], 10, copies.LACKING))):
            self.setUp()
            old = f"{self.shard}_old{number}"
            POST.query(f"CREATE SCHEMA {old}")
            DATABASE.row("SELECT sm.adopt(%s)", old)
            POST.query(f"INSERT INTO {self.shard}.sm_views VALUES (7, 4); UPDATE {self.shard}.sm_counters SET writes = 9 WHERE n = 1")
            POST.query(f"INSERT INTO {old}.sm_views VALUES (0, 0); UPDATE {old}.sm_counters SET writes = {position} WHERE n = 1")
            for it in views:
                POST.query(f"INSERT INTO {old}.sm_views VALUES ({it}, 4)")
            POST.query(f"INSERT INTO sm.copying VALUES ('{self.shard}', 2, now(), '{old}')")
            with DATABASE.transaction() as tx:
                self.server.copies.end(tx, self.shard)
            self.assertEqual(POST.query("SELECT why FROM sm.asides WHERE schema = %s", (old,)), [(why,)], (views, position))
            self.server.keeping.tidy()
            self.assertEqual(POST.query("SELECT to_regnamespace(%s) IS NULL", (old,)), [(why == copies.REPLACED,)])
        status.drop(DATABASE, [], True, False)

    def test_a_copy_that_is_not_whole_is_not_told(self):
        serve(self.shard, Cell.SECONDARY)
        POST.query("UPDATE sm.slots SET is_whole = false")
        self.assertEqual(self.fence(100), {"slots": []})

    def test_what_a_server_brings_back_is_set_aside(self):
        status.come_back(DATABASE)
        told = self.fence(100)
        self.assertEqual(list(told), ["unknown"])
        self.assertEqual(self.settle(100, told["unknown"]), {"done": True})
        self.assertEqual((self.has(), POST.query("SELECT shard FROM sm.asides WHERE shard = %s", (self.shard,))), (False, [(self.shard,)]))
        status.drop(DATABASE, [], True, False)
        self.assertEqual(POST.query("SELECT count(*) FROM pg_namespace WHERE nspname LIKE 'sm#_aside%' ESCAPE '#'"), [(0,)])

    def test_no_restore_of_what_is_lost(self):
        status.come_back(DATABASE)
        nonce = DATABASE.row("SELECT nonce FROM sm.state")["nonce"]
        line = {"server": "a", "journal": "9", "fence": 0, "base": 0, "nonce": f"{unsigned(nonce):x}", "slots": [
            {"shard": self.shard, "cell": "primary", "load": 1}, {"shard": "elsewhere", "cell": "primary", "load": 1}]}
        self.assertIn("no data of elsewhere", self.server.whole.restore(line)["said"])
        self.assertEqual(self.server.whole.tell_base({}), {"base": None})
        line["slots"].pop()
        self.assertEqual(self.server.whole.restore(line), {"done": True})
        self.assertEqual((self.server.whole.tell_base({}), self.slot()), ({"base": 0}, [(4,)]))

    def test_no_secondary_while_another_one_was_left_out(self):
        self.server.orders.limits = Limits(answering=30.0)
        self.server.peers[2] = Peer(2, "b", "", POST.reach)
        order = {"call": "change", "shard": self.shard, "from": "primary", "to": "secondary", "journal": "9", "fence": 0, "number": 5, "load": 1, "room": 9, "replicas": ["a", "b"]}
        self.assertIn("b has to follow first", self.server.orders.take(order)["said"])
        self.assertEqual(self.slot(), [(4,)])
        with DATABASE.transaction() as tx:
            Records(tx).put_members(self.shard, {2: False})
        self.server.live(self.shard).rest_until = 0.0
        self.assertIn("not each secondary has all writes", self.server.orders.take(order)["said"])

    def test_nobody_joins_a_new_owner_that_is_fenced(self):
        """Its list begins anew when it is settled, with what it had by then."""
        serve(self.shard, Cell.PREPARED, party=2, handover=7, has_cut=1)
        self.fence(100)
        self.assertFalse(value(DATABASE.row("SELECT sm.join(%s, 2)", self.shard)))
        self.settle(100, None, {"shard": self.shard, "cell": "primary", "load": 1})
        self.assertTrue(value(DATABASE.row("SELECT sm.join(%s, 2)", self.shard)))
        streams.drop_streams(DATABASE, self.shard)

    def test_nobody_is_left_out_behind_a_cut(self):
        with DATABASE.transaction() as tx:
            Records(tx).put_members(self.shard, {2: False})
            names = streams.name_of(tx, self.shard, 2), (self.shard, 2, False)
        with DATABASE.transaction() as tx:
            tx.execute("SELECT sm.hold(%s)", (self.shard,))
            leaving = threading.Thread(target=self.server.keeping.leave_out, args=names)
            leaving.start()
            leaving.join(60)  # (it waits for no lock for long, as other followers may be dead)
            self.assertFalse(leaving.is_alive())
            Records(tx).put_slot(self.shard, Slot(cell=Cell.FORWARDING, party=2, load=1))
        self.server.keeping.leave_out(*names)
        self.assertEqual(POST.query(f"SELECT server FROM {self.shard}.sm_members"), [(2,)])

    def test_no_follower_is_dead_by_a_silence_of_this_database(self):
        with DATABASE.transaction() as tx:
            Records(tx).put_members(self.shard, {2: False})
        found, clock = [], 1000.0
        for step in (0.0, 100.0, 2.0, 2.0):
            clock += step
            with mock.patch.object(time, "monotonic", lambda: clock):
                if step < SILENT:
                    self.server.silence.end()
                self.server.keeping.leave_out_the_dead()
                self.server.silence.end()
            found.append(POST.query(f"SELECT count(*) FROM {self.shard}.sm_members")[0][0])
        self.assertEqual(found, [1, 1, 1, 0])

    def test_streams_of_tables_are_dropped_once_nothing_is_copied(self):
        name, keeping, found = "pg_1_sync_2_3", self.server.keeping, []
        POST.query(f"SELECT pg_create_logical_replication_slot('{name}', 'pgoutput')")
        POST.query("SELECT sm.copy(%s, 2, 1000)", (self.shard,))
        for _ in range(2):
            for _ in range(2):
                keeping.drop_unread()
                keeping.unread = {it: since - 100 for it, since in keeping.unread.items()}
            found.append(POST.query(f"SELECT count(*) FROM pg_replication_slots WHERE slot_name = '{name}'")[0][0])
            POST.query("DELETE FROM sm.copied")
        self.assertEqual(found, [1, 0])

    def test_left_behind(self):
        self.server.whole.notice({"journal": "9", "fence": 50})
        self.assertEqual((self.server.whole.tell_base({}), self.slot(), self.has()), ({"base": None}, [], True))


class Several(unittest.TestCase):
    """Several servers, each a database."""

    limits = Limits(answering=60.0, resting=0.05)

    @classmethod
    def setUpClass(cls):
        cls.its = {}
        for number, name in enumerate("abc", 1):
            database = f"{cls.__name__.lower()}_{name}"
            POST.query(f"CREATE DATABASE {database}")
            reach = POST.reach.replace("dbname=postgres", f"dbname={database}")
            it = cls.its[name] = Server(name, cls.make(reach, number, name), reach, [], limits=cls.limits)
            it.number = number
        for it in cls.its.values():
            it.peers = {one.number: Peer(one.number, one.name, "", one.reach) for one in cls.its.values()}

    @staticmethod
    def make(reach, number, name):
        database = Database(reach)
        with database.transaction() as tx:
            adopt.install(tx)
            tx.execute("UPDATE sm.state SET me = %s, name = %s", (number, name))
        return database

    @classmethod
    def tearDownClass(cls):
        for it in cls.its.values():
            for database in (it.database, *it.databases.values()):
                database.close()

    def setUp(self):
        self.shard = f"it{next(Case.count)}"
        trying = mock.patch.object(orders, "TRYING", 0.3)
        trying.start()
        self.addCleanup(trying.stop)

    def put(self, name, cell, position, is_whole=True, fenced=0):
        """Gives a server a copy with so many writes."""
        database = self.its[name].database
        if not value(database.row("SELECT sm.is_adopted(%s)", self.shard)):
            with database.connection() as c:
                c.execute(TABLES.format(self.shard))
            adopt.adopt(database, [self.shard])
        with database.transaction() as tx:
            it = Records(tx)
            it.put_base(Base(journal=9, number=0, known=1, fenced=fenced), 0)
            it.put_slot(self.shard, Slot(cell=cell, load=1))
            it.put_source(self.shard, None, is_whole)
        self.write(name, position)

    def write(self, name, position):
        self.its[name].database.do(f"UPDATE {self.shard}.sm_counters SET writes = %s WHERE n = 1", position)

    def order(self, name, call, replicas, primary=None, **rest):
        line = {"call": call, "shard": self.shard, "journal": "9", "fence": 0, "number": 5, "load": 1, "room": 9, "primary": primary, "replicas": list(replicas), **rest}
        self.its[name].live(self.shard).rest_until = 0.0
        return self.its[name].orders.take(line)

    def has(self, name):
        return value(self.its[name].database.row("SELECT sm.is_adopted(%s)", self.shard))


class SeveralTest(Several):
    """Leave to drop a copy, and who becomes the primary."""

    def test_of_two_that_leave_at_once_one_stays(self):
        for cell, primary in ((Cell.SECONDARY, None), (Cell.PRIMARY, "b")):
            with self.subTest(cell):
                self.shard = f"it{next(Case.count)}"
                self.leave_at_once(cell, primary)

    def leave_at_once(self, cell, primary):
        """Servers b and c have all, a lacks writes."""
        for name, one, position in (("a", Cell.SECONDARY, 3), ("b", cell, 5), ("c", Cell.SECONDARY, 5)):
            self.put(name, one, position)
        sound, together = streams.halt, threading.Barrier(2)

        def halt(*words):  # (who has leave waits here for the other one)
            try:
                together.wait(3.0)
            except threading.BrokenBarrierError:
                pass
            sound(*words)

        with mock.patch.object(streams, "halt", halt), ThreadPoolExecutor(2) as pool:
            told = list(pool.map(lambda it: self.order(it, "drop", "abc", primary), "bc"))
        self.assertLessEqual(told.count({"done": True}), 1, told)
        for name in "bc":
            self.order(name, "drop", "abc", primary if self.has("b") else None)
        self.assertIn("it lacks writes", self.order("c", "drop", "ac")["said"] if self.has("c") else "it lacks writes")
        self.assertEqual([self.has(it) for it in "bc"].count(True), 1, told)

    def test_who_gives_leave(self):
        self.put("b", Cell.SECONDARY, 5)

        def ask(asker=1, journal=9, heard=0, beside=True, view=0, position=5):
            return value(self.its["b"].database.row("SELECT sm.leave(%s, %s, %s, %s, %s, %s, %s)", self.shard, asker, journal, heard, beside, view, position))

        self.assertEqual([ask(), ask(position=6), ask(view=1, position=2)], ["leave", "it lacks writes", "it lacks writes"])
        self.assertEqual([ask(journal=8), ask(heard=3)], ["it knows of another reopening"] * 2)
        self.assertEqual(ask(beside=False), "it does not serve the shard")
        self.put("b", Cell.SECONDARY, 5, is_whole=False)
        self.assertEqual(ask(position=0), "its copy is not whole")
        self.put("b", Cell.SECONDARY, 5, fenced=1)
        self.assertEqual(ask(), "it knows of another reopening")
        self.put("b", Cell.PRIMARY, 5)
        with self.its["b"].database.transaction() as tx:
            Records(tx).put_members(self.shard, {1: False, 3: False})
        self.assertEqual([ask(), ask(beside=False)], ["it does not serve the shard", "leave"])
        with self.its["b"].database.transaction() as tx:
            self.assertEqual((Records(tx).members(self.shard), Records(tx).mark(self.shard).position), ({3: False}, 6))

    def test_who_asks_gives_no_leave_to_a_higher_number(self):
        for cell, beside in ((Cell.SECONDARY, True), (Cell.PRIMARY, False)):
            self.put("b", cell, 5)
            for asker, answer, stands in ((3, "it leaves, too", True), (1, "leave", False)):
                self.its["b"].database.row("SELECT sm.begin_leaving(%s, 7)", self.shard)
                self.assertEqual(value(self.its["b"].database.row("SELECT sm.leave(%s, %s, 9, 0, %s, 0, 5)", self.shard, asker, beside)), answer)
                self.assertEqual(value(self.its["b"].database.row("SELECT sm.end_leaving(%s, 7)", self.shard)), stands)

    def test_a_question_that_was_given_up_is_not_committed(self):
        for name in "ab":
            self.put(name, Cell.SECONDARY, 5)
        given, sound = [], streams.halt

        def halt(*words):
            given.append(value(self.its["b"].database.row("SELECT sm.leave(%s, 1, 9, 0, true, 0, 5)", self.shard)))
            sound(*words)

        with mock.patch.object(streams, "halt", halt):
            told = self.order("b", "drop", "ab")
        self.assertIn("asks anew", told["said"])
        self.assertEqual((set(given), self.has("b")), ({"leave"}, True))
        self.assertEqual(value(self.its["b"].database.row("SELECT count(*) FROM sm.leaving")), 0)
        self.assertEqual((self.order("b", "drop", "ab"), self.has("b")), ({"done": True}, False))

    def test_who_has_lost_its_copy_is_waited_for(self):
        self.put("b", Cell.SECONDARY, 5, is_whole=False)
        self.put("c", Cell.SECONDARY, 3)
        self.assertIn("b has no whole copy", self.order("c", "change", "bc", **{"from": "secondary", "to": "primary"})["said"])
        self.assertIn("what is here is not whole", self.order("b", "drop", "bc")["said"])
        self.assertIn("its copy is not whole", self.order("c", "drop", "bc")["said"])
        self.assertIn("b has no whole copy", self.order("b", "change", "b", **{"from": "secondary", "to": "primary"})["said"])
        self.put("a", Cell.PRIMARY, 5)
        with self.its["a"].database.transaction() as tx:
            Records(tx).put_members(self.shard, {2: False})
        self.assertIn("b has no whole copy", self.order("a", "change", "ab", primary="a", **{"from": "primary", "to": "secondary"})["said"])
        self.assertEqual([self.has(it) for it in "bc"], [True, True])

    def test_a_primary_leaves_once_another_one_has_its_last_write(self):
        self.put("a", Cell.PRIMARY, 5)
        self.put("b", Cell.SECONDARY, 5)
        sound = streams.halt

        def halt(*words):
            self.write("a", 6)  # (a request that ran while it asked)
            sound(*words)

        with mock.patch.object(streams, "halt", halt):
            told = self.order("a", "drop", "ab", primary="a")
        self.assertIn("it lacks writes", told["said"])
        self.assertTrue(self.has("a"))
        self.write("b", 6)
        self.assertEqual((self.order("a", "drop", "ab", primary="a"), self.has("a")), ({"done": True}, False))

    def test_an_old_owner_counts_until_it_has_dropped(self):
        def members():
            with self.its["b"].database.transaction() as tx:
                return Records(tx).members(self.shard)

        for name, cell in (("a", Cell.FORWARDING), ("b", Cell.PRIMARY), ("c", Cell.FORWARDING)):
            self.put(name, cell, 5)
        with self.its["b"].database.transaction() as tx:
            Records(tx).put_members(self.shard, {1: True, 3: True})
        seen, sound = [], streams.halt

        def halt(*words):  # (it has leave)
            self.its["b"].keeping.leave_out_the_dead()
            seen.append(members())
            sound(*words)

        with mock.patch.object(streams, "halt", halt):
            self.assertEqual(self.order("a", "drop", "ab", primary="b"), {"done": True})
        self.assertEqual((seen, members(), self.has("a")), ([{1: True, 3: True}], {3: True}, False))
        with self.its["b"].database.transaction() as tx:
            Records(tx).put_members(self.shard, {1: True, 3: True})
        self.its["b"].keeping.leave_out_the_dead()  # (what was not told is seen)
        self.assertEqual(members(), {3: True})

    def test_who_joined_just_before_the_cut_has_a_stream_behind_it(self):
        self.put("b", Cell.PREPARED, 5)
        b, cut = self.its["b"], Cut(handover=7, position=5, party=2, sequences={})
        with b.database.transaction() as tx:
            it = Records(tx)
            it.put_slot(self.shard, Slot(cell=Cell.PREPARED, party=1, handover=7, load=1))
            it.put_members(self.shard, {2: False, 3: False})
        b.following.seal(self.shard, cut)
        with b.database.transaction() as tx:
            self.assertEqual(Records(tx).members(self.shard), {1: True, 3: False})
            self.assertTrue(value(tx.execute("SELECT is_joinable FROM sm.offers(%s, 3)", (self.shard,)).fetchone()))
        streams.drop_streams(b.database, self.shard)

    def followed(self):
        """Server a is followed by b, which counts there beside c. Server a's database, and b."""
        self.put("a", Cell.PRIMARY, 5)
        self.put("b", Cell.SECONDARY, 5)
        a, b = self.its["a"].database, self.its["b"]
        streams.make_stream(a, self.shard, 2, 60.0)
        with a.transaction() as tx:
            Records(tx).put_members(self.shard, {2: False, 3: False})
        with b.database.transaction() as tx:
            Records(tx).put_source(self.shard, 1, True)
        return a, b

    def test_who_copies_anew_counts_no_more(self):
        (a, b), seen = self.followed(), []

        def copy_schema(*_):
            with a.transaction() as tx, b.database.transaction() as there:
                seen.append((Records(tx).members(self.shard), Records(there).is_whole(self.shard)))
            raise streams.Stuck("the schema is not made")

        with mock.patch.object(b.copies, "copy_schema", copy_schema), self.assertRaisesRegex(streams.Stuck, "not made"):
            b.copies.make(self.shard, 1, lambda: True, lambda _: None)
        self.assertEqual(seen, [({3: False}, False)])
        with a.transaction() as tx:
            self.assertEqual(Records(tx).mark(self.shard).position, 6)
        streams.drop_streams(a, self.shard)

    def test_a_question_that_comes_late_has_no_effect(self):
        """Whose question to join waits at the source copies nothing anew until it is answered, and counts no more then."""
        a, _ = self.followed()
        a.row("SELECT sm.copy(%s, 2, 9)", self.shard)
        with ThreadPoolExecutor() as pool, a.transaction() as asks:
            asks.execute("SELECT sm.lock_part(%s, 2)", (self.shard,))
            parting = pool.submit(a.row, "SELECT sm.part(%s, 2)", self.shard)
            time.sleep(0.3)
            self.assertFalse(parting.done())
            asks.execute("SELECT sm.join(%s, 2)", (self.shard,))
            asks.execute("COMMIT; BEGIN")
            self.assertTrue(value(parting.result()))
        with a.transaction() as tx:
            self.assertEqual(Records(tx).members(self.shard), {3: False})
        a.do("DELETE FROM sm.copied")
        streams.drop_streams(a, self.shard)

    def test_a_source_that_was_away_as_it_was_asked_first_is_followed_on(self):
        a, b = self.followed()
        with b.database.connection() as c:
            mine = streams.name_of(c, self.shard, 2)
            c.execute(streams.said("CREATE SUBSCRIPTION {} CONNECTION 'host=/nowhere' PUBLICATION p WITH (connect = false, slot_name = {})", mine, mine))
        sound, asked = b.sources.offer, []

        def offer(*words):
            asked.append(words)
            if len(asked) == 1:
                raise psycopg.OperationalError("the database system is starting up")
            return sound(*words)

        for is_enabled in (True, False):
            asked.clear()
            with b.database.transaction() as tx:
                tx.execute(streams.said("ALTER SUBSCRIPTION {} " + ("ENABLE" if is_enabled else "DISABLE"), mine))
            with mock.patch.object(b.sources, "offer", offer), mock.patch.object(b, "others", lambda: [1]), mock.patch.object(b.following, "copy_anew") as anew:
                b.following.look(self.shard)
            self.assertEqual((anew.called, len(asked) > 1), (not is_enabled, True))
        with b.database.transaction() as tx:
            streams.drop_subscription(tx, mine)
        streams.drop_streams(a, self.shard)

    def test_streams_of_another_database(self):
        self.put("a", Cell.PRIMARY, 5)
        a, b = self.its["a"].database, self.its["b"].database
        with a.transaction() as tx:
            Records(tx).put_members(self.shard, {3: False})
        self.assertTrue(streams.make_stream(b, self.shard, 3, 60.0))
        self.assertFalse(value(a.row("SELECT sm.has_all(%s, '0/1')", self.shard)))
        self.assertFalse(a.row("SELECT has_stream FROM sm.offers(%s, 3)", self.shard)["has_stream"])
        with self.assertRaises(psycopg.errors.DuplicateObject):
            streams.make_stream(a, self.shard, 3, 60.0)
        streams.drop_streams(a, self.shard)
        with b.connection() as c:
            streams.drop_stream(a, streams.name_of(c, self.shard, 3))
            self.assertEqual(len(streams.streams_of(c, self.shard)), 1)
        streams.drop_streams(b, self.shard)


class SilenceTest(unittest.TestCase):
    """A server's side whose database says nothing for a while. The tests go on from each other."""

    @classmethod
    def setUpClass(cls):
        POST.query("CREATE DATABASE silent")
        reach, port = POST.reach.replace("dbname=postgres", "dbname=silent"), servers.free_ports(1)[0]
        cls.url = f"http://127.0.0.1:{port}"
        database = Database(reach)
        with database.transaction() as tx:
            adopt.install(tx)
            tx.execute("INSERT INTO sm.servers VALUES (1, 'a', %s)", (cls.url,))
            Records(tx).put_base(Base(journal=9, number=7, known=1), 0)
        database.close()
        program = str(servers.ROOT / "ports/postgresql/smplan-pg")
        cls.words = [program, "serve", "--name", "a", "--controller", "http://127.0.0.1:1", "--dsn"]
        cls.side = servers.Process("a", [*cls.words, reach], FOLDER / "silent.log")
        cls.side.log.touch()

    @classmethod
    def tearDownClass(cls):
        cls.side.kill()

    def setUp(self):
        self.before = len(self.side.log.read_text())

    def told(self):
        return self.side.log.read_text()[self.before:]

    def base(self):
        return fetch(f"{self.url}/base", timeout=2)

    def wait_for(self, what, condition, seconds=60.0):
        until = time.monotonic() + seconds
        while True:
            with contextlib.suppress(OSError, Failure):
                if condition():
                    return
            self.assertLess(time.monotonic(), until, f"{what}: {self.told()}")
            if self.side.process.poll() is not None:
                self.fail(f"its side ended: {self.told()}")
            time.sleep(0.1)

    def goes_on(self):
        """The side tells of the silence's end, and what its database has."""
        self.wait_for("it goes on", lambda: "goes on" in self.told() and self.base() == {"base": 7})

    def is_away(self):
        """Whether the side answers that its database is away."""
        try:
            return self.base() is None
        except Failure as why:
            return "the database of a is away" in str(why)

    def waits(self):
        self.wait_for("it waits", lambda: "a waits for its database" in self.told())

    def test_1_it_starts(self):
        with POST.still():
            self.side.start()
            self.waits()
        self.goes_on()

    def test_2_it_serves(self):
        with POST.still():
            self.waits()
            with self.assertRaises(Failure):
                self.base()
        self.goes_on()

    def test_3_it_is_restarted(self):
        POST.stop(signal.SIGINT)
        self.waits()
        self.wait_for("it tells nothing", self.is_away)
        POST.start()
        POST.wait()
        self.goes_on()

    def test_a_database_that_is_the_wrong_one(self):
        words = [*self.words, POST.reach.replace("dbname=postgres", "dbname=nowhere")]
        told = subprocess.run(words, capture_output=True, text=True, check=False, timeout=60)
        self.assertEqual(told.returncode, 1)
        self.assertRegex(told.stderr, '^smplan-pg: .*database "nowhere" does not exist')


class PatienceTest(unittest.TestCase):
    """The time of a server's side, and for how long it waits."""

    def test_it_stands_still_in_a_silence(self):
        it, clock = Silence("a"), 50.0
        with mock.patch.object(time, "monotonic", lambda: clock):
            self.assertEqual(it.now(), 50.0)
            it.end()
            steps = ((51, True, 51), (53, False, 53), (90, False, 54), (91, True, 54), (92, False, 55))
            for clock, hears, now in steps:
                if hears:
                    it.end()
                self.assertEqual(it.now(), now)

    def test_a_database_that_nobody_serves(self):
        database = Database(f"host=127.0.0.1 port={servers.free_ports(1)[0]} dbname=it user=it")
        with mock.patch.object(silence, "STARTING", 1.5), self.assertRaisesRegex(psycopg.OperationalError, "refused"):
            patiently(Silence("a"), database, database.connect)

    def test_its_number_is_looked_for_though_the_database_is_away(self):
        server, looks = Server("a", DATABASE, POST.reach, []), []

        def look():
            looks.append(True)
            if len(looks) < 3:
                raise psycopg.OperationalError("away")
            server.number = 1
            return True

        server.look = look
        server.find()
        self.assertEqual(len(looks), 3)


class OldServer(socketserver.BaseRequestHandler):
    """Enough of a server of PostgreSQL 14 to be asked for its version; it notes all statements."""

    statements = []

    def send(self, kind, body):
        self.request.sendall(kind + struct.pack("!i", len(body) + 4) + body)

    def read(self, count):
        parts = b""
        while len(parts) < count:
            part = self.request.recv(count - len(parts))
            if not part:
                raise ConnectionError
            parts += part
        return parts

    def handle(self):
        try:
            while struct.unpack("!i", self.read(struct.unpack("!i", self.read(4))[0] - 4)[:4])[0] != 3 << 16:
                self.request.sendall(b"N")  # (neither TLS nor GSS)
            self.send(b"R", struct.pack("!i", 0))
            for name, told in ((b"server_version", b"14.11"), (b"client_encoding", b"UTF8"), (b"standard_conforming_strings", b"on")):
                self.send(b"S", name + b"\0" + told + b"\0")
            self.send(b"Z", b"I")
            while (kind := self.read(1)) != b"X":
                self.answer(kind, self.read(struct.unpack("!i", self.read(4))[0] - 4))
        except OSError:
            pass

    def answer(self, kind, body):
        if kind in (b"P", b"Q"):
            self.statement = body.strip(b"\0").split(b"\0")[0].decode()
            self.statements.append(self.statement)
        shows = self.statement.startswith("SHOW")
        if kind in (b"D", b"Q") and shows:
            self.send(b"T", struct.pack("!h", 1) + b"it\0" + struct.pack("!ihihih", 0, 0, 25, -1, -1, 0))
        elif kind == b"D":
            self.send(b"n", b"")
        if kind in (b"E", b"Q"):
            if shows:
                self.send(b"D", struct.pack("!hi", 1, 6) + b"140011")
            self.send(b"C", self.statement.split()[0].encode() + b"\0")
            self.state = b"I" if self.statement.startswith(("COMMIT", "ROLLBACK")) else b"T"
        if kind in (b"P", b"B"):
            self.send(b"1" if kind == b"P" else b"2", b"")
        if kind in (b"S", b"Q"):
            self.send(b"Z", self.state)


class RefusedServerTest(unittest.TestCase):
    """Servers on which nothing is changed."""

    def refusals(self, reach):
        """What the commands say that would change something."""
        for words in (["adopt", "public"], ["serve", "--name", "a", "--controller", "http://127.0.0.1:1"]):
            told = subprocess.run([str(servers.ROOT / "ports/postgresql/smplan-pg"), *words, "--dsn", reach], capture_output=True, text=True, check=False, timeout=60)
            self.assertEqual((told.returncode, told.stdout), (1, ""), told.stderr)
            yield told.stderr

    def test_no_superuser(self):
        POST.query("CREATE ROLE small LOGIN")
        POST.query("CREATE DATABASE other OWNER small")
        reach = POST.reach.replace("user=postgres", "user=small").replace("dbname=postgres", "dbname=other")
        for told in self.refusals(reach):
            self.assertRegex(told, "no superuser.*Nothing was changed")
        database = Database(reach)
        self.assertTrue(value(database.row("SELECT to_regnamespace('sm') IS NULL")))
        database.close()

    def test_another_version(self):
        with socketserver.ThreadingTCPServer(("127.0.0.1", 0), OldServer) as old:
            old.daemon_threads = True
            threading.Thread(target=old.serve_forever, daemon=True).start()
            for told in self.refusals(f"host=127.0.0.1 port={old.server_address[1]} dbname=it user=it"):
                self.assertRegex(told, "this is PostgreSQL 14.*Nothing was changed")
            old.shutdown()
        self.assertEqual({it.split()[0] for it in OldServer.statements}, {"BEGIN", "SHOW", "ROLLBACK"})

    def test_another_level(self):
        post = servers.Postgres(FOLDER, "plain", servers.free_ports(1)[0], 20, 3)
        self.assertEqual(post.make().wait(), 0)
        post.words += ["-c", "wal_level=replica"]
        post.start()
        post.wait()
        try:
            for told in self.refusals(post.reach):
                self.assertRegex(told, "wal_level is not logical.*Nothing was changed")
            self.assertEqual(post.query("SELECT to_regnamespace('sm')"), [(None,)])
        finally:
            post.kill()


if __name__ == "__main__":
    unittest.main()
