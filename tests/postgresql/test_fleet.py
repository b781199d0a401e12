"""Three PostgreSQL servers with a controller, from their opening on: what befalls followers, changes of a schema, and what a server that was given up brings
back. The tests go on from each other, in the order of their names."""
import contextlib
import os
import signal
import subprocess
import tempfile
import time
import unittest
from pathlib import Path

import servers  # (it makes the packages be found)
import psycopg
from smplan_pg import streams
from smplan_pg.adopt import adopt
from smplan_pg.database import Database
from smplan_pg.records import Records
from smplan_pg.server import Server

TABLES = """CREATE SCHEMA s; CREATE TABLE s.accounts (id int PRIMARY KEY, balance bigint NOT NULL DEFAULT 0);
CREATE TABLE s.history (id bigserial PRIMARY KEY, request text); INSERT INTO s.accounts SELECT it FROM generate_series(1, 1000) it"""
DEAD = "3"
SUM = ("SELECT (SELECT count(*) FROM s.accounts) || ' ' || (SELECT sum(balance) FROM s.accounts) || ' ' || (SELECT count(*) FROM s.history) || ' ' || "
       "(SELECT sum(writes) FROM s.sm_counters)")


def made(folder, secondaries, *options):
    """Servers a, b and c with a shard s, whose primary is a."""
    os.chmod(folder.name, 0o711)
    fleet = servers.Fleet(Path(folder.name) / "fleet", ["a", "b", "c"], options=["--dead", DEAD, "--stalled", "5", *options])
    fleet.make()
    fleet.posts["a"].query(TABLES)
    database = Database(fleet.posts["a"].reach)
    adopt(database, ["s"])
    database.close()
    cells = [{"server": "a", "state": "primary"}, *({"server": it, "state": "secondary"} for it in secondaries)]
    fleet.open({"limit": 1, "servers": [{"name": it, "region": "r", "room": 9} for it in "abc"], "shards": [
        {"name": "s", "load": 1, "want": len(cells), "cap": len(cells) - 1, "spread": 1, "listed": "a", "cells": cells}]})
    return fleet


def setUpModule():
    global FLEET, FOLDER
    FOLDER = tempfile.TemporaryDirectory(prefix="pg-test-", dir="/dev/shm")
    FLEET = made(FOLDER, "b")


def tearDownModule():
    FLEET.close()
    FOLDER.cleanup()


class FleetTest(unittest.TestCase):
    """One shard, s, at a and b."""

    def follows(self, primary="a", follower="b"):
        """Whether a follower counts, and has what the primary has, in a copy that is whole."""
        members = FLEET.posts[primary].query("SELECT name FROM s.sm_members JOIN sm.servers ON number = server")
        is_whole = FLEET.posts[follower].query("SELECT is_whole FROM sm.slots WHERE shard = 's'") == [(True,)]
        return members == [(follower,)] and is_whole and FLEET.posts[primary].query(SUM) == FLEET.posts[follower].query(SUM)

    def settle(self, *words):
        FLEET.wait_for("the follower has all", lambda: self.follows(*words), 120)

    def is_primary(self, name):
        return FLEET.posts[name].query("SELECT cell FROM sm.slots WHERE shard = 's'") == [(4,)]

    def write(self, name="a", request="x"):
        FLEET.posts[name].query("INSERT INTO s.history (request) VALUES (%s)", (request,))

    def command(self, *words):
        """A command of an operator that has to end well."""
        status = FLEET.command(*words).wait(120)
        self.assertEqual(status, 0, (FLEET.folder / "commands.log").read_text()[-600:])

    def pg(self, *words):
        return subprocess.run([str(servers.ROOT / "ports/postgresql/smplan-pg"), *words], capture_output=True, text=True, check=False)

    def test_1_opened(self):
        self.settle()
        self.write()
        self.settle()
        told = self.pg("status", "--dsn", FLEET.posts["a"].reach)
        self.assertEqual(told.returncode, 0, told.stdout)
        self.assertIn("followed by b", told.stdout)
        self.assertIn("follows a", self.pg("status", "--dsn", FLEET.posts["b"].reach).stdout)

    def test_2_one_side_alone(self):
        told = self.pg("serve", "--name", "a", "--dsn", FLEET.posts["a"].reach, "--controller", FLEET.pages[0])
        self.assertEqual(told.returncode, 2)
        self.assertIn("another smplan-pg serves", told.stderr)

    def test_3_a_stream_that_is_gone(self):
        FLEET.agents["b"].kill()
        FLEET.posts["b"].query("ALTER SUBSCRIPTION " + FLEET.posts["b"].query("SELECT sm.stream('s', 2)")[0][0] + " DISABLE")
        FLEET.wait_for("a goes on without b", lambda: FLEET.posts["a"].query("SELECT count(*) FROM s.sm_members") == [(0,)])
        self.write()
        FLEET.agents["b"].start()
        self.settle()
        FLEET.wait_for("the old copy is deleted", lambda: FLEET.posts["b"].query("SELECT count(*) FROM sm.asides") == [(0,)])

    def test_3_b_stream_that_is_dropped_amid_a_copy(self):
        stream = FLEET.posts["b"].query("SELECT sm.stream('s', 2)")[0][0]
        here = "SELECT 1 FROM pg_replication_slots WHERE slot_name = %s AND "
        FLEET.agents["b"].kill()
        FLEET.posts["b"].query(f"ALTER SUBSCRIPTION {stream} DISABLE")
        FLEET.wait_for("a goes on without b", lambda: FLEET.posts["a"].query("SELECT count(*) FROM s.sm_members") == [(0,)])
        FLEET.agents["b"].start()
        with psycopg.connect(FLEET.posts["a"].reach, autocommit=True) as c, contextlib.ExitStack() as still:
            while not c.execute(here + "confirmed_flush_lsn IS NOT NULL", (stream,)).fetchone():
                time.sleep(0.005)
            pid = FLEET.agents["b"].process.pid
            os.kill(pid, signal.SIGSTOP)
            still.callback(os.kill, pid, signal.SIGCONT)
            while c.execute(here + "true", (stream,)).fetchone():
                with contextlib.suppress(psycopg.errors.ObjectInUse):
                    c.execute("SELECT pg_terminate_backend(active_pid), pg_sleep(0.002), pg_drop_replication_slot(slot_name) FROM pg_replication_slots "
                              "WHERE slot_name = %s", (stream,))
            still.close()
            FLEET.wait_for("b sees it", lambda: "a has dropped the stream" in (FLEET.folder / "serve-b.log").read_text())
        self.settle()

    def test_4_a_copy_that_is_spoiled(self):
        FLEET.posts["b"].query("SET sm.own = on; INSERT INTO s.accounts VALUES (2000, 5)")
        FLEET.posts["a"].query("INSERT INTO s.accounts VALUES (2000, 7)")
        self.settle()
        self.assertEqual(FLEET.posts["b"].query("SELECT balance FROM s.accounts WHERE id = 2000"), [(7,)])

    def test_4_b_a_stream_that_is_made_again_beneath_a_follower(self):
        """The follower's subscription is on all the time, and lacks what was written while it had no stream."""
        stream, log = FLEET.posts["b"].query("SELECT sm.stream('s', 2)")[0][0], FLEET.folder / "pg-b.log"
        for it in (FLEET.agents["b"], FLEET.posts["b"]):
            it.kill()
        FLEET.wait_for("a goes on without b", lambda: FLEET.posts["a"].query("SELECT count(*) FROM s.sm_members, pg_replication_slots") == [(0,)])
        self.write(request="in the gap")
        FLEET.agents["a"].kill()
        database = Database(FLEET.posts["a"].reach)
        server = Server("a", database, FLEET.posts["a"].reach, [])
        server.number = 1
        with database.transaction() as tx:  # (as a secondary it tells nothing)
            streams.publish(tx, "s", "")
        streams.make_stream(database, "s", 2, 60.0)
        with database.transaction() as tx:
            server.whole.begin_view(tx, "s", Records(tx).mark("s").view + 1, {2: False})
        database.close()
        before = len(log.read_text())
        FLEET.posts["b"].start()
        FLEET.posts["b"].wait()
        FLEET.wait_for("b meets what does not go on from its copy", lambda: "ERROR" in log.read_text()[before:])
        self.assertNotIn("already exists", log.read_text()[before:])
        self.assertIn("can't be followed by a copy that has", log.read_text()[before:])
        self.assertEqual(FLEET.posts["b"].query("SELECT count(*) FROM s.history WHERE request = 'in the gap'"), [(0,)])
        self.assertEqual(FLEET.posts["a"].query("SELECT count(*) FROM pg_replication_slots WHERE slot_name = %s", (stream,)), [(1,)])
        for name in "ab":
            FLEET.agents[name].start()
        self.settle()
        FLEET.wait_for("b's copy is whole", lambda: FLEET.posts["b"].query("SELECT count(*) FROM sm.copying") == [(0,)], 120)

    def test_5_a_change_of_the_schema(self):
        for name in ("a", "b"):
            with self.assertRaisesRegex(psycopg.Error, "smplan-pg ddl"):
                FLEET.posts[name].query("ALTER TABLE s.accounts ADD COLUMN word text")
        file = Path(FOLDER.name) / "change.sql"
        file.write_text("ALTER TABLE accounts ADD COLUMN word text; CREATE TABLE more (id int PRIMARY KEY, n int); CREATE INDEX ON history (request);")
        words = ("ddl", "s", str(file), "--name", "v2", "--dsn", FLEET.posts["a"].reach)
        for _ in range(2):
            told = self.pg(*words)
            self.assertEqual(told.returncode, 0, told.stderr)
        FLEET.posts["a"].query("INSERT INTO s.more VALUES (1, 2)")
        FLEET.posts["a"].query("UPDATE s.accounts SET word = 'w' WHERE id = 1")
        FLEET.wait_for("rows of a new table", lambda: FLEET.posts["b"].query("SELECT n FROM s.more") == [(2,)])
        FLEET.wait_for("a new column", lambda: FLEET.posts["b"].query("SELECT word FROM s.accounts WHERE id = 1") == [("w",)])
        for name in ("b", "c"):
            with self.assertRaises(psycopg.Error):
                FLEET.posts[name].query("INSERT INTO s.more VALUES (3, 4)")
        told = self.pg("ddl", "s", str(file), "--name", "v3", "--dsn", FLEET.posts["b"].reach)
        self.assertEqual((told.returncode, "is not served here" in told.stderr), (1, True))

    def test_6_moved_with_all_of_it(self):
        self.command("drain", "a")
        FLEET.wait_for("b or c serves", lambda: any(self.follows(*it) for it in (("b", "c"), ("c", "b"))), 60)
        owner = "b" if self.is_primary("b") else "c"
        self.write(owner, "moved")
        self.assertEqual(FLEET.posts["a"].query("SELECT to_regnamespace('s')"), [(None,)])

    def test_7_what_a_server_that_was_given_up_brings_back(self):
        owner, other = ("b", "c") if self.is_primary("b") else ("c", "b")
        self.settle(owner, other)
        with FLEET.posts[owner].still():
            time.sleep(4.0)  # (by then the other one asks it)
            self.command("reopen", "--lost", owner, "--yes", "--accept-loss", "--wait", "60")
            for it in (FLEET.agents, FLEET.posts):
                it[owner].kill()
        FLEET.wait_for("the other one serves", lambda: self.is_primary(other))
        self.write(other, "behind")
        self.assertEqual(FLEET.posts[other].query("SELECT count(*) FROM s.history WHERE request = 'moved'"), [(1,)])
        self.command("repair", "--yes")
        self.settle(other, "a")
        FLEET.posts[owner].start()
        FLEET.posts[owner].wait()
        self.assertEqual(self.pg("forget", "--dsn", FLEET.posts[owner].reach).returncode, 0)
        FLEET.agents[owner].start()
        FLEET.wait_for("it answers", lambda: FLEET.answers(owner))
        self.command("add-server", owner, "--region", "r", "--room", "9", "--yes", "--wait", "60")
        FLEET.wait_for("it has nothing any more", lambda: FLEET.posts[owner].query("SELECT to_regnamespace('s')") == [(None,)])
        self.assertIn("set aside", self.pg("status", "--dsn", FLEET.posts[owner].reach).stdout)
        self.assertIn("deleted sm_aside_", self.pg("drop", "--aside", "--dsn", FLEET.posts[owner].reach).stdout)
        self.settle(other, "a")


if __name__ == "__main__":
    unittest.main()
