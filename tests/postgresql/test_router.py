"""The router over two databases of one PostgreSQL server, whose slots are set by hand."""
import json
import os
import shutil
import signal
import subprocess
import tempfile
import time
import unittest
from pathlib import Path

import servers  # (it makes the packages be found)
import psycopg
from smplan.agent import Base, Cell, Slot
from smplan_pg import adopt, bouncer
from smplan_pg.database import Database
from smplan_pg.records import Records
from smplan_pg.router import NotServed, Router

NUMBERS = {"a": 1, "b": 2}


def setUpModule():
    global FOLDER, POST, DATABASES, REACH
    FOLDER = Path(tempfile.mkdtemp(prefix="pg-test-", dir="/dev/shm"))
    os.chmod(FOLDER, 0o777)
    POST = servers.Postgres(FOLDER, "a", servers.free_ports(1)[0], 20, 3)
    if POST.make().wait():
        raise SystemExit("initdb failed")
    POST.start()
    POST.wait()
    DATABASES, REACH = {}, {it: POST.reach.replace("dbname=postgres", f"dbname={it}") for it in NUMBERS}
    for name in NUMBERS:
        POST.query(f"CREATE DATABASE {name}")
        DATABASES[name] = Database(REACH[name])
        with DATABASES[name].transaction() as tx:
            tx.execute("CREATE SCHEMA s; CREATE TABLE s.sums (id int PRIMARY KEY, n int NOT NULL); INSERT INTO s.sums VALUES (1, 0)")
        adopt.adopt(DATABASES[name], ["s"])
        with DATABASES[name].transaction() as tx:
            tx.execute("UPDATE sm.state SET me = %s, name = %s", (NUMBERS[name], name))
            tx.execute("INSERT INTO sm.servers VALUES (1, 'a', ''), (2, 'b', '')")
            Records(tx).put_base(Base(journal=9, known=1), 0)


def tearDownModule():
    POST.kill()
    shutil.rmtree(FOLDER)


def add(n):
    """A request that adds to a sum."""
    def work(cursor):
        return cursor.execute("UPDATE sums SET n = n + %s WHERE id = 1 RETURNING n", (n,)).fetchone()["n"]
    return work


class Case(unittest.TestCase):
    """A test with a shard at a."""

    def setUp(self):
        self.map = FOLDER / "map.json"
        for it in DATABASES.values():
            with it.transaction() as tx:
                tx.execute("UPDATE s.sums SET n = 0; DELETE FROM s.sm_requests; DELETE FROM s.sm_cut; UPDATE s.sm_counters SET writes = 0")
        self.slots(a=Slot(Cell.PRIMARY, load=1), b=Slot(Cell.ABSENT))
        self.show("a")
        self.router = Router(REACH, self.map, patience=3.0)

    def tearDown(self):
        for it in self.router.servers.values():
            it.close()

    def slots(self, **slots):
        for name, slot in slots.items():
            with DATABASES[name].transaction() as tx:
                Records(tx).put_slot("s", slot)
                Records(tx).put_source("s", None, True)

    def show(self, name):
        self.map.write_text(json.dumps({"entries": {"s": {"to": name, "version": 1}}}))

    def sum(self, name):
        return DATABASES[name].row("SELECT n FROM s.sums")["n"]


class RouterTest(Case):
    """Requests that are executed once, wherever the shard is."""

    def test_executed_once(self):
        self.assertEqual([self.router.run("s", it, add(5)) for it in ("r1", "r1", "r2", "r1")], [5, 5, 10, 5])
        self.assertEqual(self.sum("a"), 10)

    def test_read(self):
        self.router.run("s", "r1", add(5))
        self.assertEqual(self.router.read("s", lambda cursor: cursor.execute("SELECT n FROM sums").fetchone()["n"]), 5)

    def test_passed_on_behind_a_cut(self):
        self.slots(a=Slot(Cell.FORWARDING, 2, 1, load=1, cut=0, has_cut=1), b=Slot(Cell.PREPARED, 1, 1, load=1, cut=0, has_cut=1))
        self.assertEqual(self.router.run("s", "r1", add(5)), 5)
        self.assertEqual((self.sum("a"), self.sum("b")), (0, 5))
        self.assertEqual(self.router.counts["passed on"], 1)

    def test_not_at_a_new_owner_that_has_not_sealed(self):
        self.slots(a=Slot(Cell.FORWARDING, 2, 1, load=1, cut=0, has_cut=1), b=Slot(Cell.PREPARED, 1, 1, load=1))
        with self.assertRaises(NotServed):
            self.router.run("s", "r1", add(5))
        self.assertEqual((self.sum("a"), self.sum("b")), (0, 0))

    def test_a_server_that_stands_still(self):
        self.router.run("s", "r1", add(5))
        begun = time.monotonic()
        with POST.still(), self.assertRaises(NotServed):
            self.router.run("s", "r2", add(5))
        self.assertLess(time.monotonic() - begun, 30.0)

    def test_a_client_that_is_no_superuser(self):
        for it in DATABASES.values():
            with it.transaction() as tx:
                tx.execute("DO $$ BEGIN IF to_regrole('client') IS NULL THEN CREATE ROLE client LOGIN; END IF; END $$")
                tx.execute("GRANT USAGE ON SCHEMA sm, s TO client; GRANT SELECT, INSERT, UPDATE, DELETE ON ALL TABLES IN SCHEMA s TO client")
        router = Router({name: reach.replace("user=postgres", "user=client") for name, reach in REACH.items()}, self.map, patience=3.0)
        self.assertEqual([router.run("s", it, add(5)) for it in ("r1", "r1", "r2")], [5, 5, 10])
        self.slots(a=Slot(Cell.FORWARDING, 2, 1, load=1, cut=0, has_cut=1), b=Slot(Cell.PREPARED, 1, 1, load=1, cut=0, has_cut=1))
        self.assertEqual(router.run("s", "r3", add(5)), 5)
        self.assertEqual(router.counts["passed on"], 1)
        for it in router.servers.values():
            it.close()

    def test_work_that_takes_longer_than_the_patience(self):
        self.router.patience = 0.5
        self.assertEqual(self.router.run("s", "r1", lambda cursor: cursor.execute("SELECT pg_sleep(3)").rowcount), 1)

    def test_the_map_is_looked_at_again(self):
        self.router.run("s", "r1", add(5))
        self.slots(a=Slot(Cell.ABSENT), b=Slot(Cell.PRIMARY, load=1))
        self.show("b")
        self.assertEqual(self.router.run("s", "r2", add(1)), 1)
        self.assertEqual(self.sum("b"), 1)

    def test_a_lost_commit_is_not_executed_twice(self):
        lost = [True, True]

        def commit(c):
            c.execute("COMMIT")
            if lost:
                lost.pop()
                c.close()
                raise psycopg.OperationalError("lost")
        self.router.commit = commit
        self.assertEqual(self.router.run("s", "r1", add(5)), 5)
        self.assertEqual(self.sum("a"), 5)
        self.assertEqual(self.router.counts["again"], 2)

    def test_a_commit_that_never_came_is_executed(self):
        lost = [True]

        def commit(c):
            if lost:
                lost.pop()
                c.close()
                raise psycopg.OperationalError("lost")
            c.execute("COMMIT")
        self.router.commit = commit
        self.assertEqual(self.router.run("s", "r1", add(5)), 5)
        self.assertEqual(self.sum("a"), 5)

    def test_what_the_work_raises_comes_back_and_changes_nothing(self):
        def work(cursor):
            cursor.execute("UPDATE sums SET n = 99")
            cursor.execute("INSERT INTO sums VALUES (1, 0)")
        with self.assertRaises(psycopg.errors.UniqueViolation):
            self.router.run("s", "r1", work)
        self.assertEqual(self.sum("a"), 0)
        self.assertEqual(self.router.run("s", "r1", add(5)), 5)

    def test_not_acknowledged_until_the_members_have_it(self):
        with DATABASES["a"].transaction() as tx:
            Records(tx).put_members("s", {2: False})
        try:
            with self.assertRaises(NotServed):
                self.router.patience = 0.5
                self.router.run("s", "r1", add(5))
        finally:
            with DATABASES["a"].transaction() as tx:
                Records(tx).put_members("s", {})
        self.router.patience = 3.0
        self.assertEqual(self.router.run("s", "r1", add(5)), 5)
        self.assertEqual(self.sum("a"), 5)

    def test_a_server_that_is_not_known(self):
        self.show("z")
        self.router.patience = 0.2
        with self.assertRaises(NotServed):
            self.router.run("s", "r1", add(5))


GOCODE = Path("/usr/share/gocode")


@unittest.skipUnless(shutil.which("go") and (GOCODE / "src/github.com/lib/pq").exists(), "there is no go, or no golang-github-lib-pq-dev")
class GoTest(Case):
    """The router in Go, over lib/pq."""

    @classmethod
    def setUpClass(cls):
        here = FOLDER / "go/src/hammerecru.example/smplan-pg"
        here.mkdir(parents=True)
        for path in (servers.ROOT / "ports/postgresql/go").glob("*.go"):
            shutil.copy(path, here)
        cls.environment = {**os.environ, "GOPATH": f"{FOLDER}/go:{GOCODE}", "GO111MODULE": "off", "GOCACHE": f"{FOLDER}/cache", "GOFLAGS": ""}
        main = Path(__file__).parent / "go/main.go"
        for words in (["go", "vet", str(here)], ["go", "build", "-o", str(FOLDER / "requests"), str(main)]):
            subprocess.run(words, env=cls.environment, cwd=FOLDER, check=True)

    def setUp(self):
        super().setUp()
        words = [str(FOLDER / "requests"), str(self.map), *(f"{name}={reach} sslmode=disable" for name, reach in REACH.items())]
        self.process = subprocess.Popen(words, stdin=subprocess.PIPE, stdout=subprocess.PIPE, text=True)

    def tearDown(self):
        self.process.stdin.close()
        self.process.wait()
        self.process.stdout.close()
        super().tearDown()

    def ask(self, identity, n, statement="UPDATE sums SET n = n + $1 WHERE id = 1 RETURNING n", patience=3.0):
        self.process.stdin.write(json.dumps({"Shard": "s", "Identity": identity, "N": n, "Statement": statement, "Patience": patience}) + "\n")
        self.process.stdin.flush()
        told = json.loads(self.process.stdout.readline())
        return told["reply"] if told["error"] == "<nil>" else told["error"]

    def test_executed_once_and_read(self):
        self.assertEqual([self.ask(it, 5) for it in ("r1", "r1", "r2", "r1")], [5, 5, 10, 5])
        self.assertEqual(self.ask("", 1, "SELECT n + $1 FROM sums"), 11)

    def test_passed_on_behind_a_cut_that_is_reached(self):
        self.slots(a=Slot(Cell.FORWARDING, 2, 1, load=1, cut=0, has_cut=1), b=Slot(Cell.PREPARED, 1, 1, load=1))
        self.assertIn("not served", self.ask("r1", 5, patience=0.5))
        self.slots(b=Slot(Cell.PREPARED, 1, 1, load=1, cut=0, has_cut=1))
        self.assertEqual(self.ask("r1", 5), 5)
        self.assertEqual((self.sum("a"), self.sum("b")), (0, 5))

    def test_the_map_is_looked_at_again(self):
        self.ask("r1", 5)
        self.slots(a=Slot(Cell.ABSENT), b=Slot(Cell.PRIMARY, load=1))
        self.show("b")
        self.assertEqual(self.ask("r2", 1), 1)

    def test_connections_that_were_ended_are_replaced(self):
        self.ask("r1", 5)
        POST.query("SELECT pg_terminate_backend(pid) FROM pg_stat_activity WHERE datname = 'a' AND application_name = ''")
        self.assertEqual([self.ask(it, 5) for it in ("r1", "r2")], [5, 10])

    def test_not_acknowledged_until_the_members_have_it(self):
        with DATABASES["a"].transaction() as tx:
            Records(tx).put_members("s", {2: False})
        try:
            self.assertIn("not served", self.ask("r1", 5, patience=0.5))
        finally:
            with DATABASES["a"].transaction() as tx:
                Records(tx).put_members("s", {})
        self.assertEqual((self.ask("r1", 5), self.sum("a")), (5, 5))

    def test_a_server_that_stands_still(self):
        self.ask("r1", 5)
        begun = time.monotonic()
        with POST.still():
            self.assertIn("not served", self.ask("r2", 5))
        self.assertLess(time.monotonic() - begun, 30.0)
        self.assertEqual([self.ask(it, 5, patience=20.0) for it in ("r2", "r2", "r3")], [10, 10, 15])

    def test_work_that_takes_longer_than_the_patience(self):
        self.assertEqual(self.ask("r1", 3, "SELECT 1 FROM pg_sleep($1)", patience=0.5), 1)

    def test_what_the_work_raises_comes_back_and_changes_nothing(self):
        self.assertIn("duplicate key", self.ask("r1", 1, "INSERT INTO sums VALUES ($1, 0) RETURNING n"))
        self.assertEqual(self.ask("r1", 5), 5)


@unittest.skipUnless(shutil.which("pgbouncer", path=f"{os.environ['PATH']}:/usr/sbin"), "there is no pgbouncer")
class BouncerTest(Case):
    """pgbouncer with pools of transactions in front: each shard is a database, which is wherever the map lists it."""

    def setUp(self):
        super().setUp()
        self.port = servers.free_ports(1)[0]
        self.write()
        settings = FOLDER / "pgbouncer.ini"
        settings.write_text(f"""%include {FOLDER}/shards.ini
[pgbouncer]
listen_addr = 127.0.0.1
listen_port = {self.port}
auth_type = any
pool_mode = transaction
unix_socket_dir = {FOLDER}
ignore_startup_parameters = extra_float_digits, options
""")
        self.process = servers.Process("pgbouncer", [shutil.which("pgbouncer", path="/usr/sbin"), str(settings)], FOLDER / "pgbouncer.log", **servers.as_postgres())
        self.process.start()
        self.reach = f"host=127.0.0.1 port={self.port} dbname=s user=postgres"
        for _ in range(200):
            try:
                psycopg.connect(self.reach, connect_timeout=10).close()
                break
            except psycopg.Error:
                time.sleep(0.05)

    def tearDown(self):
        self.process.stop()
        super().tearDown()

    def write(self):
        (FOLDER / "shards.ini").write_text("\n".join(bouncer.databases_of(str(self.map), REACH)) + "\n")

    def plain(self):
        with psycopg.connect(self.reach, prepare_threshold=None) as c:
            return c.execute("UPDATE sums SET n = n + 1 RETURNING n, current_database()").fetchone()

    def test_plain_clients_go_where_the_map_says(self):
        self.assertEqual(self.plain(), (1, "a"))
        self.slots(a=Slot(Cell.ABSENT), b=Slot(Cell.PRIMARY, load=1))
        with self.assertRaisesRegex(psycopg.Error, "is not served here"):
            self.plain()
        self.show("b")
        self.write()
        os.kill(self.process.process.pid, signal.SIGHUP)
        for _ in range(100):
            try:
                self.assertEqual(self.plain(), (1, "b"))
                return
            except psycopg.Error:
                time.sleep(0.05)
        self.fail("not within 5 s")

    def test_the_router_through_it(self):
        router = Router({"a": self.reach}, self.map, patience=5.0)
        self.assertEqual([router.run("s", it, add(5)) for it in ("r1", "r1", "r2")], [5, 5, 10])
        router.servers["a"].close()


if __name__ == "__main__":
    unittest.main()
