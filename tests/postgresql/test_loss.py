"""Three PostgreSQL servers with a controller, where each write is at two of them: one is lost for good while clients write."""
import subprocess
import tempfile
import threading
import unittest

import servers  # (it makes the packages be found)
import test_fleet
from smplan_pg.router import Router


class Load(threading.Thread):
    """A client that writes all the time, and knows what was acknowledged."""

    def __init__(self, fleet, number):
        super().__init__(daemon=True)
        self.router, self.number, self.done, self.ended = Router({name: it.reach for name, it in fleet.posts.items()}, fleet.map_files[0], 120.0), number, [], False

    def run(self):
        while not self.ended:
            identity = f"{self.number}-{len(self.done)}"
            self.router.run("s", identity, lambda cursor, it=identity: cursor.execute("INSERT INTO history (request) VALUES (%s)", (it,)).rowcount)
            self.done.append(identity)


class LossTest(unittest.TestCase):
    """The primary of a shard is lost for good while clients write, whose writes are each at two of three servers before they are acknowledged."""

    def setUp(self):
        self.folder = tempfile.TemporaryDirectory(prefix="pg-test-", dir="/dev/shm")
        self.addCleanup(self.folder.cleanup)
        self.fleet = test_fleet.made(self.folder, "bc", "--copies", "2")
        self.addCleanup(self.fleet.close)
        self.its = [Load(self.fleet, it) for it in range(3)]

    def copies(self):
        return self.fleet.state()["shards"][0].get("copies", 1)

    def count(self):
        return sum(len(it.done) for it in self.its)

    def writes_go_on(self, most=120.0):
        before = self.count()
        self.fleet.wait_for("writes are acknowledged", lambda: self.count() > before + 20, most)

    def test_no_shard_is_named_and_no_write_is_lost(self):
        fleet = self.fleet
        fleet.wait_for("b and c have whole copies", lambda: fleet.posts["a"].query("SELECT count(*) FROM s.sm_members") == [(2,)], 120)
        for it in self.its:
            it.start()
        fleet.wait_for("two copies are told", lambda: self.copies() == 2, 120)
        self.writes_go_on()
        fleet.agents["c"].kill()
        fleet.posts["c"].kill()
        fleet.wait_for("a goes on with b alone", lambda: fleet.posts["a"].query("SELECT server FROM s.sm_members") == [(2,)], 60)
        self.writes_go_on()
        for it in (fleet.agents, fleet.posts):
            it["a"].kill()
        fleet.posts["c"].start()
        fleet.posts["c"].wait()
        fleet.agents["c"].start()
        fleet.wait_for("c answers", lambda: fleet.answers("c"))
        told = subprocess.run([str(servers.ROOT / "scripts/smplan-control"), "reopen", "--controller", fleet.pages[0], "--lost", "a", "--yes", "--wait", "60"],
                              capture_output=True, text=True, check=False)
        self.assertEqual(told.returncode, 0, told.stdout + told.stderr)
        fleet.wait_for("b serves", lambda: fleet.posts["b"].query("SELECT cell FROM sm.slots WHERE shard = 's'") == [(4,)])
        self.writes_go_on()
        fleet.wait_for("two copies are told again", lambda: self.copies() == 2, 120)
        for it in self.its:
            it.ended = True
        for it in self.its:
            it.join(120)
            for database in it.router.servers.values():
                database.close()
        has = {it for (it,) in fleet.posts["b"].query("SELECT request FROM s.history")}
        self.assertEqual([it for client in self.its for it in client.done if it not in has], [])


if __name__ == "__main__":
    unittest.main()
