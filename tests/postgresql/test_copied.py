"""Several PostgreSQL servers, each a database, whose writes are to be at two of them: who counts, what is acknowledged, leave, and what a controller is told.
Steps that show a rule are taken over a server that breaks it, too, and show that."""
import contextlib
import io
import threading
import unittest
from dataclasses import replace
from unittest import mock

from test_servers import Several, setUpModule, tearDownModule  # (one PostgreSQL for all)
from smplan.agent import Base, Cell, Slot
from smplan_pg import status, streams
from smplan_pg.command_line import main
from smplan_pg.copied import Copied
from smplan_pg.database import value
from smplan_pg.records import Records
from smplan_pg.server import Limits

# What counts whoever there is.
ALL = "CREATE OR REPLACE FUNCTION sm.has_copies(in_shard text, until pg_lsn) RETURNS bool LANGUAGE sql AS 'SELECT true'"
AGAIN = "it has to ask again: it counted until now"
FEWER = "fewer than 2 others have all"


class CopiedTest(Several):
    """Server a leads, b and c follow. Who follows has what a test says."""

    limits = Limits(answering=60.0, resting=0.05, copies=2)

    def setUp(self):
        super().setUp()
        for it in self.its.values():
            it.database.do("UPDATE sm.state SET copies = 2, settled = 0, heard = 0")
            for table in ("slots", "connections", "leaving"):
                it.database.do(f"DELETE FROM sm.{table}")
        self.a, self.lines, self.answer, self.state, self.known = self.its["a"].database, [], {"copied": {}}, {}, 1
        self.its["a"].limits, self.its["a"].controllers, self.its["a"].call = self.limits, ["http://away", "http://leader"], self.say
        self.its["a"].copied = Copied(self.its["a"])

    def say(self, url, line, _):
        """Controllers, of which one answers."""
        if not url.startswith("http://leader/") or self.answer is None:
            raise OSError("it does not lead")
        if url.endswith("/ask"):
            state = {"is": "open", "journal": "9", "fence": value(self.a.row("SELECT settled FROM sm.state")), **self.state}
            return {"state": {**state, "shards": [{"shard": self.shard, "copies": self.known}]}}
        self.lines.append((line["fence"], line["copies"]))
        return self.answer

    @contextlib.contextmanager
    def broken(self):
        """Server a counts all, in a transaction of its own."""
        with self.a.connection() as c:
            sound = value(c.execute("SELECT pg_get_functiondef('sm.has_copies'::regproc)").fetchone())
            c.execute(ALL)
            try:
                yield
            finally:
                c.execute(sound)

    def both(self, steps, sound, broken):
        """Takes steps over a server that counts as it has to, and over one that counts all."""
        self.assertEqual(steps(), sound)
        with self.broken():
            self.setUp()
            self.assertEqual(steps(), broken)

    def lead(self, followers="b", cell=Cell.SECONDARY):
        """Server a leads, and others follow that have all."""
        self.put("a", Cell.PRIMARY, 5)
        self.addCleanup(streams.drop_streams, self.a, self.shard)
        for name in followers:
            self.put(name, cell, 5)
            streams.make_stream(self.a, self.shard, self.its[name].number, 60.0)
            self.assertTrue(self.join(name))
            self.read(name)

    def join(self, name):
        return self.its[name].sources.join(self.shard, 1)

    def read(self, name):
        """A follower has all that server a's log has by now."""
        self.a.row("SELECT pg_replication_slot_advance(sm.stream(%s, %s), pg_current_wal_flush_lsn())", self.shard, self.its[name].number)

    @contextlib.contextmanager
    def reading(self, *names):
        """Followers read all that comes meanwhile, too."""
        ended = threading.Event()

        def read():
            while not ended.wait(0.005):
                for it in names:
                    self.read(it)

        thread = threading.Thread(target=read)
        thread.start()
        try:
            yield
        finally:
            ended.set()
            thread.join()

    def acknowledged(self, *readers):
        with self.reading(*readers):
            return value(self.a.row("SELECT sm.acknowledged(%s, %s)", self.shard, "5 s" if readers else "50 ms"))

    def connections(self):
        return {it["server"]: it["settled"] for it in self.a.rows("SELECT server, settled FROM sm.connections WHERE shard = %s", self.shard)}

    def members(self):
        with self.a.transaction() as tx:
            return Records(tx).members(self.shard)

    def settle(self, name, number):
        self.its[name].database.do("UPDATE sm.state SET settled = %s, heard = %s", number, number)

    # -- who counts, and what is acknowledged

    def test_what_two_have_is_acknowledged(self):
        def steps():
            self.lead("")
            told = [self.acknowledged()]
            streams.make_stream(self.a, self.shard, 2, 60.0)
            self.a.row("SELECT sm.join(%s, 2)", self.shard)  # (as one does that has to be waited for, and is not whole yet)
            with self.reading("b"):
                return [*told, value(self.a.row("SELECT sm.acknowledged(%s, '0.5 s')", self.shard))]

        self.both(steps, [False, False], [True, True])
        self.shard += "x"
        self.lead()
        self.write("a", 6)
        self.assertEqual([self.acknowledged(), self.acknowledged("b")], [False, True])
        with self.a.transaction() as tx:
            Records(tx).put_members(self.shard, {})
        self.assertFalse(self.acknowledged())
        self.a.do("UPDATE sm.state SET copies = 1")
        self.assertTrue(self.acknowledged())

    def test_who_has_all_counts_beside_one_that_lags(self):
        """Who is left out since it lags is not waited for, as long as enough others have all."""
        self.lead("bc")
        self.write("a", 6)
        self.read("b")
        self.assertFalse(self.acknowledged())
        self.its["a"].keeping.leave_out(f"no {self.shard}", (self.shard, 3, False))
        self.assertTrue(self.acknowledged("b"))

    def test_who_is_needed_is_waited_for_though_it_is_silent(self):
        self.lead("bc")
        keeping, clock, found = self.its["a"].keeping, [0.0], []
        with mock.patch.object(self.its["a"].silence, "now", lambda: clock[0]):
            for clock[0] in (0.0, 100.0, 200.0, 300.0):
                keeping.leave_out_the_dead()
                found.append(len(self.members()))
            self.a.do("UPDATE sm.state SET copies = 1")
            for clock[0] in (301.0, 310.0):
                keeping.leave_out_the_dead()
                found.append(len(self.members()))
        self.assertEqual(found, [2, 1, 1, 1, 1, 0])

    def test_a_stream_that_is_gone_is_not_waited_for(self):
        self.lead()
        streams.drop_streams(self.a, self.shard)
        with mock.patch.object(self.its["a"].silence, "now", lambda: clock[0]):
            for clock in ([0.0], [100.0]):
                self.its["a"].keeping.leave_out_the_dead()
        self.assertEqual(self.members(), {})

    def test_who_connects_settled_at_the_last_reopening_counts(self):
        self.lead()
        whole, line = self.its["a"].whole, {"shard": self.shard, "cell": "primary", "load": 1}
        whole.fence({"journal": "9", "base": 100})
        self.assertTrue(self.acknowledged("b"))
        whole.settle({"journal": "9", "base": 100, "nonce": None, "slots": [line]})
        with self.reading("b"):
            self.assertFalse(self.acknowledged())
            self.join("b")
            self.assertEqual((self.acknowledged(), self.connections()), (False, {2: 0}))
        for number in (100, 200):
            self.settle("b", number)
            self.join("b")
            self.assertEqual((self.acknowledged("b"), self.connections()), (True, {2: number}))

    def test_what_a_follower_says_as_it_connects(self):
        self.lead()
        b = self.its["b"].database
        self.assertEqual(self.connections(), {2: 0})
        for change in ("state SET fenced = 1", "state SET known = 0", "state SET journal = 8", "state SET copies = 1", "slots SET is_whole = false",
                       "slots SET at_work = 5", "slots SET cell = 1", "slots SET cell = 2", "leaving SET question = 7"):
            with self.subTest(change):
                b.do("DELETE FROM sm.leaving")
                if change.startswith("leaving"):
                    b.row("SELECT sm.begin_leaving(%s, 1)", self.shard)
                b.do(f"UPDATE sm.{change}")
                self.join("b")
                self.assertEqual((self.connections(), self.members()), ({}, {2: False}))
                b.do("DELETE FROM sm.leaving; UPDATE sm.state SET copies = 2")
                self.put("b", Cell.SECONDARY, 5)
                self.join("b")
                self.assertEqual(self.connections(), {2: 0})

    def test_who_has_to_connect_anew(self):
        self.lead()
        following = self.its["b"].following

        def has_to_join():
            return following.has_to_join(self.its["b"].sources.offer(1, self.shard), following.state(self.shard))

        told = [has_to_join()]
        self.settle("b", 100)
        told.append(has_to_join())
        self.join("b")
        told.append(has_to_join())
        with self.a.transaction() as tx:
            Records(tx).put_members(self.shard, {2: True})
        told.append(has_to_join())
        self.put("b", Cell.FORWARDING, 5)
        told.append(has_to_join())
        self.join("b")
        told.append(has_to_join())
        self.assertEqual((told, self.members()), ([False, True, False, True, True, False], {2: True}))
        self.its["b"].database.do("UPDATE sm.state SET copies = 1")
        self.a.do("DELETE FROM sm.connections")
        self.assertFalse(has_to_join())

    def test_connections_end(self):
        """By a copy that is made anew, and as another server begins to lead, or this one anew."""
        self.lead()
        self.a.row("SELECT sm.copy(%s, 2, 9)", self.shard)
        self.a.row("SELECT sm.part(%s, 2)", self.shard)
        self.assertEqual((self.connections(), self.members()), ({}, {}))
        self.a.do("DELETE FROM sm.copied")
        self.join("b")
        with self.a.transaction() as tx:
            self.its["a"].whole.begin_view(tx, self.shard, 7, {2: False})
        with self.reading("b"):
            self.assertEqual((self.connections(), self.members(), self.acknowledged()), ({}, {2: False}, False))
        self.join("b")
        self.assertTrue(self.acknowledged("b"))

    # -- leave

    def ask(self):
        """Server b asks a for leave."""
        return value(self.a.row("SELECT sm.leave(%s, 2, 9, 0, false, 0, 0)", self.shard))

    def test_leave_once_two_others_have_all(self):
        def steps():
            self.lead("bc")
            self.write("a", 6)
            return [self.ask(), self.ask(), self.connections(), self.members()]
        self.both(steps, [AGAIN, FEWER, {3: 0}, {3: False}], [AGAIN, "leave", {3: 0}, {3: False}])
        self.shard += "x"
        self.lead("bc")
        self.write("a", 6)
        self.assertIn(FEWER, self.order("b", "drop", "abc", "a")["said"])
        with self.reading("c"):
            self.assertEqual((self.order("b", "drop", "abc", "a"), self.has("b")), ({"done": True}, False))

    def test_an_old_owner_counts_no_more_for_the_copies_once_it_has_leave(self):
        self.lead("bc", Cell.FORWARDING)
        with self.a.transaction() as tx:
            Records(tx).put_members(self.shard, {2: True, 3: False})
        for name in "bc":
            self.join(name)
        with self.reading("c"):
            self.assertEqual([self.ask(), self.ask()], [AGAIN, "leave"])
        self.assertEqual((self.connections(), self.members()), ({3: 0}, {2: True, 3: False}))

    def test_without_a_primary_two_others_give_leave(self):
        for cell, primary in ((Cell.SECONDARY, None), (Cell.PRIMARY, "a")):
            with self.subTest(cell):
                self.shard += "x"
                for name, one, position in (("a", cell, 5), ("b", Cell.SECONDARY, 5), ("c", Cell.SECONDARY, 4)):
                    self.put(name, one, position)
                self.assertIn("fewer than 2 others are named", self.order("a", "drop", "ab", primary)["said"])
                self.assertIn("it lacks writes", self.order("a", "drop", "abc", primary)["said"])
                self.write("c", 5)
                self.assertEqual((self.order("a", "drop", "abc", primary), self.has("a")), ({"done": True}, False))
                self.assertIn("named", self.order("b", "drop", "bc", None)["said"])

    def test_no_leave_for_a_view_behind_the_last_reopening(self):
        for name in "abc":
            self.put(name, Cell.SECONDARY, 5)
            self.its[name].database.do(f"INSERT INTO {self.shard}.sm_views VALUES (0, 0), (7, 2)")
        self.assertIn("nobody leads it", self.order("a", "drop", "abc")["said"])
        for name in "abc":
            self.settle(name, 7)
        self.assertEqual(self.order("a", "drop", "abc"), {"done": True})

    # -- what is told

    def tell(self):
        """What server a tells now."""
        before = len(self.lines)
        self.its["a"].copied.recorded.until = 0.0
        self.its["a"].copied.tell()
        return self.lines[before:]

    def test_told_once_two_have_the_noted_position(self):
        def steps():
            self.lead()
            self.write("a", 6)
            return self.tell()
        self.both(steps, [], [(0, 2)])
        self.shard += "x"
        self.lead()
        self.write("a", 6)
        self.assertEqual(self.tell(), [])
        self.read("b")
        self.write("a", 7)  # (behind what was noted)
        self.assertEqual([self.tell(), self.tell()], [[(0, 2)], []])

    def test_told_again_behind_a_reopening_a_start_and_as_it_leads_anew(self):
        self.lead()
        self.its["a"].copied.tell()
        self.read("b")
        self.its["a"].copied.tell()
        self.assertEqual(self.lines, [(0, 2)])
        self.a.do("UPDATE sm.state SET number = 100, fenced = 1")
        self.assertEqual(self.tell(), [])
        self.a.do("UPDATE sm.state SET fenced = 0, settled = 100, heard = 100")
        self.assertEqual(self.tell(), [])
        self.settle("b", 100)
        self.join("b")
        self.read("b")
        self.assertEqual([self.tell(), self.tell()], [[(100, 2)], []])
        self.its["a"].whole.start()
        self.assertEqual(self.tell(), [])
        self.read("b")
        self.assertEqual([self.tell(), self.tell()], [[(100, 2)], []])
        with self.a.transaction() as tx:
            self.its["a"].whole.begin_view(tx, self.shard, 107, {2: False})
        self.assertEqual(self.tell(), [])
        self.join("b")
        self.assertEqual(self.tell(), [])
        self.read("b")
        self.assertEqual([self.tell(), self.tell()], [[(100, 2)], []])

    def test_told_until_a_controller_answers(self):
        self.lead()
        self.answer = None
        self.tell()
        self.read("b")
        self.assertEqual(self.tell(), [])
        self.answer = {"refused": {"kind": "AboveWant", "shard": self.shard, "want": 1}}
        with mock.patch("sys.stderr", io.StringIO()) as said:
            self.assertEqual([self.tell(), self.tell()], [[(0, 2)], []])
        self.assertIn("AboveWant", said.getvalue())

    def test_told_until_a_controller_knows(self):
        self.lead()
        self.state = {"is": "reopening"}
        self.tell()
        self.read("b")
        for self.state in ({"is": "reopening"}, {"fence": 3}, {"journal": "8"}):
            self.assertEqual(self.tell(), [])
        self.state, self.answer = {}, {"ignored": "old"}
        self.assertEqual([self.tell(), self.tell()], [[(0, 2)]] * 2)
        self.known = 2
        self.assertEqual(self.tell(), [])
        self.known = 1
        self.assertEqual(self.tell(), [])  # (it never falls under one reopening)

    def test_who_follows_or_has_one_copy_tells_nothing(self):
        self.lead()
        self.a.do("UPDATE sm.state SET copies = 1")
        self.assertEqual(self.tell(), [])
        self.a.do("UPDATE sm.state SET copies = 2")
        with self.a.transaction() as tx:
            Records(tx).put_slot(self.shard, Slot(cell=Cell.SECONDARY, load=1))
        self.assertEqual(self.tell(), [])

    def test_they_get_fewer_only_by_the_settle_of_a_later_reopening(self):
        self.put("a", Cell.PRIMARY, 5)
        its, found = self.its["a"], []
        its.limits = replace(self.limits, copies=1)
        with mock.patch.object(its, "say") as said:
            its.whole.start()
        with self.a.transaction() as tx:
            it = Records(tx)
            for number, copies, may_fall in ((0, 1, True), (100, 1, False), (200, 1, True), (200, 3, True), (300, 4, False)):
                it.put_base(Base(journal=9, number=number, known=1), number)
                it.put_settled(number, copies, may_fall)
                found.append((it.copies(), it.settled()))
        self.assertEqual((found, "only what 2 servers have" in str(said.call_args)), ([(2, 0), (2, 100), (1, 200), (3, 200), (4, 300)], True))

    def test_who_was_carried_over_and_is_restored_keeps_the_number_that_it_told(self):
        """Servers a and c are settled at a reopening, b is carried over, and started with --copies 1. Server a becomes a secondary, since b told 2 as before: so
        b may lead next, behind a restore."""
        self.lead("bc")
        b = self.its["b"]
        for name in "ac":
            self.settle(name, 100)
        self.join("c")
        with mock.patch.object(b, "limits", replace(self.limits, copies=1)):
            b.whole.start()
            with self.reading("b", "c"):
                told = self.order("a", "change", "abc", "a", **{"role": "primary", "from": "primary", "to": "secondary"})
            self.assertEqual(told, {"done": True})
            b.whole.notice({"journal": "9", "fence": 100})
            nonce = value(b.database.row("SELECT nonce FROM sm.state"))
            slots = [{"shard": self.shard, "cell": "secondary", "load": 1}]
            b.whole.restore({"journal": "9", "fence": 100, "base": 120, "nonce": f"{nonce:x}", "slots": slots})
            self.assertEqual(b.database.row("SELECT known, settled, copies FROM sm.state"), {"known": 1, "settled": 100, "copies": 2})
            b.whole.fence({"journal": "9", "base": 200})
            b.whole.settle({"journal": "9", "base": 200, "nonce": None, "slots": slots})
            self.assertEqual(b.database.row("SELECT known, settled, copies FROM sm.state"), {"known": 1, "settled": 200, "copies": 1})

    def test_who_counts_by_fewer_is_not_to_lead_next(self):
        reason = "working: b acknowledges what 1 servers have, and a only what 2 have: start b with --copies 2"
        for copies, wanted in ((1, reason), (2, None)):
            for call, rest in (("prepare_drop", {"to": "b", "handover": 1}), ("change", {"role": "primary", "from": "primary", "to": "secondary"}), ("drop", {})):
                self.shard += "x"
                self.lead()
                self.its["b"].database.do("UPDATE sm.state SET copies = %s", copies)
                told = self.order("a", call, "ab", "a", **rest).get("said", "done")
                self.assertEqual(told == reason, wanted is not None, (call, told))

    def test_nothing_is_copied_from_one_that_counts_by_more(self):
        self.lead("")
        b = self.its["b"]
        b.database.do("UPDATE sm.state SET copies = 1")
        with self.assertRaisesRegex(streams.Stuck, "b acknowledges what 1 servers have, and a only what 2 have"):
            b.copies.make(self.shard, 1, lambda: True, lambda _: None)

    def test_a_write_is_at_one_server_at_least(self):
        for words in ("0", "-1", "x"):
            with mock.patch("sys.stderr", io.StringIO()) as said, self.assertRaises(SystemExit):
                main(["serve", f"--copies={words}"])
            self.assertIn(f"--copies: {words}: a write is at one server at least", said.getvalue())

    def test_said_in_the_log_and_by_status(self):
        self.lead()
        its, clock = self.its["a"], [0.0]
        with mock.patch.object(its, "say") as said, mock.patch.object(its.silence, "now", lambda: clock[0]):
            for clock[0] in (0.0, 1.0, 10.0, 20.0):
                self.write("a", clock[0])
                its.copied.look()
                self.assertEqual(said.call_count, int(clock[0] >= 10.0))
            self.read("b")
            its.copied.look()
            self.assertEqual(its.copied.short, {})
        self.assertIn(f"fewer than 2 servers have what is written of {self.shard}", str(said.call_args))
        self.tell()
        self.read("b")
        self.tell()
        told = status.status_of(self.a)
        self.assertIn("2 copies of each write", "\n".join(status.lines_of(told)))
        self.assertIn("2 copies told", "\n".join(status.lines_of(told)))


if __name__ == "__main__":
    unittest.main()
