"""What writes wait for in a handover, over several PostgreSQL servers, each a database: nobody waits for work that can be done before, beside or later."""
import threading
import time
import unittest
from concurrent.futures import ThreadPoolExecutor
from unittest import mock

from test_servers import Several, setUpModule, tearDownModule  # (one PostgreSQL for all)
from smplan.agent import Base, Cell, Slot
from smplan_pg import copies, following, streams
from smplan_pg.database import value
from smplan_pg.records import Cut, Records


class PauseTest(Several):
    """Server a hands over to b, c follows."""

    def setUp(self):
        super().setUp()
        self.a, self.b, self.c = (self.its[it] for it in "abc")
        self.addCleanup(self.tidy)

    def tidy(self):
        for it in self.its.values():
            with it.database.connection() as c:
                mine = streams.name_of(c, self.shard, it.number)
            streams.halt(it.database, mine, 30.0)
            with it.database.transaction() as tx:
                streams.drop_subscription(tx, mine)
        for it in self.its.values():
            streams.drop_streams(it.database, self.shard)
            it.database.do("DELETE FROM sm.slots")

    def handed(self):
        """Behind the cut: it has come to all, and b has not sealed yet."""
        self.cut = Cut(handover=7, position=5, party=2, sequences={})
        for name, slot in (("a", Slot(cell=Cell.FORWARDING, party=2, handover=7, cut=5, has_cut=1)), ("b", Slot(cell=Cell.PREPARED, party=1, handover=7)),
                           ("c", Slot(cell=Cell.SECONDARY))):
            self.put(name, slot.cell, 5)
            with self.its[name].database.transaction() as tx:
                it = Records(tx)
                it.put_slot(self.shard, slot)
                it.put_cut(self.shard, self.cut)
        with self.b.database.transaction() as tx:
            Records(tx).put_members(self.shard, {2: False, 3: False})
        with self.c.database.transaction() as tx:
            Records(tx).put_source(self.shard, 1, True)

    def subscription(self):
        """Where c's stream comes from, and whether it has begun."""
        row = self.c.database.row("SELECT subconninfo, subenabled FROM pg_subscription WHERE subname = sm.stream(%s, 3)", self.shard)
        return row and ("_b" in row["subconninfo"], row["subenabled"])

    def source(self):
        return value(self.c.database.row("SELECT source FROM sm.slots WHERE shard = %s", self.shard))

    def until(self, what, condition, seconds=60.0):
        until = time.monotonic() + seconds
        while not condition():
            self.assertLess(time.monotonic(), until, what)
            time.sleep(0.01)

    def test_a_follower_gets_ready_while_the_new_owner_seals(self):
        self.handed()
        with ThreadPoolExecutor() as pool:
            told = pool.submit(self.c.following.go_over, self.shard, 2, 60.0)
            self.until("it is ready", lambda: self.subscription() == (True, False))
            self.assertEqual((told.done(), self.source()), (False, None))
            self.b.following.seal(self.shard, self.cut)
            self.assertTrue(told.result(60))
        self.assertEqual((self.subscription(), self.source()), ((True, True), 2))
        with self.b.database.transaction() as tx:
            Records(tx).count(self.shard)
            tx.execute(f"INSERT INTO {self.shard}.things (word) VALUES ('new')")
        self.until("the new owner's write is there", lambda: self.c.database.rows(f"SELECT word FROM {self.shard}.things") == [{"word": "new"}])
        place = "SELECT sm.view(%s) AS view, sm.position(%s) AS position"
        self.assertEqual(*(it.database.row(place, self.shard, self.shard) for it in (self.b, self.c)))

    def test_a_follower_stays_where_nobody_takes_over(self):
        self.handed()
        self.b.database.do("UPDATE sm.slots SET cell = 1 WHERE shard = %s", self.shard)
        self.assertFalse(self.c.following.go_over(self.shard, 2, 0.2))
        self.assertEqual((self.subscription(), self.source()), (None, 1))
        with mock.patch.object(self.c.sources, "offer", side_effect=OSError("it is gone")):
            self.assertFalse(self.c.following.go_over(self.shard, 2, 60.0))

    def test_a_follower_with_other_writes_does_not_begin(self):
        self.handed()
        self.write("c", 4)
        self.b.following.seal(self.shard, self.cut)
        self.assertFalse(self.c.following.go_over(self.shard, 2, 0.2))
        self.assertEqual((self.subscription(), self.source()), (None, 1))

    def test_who_is_woken_amid_a_look_looks_again(self):
        looks, first, goes_on = [], threading.Event(), threading.Event()

        def look(shard):
            looks.append(shard)
            first.set()
            goes_on.wait(60)

        with mock.patch.object(self.c.following, "look", look):
            self.c.following.wake("it")
            self.assertTrue(first.wait(60))
            self.c.following.look_beside("it")
            self.assertEqual(self.c.following.busy, {"it": False})
            self.c.following.wake("it")
            self.c.following.wake("it")
            goes_on.set()
            self.until("it has looked", lambda: not self.c.following.busy)
        self.assertEqual(looks, ["it", "it"])

    def test_streams_that_were_just_made_are_not_moved(self):
        with mock.patch.object(streams, "advance") as advance:
            for handover, seconds, times in ((7, 5.0, 0), (7, 5.0, 0), (7, 0.0, 1), (8, 0.0, 1), (8, 0.0, 2)):
                with mock.patch.object(following, "ADVANCING", seconds):
                    self.b.following.advance(self.shard, handover)
                self.assertEqual(advance.call_count, times)

    def test_a_member_that_leaves_is_waited_for_no_more(self):
        self.put("b", Cell.PRIMARY, 5)
        streams.make_stream(self.b.database, self.shard, 3, 60.0)
        with self.b.database.transaction() as tx:
            it = Records(tx)
            it.put_members(self.shard, {3: True})
            it.count(self.shard)
        with ThreadPoolExecutor() as pool:
            told = pool.submit(self.b.database.row, "SELECT sm.acknowledged(%s, '60 s')", self.shard)
            time.sleep(0.5)  # (by then it looks seldom)
            self.assertFalse(told.done())
            self.b.database.row("SELECT sm.left(%s, 3)", self.shard)
            begun = time.monotonic()
            self.assertTrue(value(told.result(60)))
        self.assertLess(time.monotonic() - begun, 0.1)

    def test_an_old_owner_has_what_waits_for_it_before_it_leaves(self):
        self.handed()
        streams.make_stream(self.b.database, self.shard, 1, 60.0)
        self.b.following.seal(self.shard, self.cut)
        self.assertTrue(self.a.following.go_over(self.shard, 2, 60.0))
        self.b.database.do("UPDATE sm.slots SET cell = 4 WHERE shard = %s", self.shard)
        has = "SELECT confirmed_flush_lsn >= %s::pg_lsn AS it FROM pg_replication_slots WHERE slot_name = sm.stream(%s, 1)"
        sound, places = streams.halt, []

        def halt(*words):
            places.append(value(self.b.database.row(has, place, self.shard)))
            sound(*words)

        with self.b.database.transaction() as tx:
            Records(tx).count(self.shard)
        place = value(self.b.database.row("SELECT pg_current_wal_flush_lsn()::text"))
        with mock.patch.object(streams, "halt", halt):
            self.assertEqual(self.order("a", "drop", "ab", primary="b"), {"done": True})
        self.assertEqual((places, self.has("a")), ([True], False))

    def test_an_old_owner_that_gets_nothing_leaves_all_the_same(self):
        self.handed()
        streams.make_stream(self.b.database, self.shard, 1, 60.0)  # (nobody reads it)
        self.b.following.seal(self.shard, self.cut)
        self.b.database.do("UPDATE sm.slots SET cell = 4 WHERE shard = %s", self.shard)
        self.assertEqual(self.order("a", "drop", "ab", primary="b"), {"done": True})

    def test_a_copy_that_somebody_reads_is_dropped_at_once(self):
        for name, cell in (("a", Cell.PRIMARY), ("b", Cell.SECONDARY)):
            self.put(name, cell, 5)
        schema = "SELECT to_regnamespace(%s) IS NOT NULL"
        with self.b.database.connection() as reader:
            with reader.transaction():
                reader.execute(f"SELECT FROM {self.shard}.things")
                self.assertEqual(self.order("b", "drop", "ab", primary="a"), {"done": True})
                aside = self.b.database.rows("SELECT schema, why FROM sm.asides WHERE shard = %s", self.shard)
                self.assertEqual((self.has("b"), [it["why"] for it in aside]), (False, [copies.DELETED]))
            self.assertTrue(value(self.b.database.row(schema, aside[0]["schema"])))
        self.b.keeping.tidy()
        self.assertFalse(value(self.b.database.row(schema, aside[0]["schema"])))

    def test_a_copy_waits_for_the_handover_behind_the_one_before(self):
        self.put("a", Cell.FORWARDING, 5)
        words = []
        with mock.patch.object(copies, "ABOUT", 0.05), ThreadPoolExecutor() as pool:
            self.a.database.do("DELETE FROM sm.copied")
            self.a.database.do("INSERT INTO sm.copied VALUES ('x', 2), ('y', 2)")
            told = pool.submit(self.c.copies.admit, self.a.database, "it", lambda: True, words.append, True)
            self.until("it waits for other copies", lambda: "waits for other copies" in words)
            self.a.database.do("DELETE FROM sm.copied")
            self.until("it waits for the handover", lambda: "waits for a handover" in words)
            time.sleep(0.5)
            self.assertFalse(told.done())
            self.a.database.do("UPDATE sm.slots SET cell = 1 WHERE shard = %s", self.shard)
            told.result(60)
            self.a.database.do("UPDATE sm.slots SET cell = 5 WHERE shard = %s", self.shard)
            with mock.patch.object(copies, "PATIENCE", 0.2):
                self.c.copies.wait_for_handovers(self.a.database, lambda: True, words.append)  # (not for ever)
        self.a.database.do("DELETE FROM sm.copied")

    def test_no_file_of_the_log_is_filled_while_who_writes_waits(self):
        self.assertEqual(value(self.a.database.row("SELECT current_setting('wal_init_zero')")), "off")

    def fill(self):
        """Server a leads a shard with rows of many kinds."""
        self.put("a", Cell.PRIMARY, 5)
        self.a.database.do(f"CREATE TABLE {self.shard}.\"Many kinds\" (id int GENERATED ALWAYS AS IDENTITY PRIMARY KEY, gone int, \"a word\" text, "
                           "twice int GENERATED ALWAYS AS (length(\"a word\") * 2) STORED, at timestamptz, lasts interval, part float8, bytes bytea)")
        self.a.database.do(f"ALTER TABLE {self.shard}.\"Many kinds\" DROP gone")
        self.a.database.do(f"INSERT INTO {self.shard}.\"Many kinds\" (\"a word\", at, lasts, part, bytes) VALUES ('\\.', now(), '-1 day 2:03', 0.1, '\\x00ff'), "
                           "(E'\\\\.\\n\\t\\\\N', 'infinity', '1 mon', 'nan', ''), (NULL, NULL, NULL, NULL, NULL), ('\u00e4\u20ac', '0044-03-15 BC', NULL, 1e-300, NULL)")
        self.a.database.do(f"INSERT INTO {self.shard}.things (word) SELECT repeat(md5(it::text), 20) FROM generate_series(1, 3000) it")
        with self.a.database.transaction() as tx:
            streams.publish(tx, self.shard, streams.ALL)

    def rows(self, name):
        """All rows of the shard's own tables."""
        return [self.its[name].database.rows(f"SELECT it::text FROM {self.shard}.{table} it ORDER BY 1") for table in ("things", '"Many kinds"', "sm_counters")]

    def test_a_copy_makes_one_stream_and_has_what_is_written_meanwhile(self):
        self.fill()
        sound, seen = copies.rows_of, []

        def rows_of(*words):
            seen.append(value(self.a.database.row("SELECT count(*) FROM pg_replication_slots")))
            with self.a.database.transaction() as tx:
                tx.execute(f"INSERT INTO {self.shard}.things (word) VALUES ('new')")
                Records(tx).count(self.shard)
            return sound(*words)

        with mock.patch.object(copies, "rows_of", rows_of):
            self.b.copies.make(self.shard, 1, lambda: True, lambda _: None)
        self.assertEqual((len(seen), set(seen)), (8, {1}))
        self.assertEqual(self.rows("a"), self.rows("b"))
        self.assertEqual(len(self.rows("b")[0]), 3008)

    def test_rows_that_end_amid_a_table_are_no_copy(self):
        self.fill()
        sound = copies.rows_of

        def rows_of(reach, snapshot, what, check_on):
            if ".things" not in what:
                return sound(reach, snapshot, what, check_on)
            return sound(reach, snapshot, f"(SELECT * FROM {self.shard}.things UNION ALL SELECT 1 / 0, NULL)", check_on)

        with mock.patch.object(copies, "rows_of", rows_of), self.assertRaisesRegex(streams.Stuck, "division by zero"):
            self.b.copies.make(self.shard, 1, lambda: True, lambda _: None)
        self.assertEqual([len(it) for it in self.rows("b")[:2]], [0, 4])
        with mock.patch.object(copies, "rows_of", lambda *its: sound(*its[:3], lambda _: copies.check(lambda: False))), self.assertRaises(copies.GivenUp):
            self.b.copies.make(self.shard, 1, lambda: True, lambda _: None)

    def followed(self):
        """Server b follows a, and counts there."""
        self.fill()
        self.b.copies.make(self.shard, 1, lambda: True, lambda _: None)
        with self.b.database.transaction() as tx:
            it = Records(tx)
            it.put_base(Base(journal=9, number=0, known=1, fenced=0), 0)
            it.put_slot(self.shard, Slot(cell=Cell.SECONDARY, load=1))
            it.put_source(self.shard, 1, True)
            self.b.copies.end(tx, self.shard)
        self.assertTrue(self.b.sources.join(self.shard, 1))

    def test_shards_at_rest_are_looked_at_together(self):
        self.followed()
        following, looked = self.b.following, []
        with mock.patch.object(following, "look", looked.append):
            following.watch()
            self.until("it rests", lambda: following.next_look.get(self.shard, 0.0) > time.monotonic() + 2.0)
            following.watch()
        self.assertNotIn(self.shard, looked)

    def test_who_may_not_get_on_is_looked_at_alone(self):
        self.followed()
        resting, mine = self.b.following.resting, streams.NAMES[self.shard, 2]
        calm = lambda: self.shard in resting.calm(1, [self.shard])
        self.until("it gets on", calm)
        for name, harm, mends in (
                ("a", f"DELETE FROM {self.shard}.sm_members", f"INSERT INTO {self.shard}.sm_members VALUES (2)"),
                ("a", "UPDATE sm.slots SET cell = 3", "UPDATE sm.slots SET cell = 4"), ("a", "UPDATE sm.state SET journal = 8", "UPDATE sm.state SET journal = 9"),
                ("b", f"INSERT INTO {self.shard}.sm_cut VALUES (7, 5, 3, '{{}}')", f"DELETE FROM {self.shard}.sm_cut"),
                ("b", "UPDATE sm.slots SET is_whole = false", "UPDATE sm.slots SET is_whole = true"), ("b", "UPDATE sm.state SET fenced = 1", "UPDATE sm.state SET fenced = 0"),
                ("b", f"ALTER SUBSCRIPTION {mine} DISABLE", f"ALTER SUBSCRIPTION {mine} ENABLE")):
            with self.subTest(harm):
                self.its[name].database.do(harm)
                self.assertFalse(calm())
                self.its[name].database.do(mends)
                self.until("it gets on again", calm)
        self.b.database.do(f"UPDATE {self.shard}.sm_counters SET writes = writes - 1 WHERE n = 1")
        self.assertEqual([calm(), calm()], [True, False])  # (it may be late, and is seen again)

    def test_served_shards_are_tidied_by_few_questions(self):
        self.fill()
        self.a.keeping.tidy()
        guards = f"SELECT count(*) AS it FROM pg_trigger WHERE tgname = 'sm_guard' AND tgrelid = '{self.shard}.late'::regclass"
        self.a.database.do(f"CREATE TABLE {self.shard}.late (id int PRIMARY KEY)")
        self.a.database.do(f"INSERT INTO {self.shard}.sm_requests (id, at) VALUES ('old', now() - interval '1 day')")
        with mock.patch.object(self.a.database, "row", wraps=self.a.database.row) as row:
            self.a.keeping.tidy()
        self.assertEqual([it.args[0] for it in row.call_args_list], ["SELECT sm.guard_tables(%s)"])
        self.assertEqual(value(self.a.database.row(guards)), 1)
        self.a.keeping.forgotten.clear()
        self.a.keeping.tidy()
        self.assertEqual(self.a.database.rows(f"SELECT id FROM {self.shard}.sm_requests WHERE id = 'old'"), [])
        with self.a.database.transaction() as tx:
            it = Records(tx)
            it.put_members(self.shard, {2: False, 3: True})
            self.assertEqual(it.members_of([self.shard, "nobody's"]), {self.shard: it.members(self.shard)})


if __name__ == "__main__":
    unittest.main()
