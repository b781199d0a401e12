"""What a run makes of its checkers."""
import json
import unittest
from types import SimpleNamespace

from cluster.controllers.etcd import Entry, EtcdFault, encoded
from cluster.launch.report import OTHERS, counted, kind_of, trust_lines
from cluster.launch.shown import add_shown, shown_at
from cluster.launch.verdict import Journal, Verdict, look_at_map, named_as_lost, written_lines


class CheckerTest(unittest.TestCase):
    """What a checker printed."""

    def taken(self, *lines, errors=""):
        """The verdict once a checker printed these lines."""
        verdict = Verdict()
        verdict.take("cluster.checkers.servers", [it if isinstance(it, str) else json.dumps(it) for it in lines], errors)
        return verdict

    def test_sums_are_no_violation(self):
        verdict = self.taken("a s at 5: order 7 is refused", {"violations": 1, "start": 12})
        self.assertEqual(verdict.faults, ["servers: a s at 5: order 7 is refused"])
        self.assertEqual(verdict.counts["servers: start"], 12)

    def test_nothing_is_found(self):
        verdict = self.taken({"violations": 0, "start": 12})
        self.assertEqual((verdict.faults, verdict.counts["servers: start"]), ([], 12))

    def test_a_checker_that_did_not_come_to_its_end(self):
        for lines in ((), ("a s at 5: order 7 is refused",)):
            verdict = self.taken(*lines, errors="Traceback: KeyError")
            self.assertEqual(verdict.faults, ["cluster.checkers.servers failed: Traceback: KeyError"])


class MapTest(unittest.TestCase):
    """What the map has shown of a shard, and what the journal said."""

    def faults(self, *entries):
        """The faults if the map showed these entries, and was to show a by 3, then b by 7."""
        journal = Journal([], told=[{"settle": [{"server": None, "entries": [{"shard": "s", "to": "a", "version": 3}]}, {"server": "a", "slots": []}]},
                                    {"orders": [{"call": "publish", "shard": "s", "to": "b", "version": 7}, {"call": "drop", "shard": "s"}]}])
        journal.shown = [{"shard": "s", "to": "b", "version": 7}]
        verdict = Verdict()
        look_at_map(verdict, journal, {"s": [{"to": to, "version": version} for to, version in entries]})
        return verdict.faults

    def test_what_was_said(self):
        self.assertEqual(self.faults(("a", 3), ("b", 7)), [])

    def test_a_server_between_that_nobody_named(self):
        self.assertEqual(self.faults(("a", 3), ("c", 5), ("b", 7)), ["the map named c for s by 5, which nobody said"])

    def test_the_last_one_by_another_version(self):
        self.assertEqual(len(self.faults(("a", 3), ("b", 9))), 2)

    def test_one_that_went_back(self):
        self.assertIn("went back", self.faults(("a", 3), ("b", 7), ("a", 3), ("b", 7))[0])


class ShownTest(unittest.IsolatedAsyncioTestCase):
    """What the map has shown, over compactions."""

    async def test_history_is_read_back_to_the_oldest_revision(self):
        entries = {it: Entry("/map/s", json.dumps({"to": to, "version": it}), number, it) for number, (it, to) in enumerate(((3, "a"), (5, "b"), (8, "c")), 1)}

        async def post_again(path, body):
            last = int(body["revision"]) or 9
            if "range_end" not in body and last < self.compacted_at:
                raise EtcdFault("required revision has been compacted")
            found = entries[max(it for it in entries if it <= last)]
            return {"kvs": [{"key": encoded(found.key), "value": encoded(found.value), "mod_revision": str(found.revision), "version": str(found.version)}]}

        etcd = SimpleNamespace(post_again=post_again)
        self.compacted_at = 0
        before = await shown_at(etcd, 0, 5)
        self.compacted_at = 6
        more = await shown_at(etcd, 6)
        self.assertEqual([[it["to"] for it in shown["s"]] for shown in (before, more, add_shown(before, more))], [["a", "b"], ["b", "c"], ["a", "b", "c"]])
        self.assertEqual(add_shown({}, more), more)


class ReportTest(unittest.TestCase):
    """The words of the verdict."""

    def test_what_checkers_find_has_a_kind(self):
        kinds = {
            "clients: s:k: x was acknowledged and is lost": "acknowledged writes lost", "servers: b s in the end: it has 0 writes of 3": "acknowledged writes lost",
            "servers: a s at 5: request x is executed as write 2, and was write 1": "writes executed twice",
            "clients: s:k: c read 1 values, and 2 had been acknowledged or read before": "stale reads",
            "clients: s:text: text 1 was read, and a later one had been acknowledged or read before": "stale reads",
            "servers: a s at 5: s has the primaries a and b": "two primaries", "servers: a s at 5: a request is executed by a server that is absent": "two primaries",
            "servers: a s at 5: s has 0 replicas": "floors broken", "plans that have not come to their end: p": OTHERS,
            "servers: the line answered 7 was not true when it was written: b has not done add s": "lines that were not true",
        }
        self.assertEqual({fault: kind_of(fault) for fault in kinds}, kinds)

    def test_one_is_no_plural(self):
        self.assertEqual([counted(1, "leaders killed"), counted(2, "leaders killed"), counted(1, "primaries lost"), counted(1, "crashes of all"), counted(1, "losses")],
                         ["1 leader killed", "2 leaders killed", "1 primary lost", "1 crash of all", "1 loss"])

    def test_each_violation_is_counted_once(self):
        lines = trust_lines(["clients: s:k: x was acknowledged and is lost", "something else"], Verdict().counts)
        self.assertIn("2 violations: 1 acknowledged writes lost", lines[0])
        self.assertTrue(lines[1].endswith("1 other violations"))


class WrittenTest(unittest.TestCase):
    """Lines of the journal, as they were seen."""

    def test_lines(self):
        journal = Journal(['{"do":"restarted","permit":3}', '{"do":"confirm"}'], told=[{"id": "x", "up": "a"}, {"settle": []}])
        lines = [json.loads(it) for it in written_lines(journal, ["k1", "k2"], {"k1": 5})]
        self.assertEqual([(it["t"] == 5, it["reply"]) for it in lines], [(True, {"up": "a"}), (False, {})])


class NamedTest(unittest.TestCase):
    """Shards that reopenings named as lost."""

    def test_those_that_were_confirmed(self):
        lines = [{"do": "reopen", "lost": ["a"]}, {"do": "confirm", "base": 2}, {"do": "confirm", "base": 2, "lost": ["s", "t"]},
                 {"do": "confirm", "base": 2, "lost": ["s", "t"]}, {"do": "confirm", "base": 4, "lost": ["s"]}]
        told = [{"fence": []}, {"refused": {"kind": "Unnamed"}}, {"settle": []}, {"ignored": "old"}, {"settle": []}]
        self.assertEqual(named_as_lost(Journal([json.dumps(it) for it in lines], told=told)), {"s": [2, 4], "t": [2]})
