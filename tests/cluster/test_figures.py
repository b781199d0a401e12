"""The figures of a run."""
import unittest

from cluster.launch.figures import STEP, Handover, copied, handovers_of, without_service

MILLI = 10**6


def order(t, server, kind, call, number=1):
    """A line of a history about the shard s and the first stream of a plan, at some milliseconds."""
    return {"t": t * MILLI, "server": server, "kind": kind, "call": call, "shard": "s", "number": STEP + number, "plan": 0, "stream": 0}


def request(start, end, shard="s", **more):
    """A line of the clients' history."""
    return {"client": "c", "shard": shard, "start": start * MILLI, "end": end * MILLI, **more}


# The copy takes a second, and what clients wait for the old owner behind the cut some milliseconds.
HANDOVER = [
    order(1000, "b", "begin", "prepare_add"), {"t": 2090 * MILLI, "server": "c", "kind": "copy", "shard": "s", "bytes": 3},
    {"t": 2090 * MILLI, "server": "b", "kind": "copy", "shard": "s", "bytes": 7}, order(2100, "b", "commit", "prepare_add"),
    order(2200, "a", "begin", "prepare_drop", 2),
    order(2202, "a", "commit", "prepare_drop", 2), {"t": 2205 * MILLI, "server": "b", "kind": "seal", "shard": "s"}, order(2300, "b", "begin", "add", 3),
    order(2310, "b", "commit", "add", 3), order(2400, "a", "begin", "drop", 4), order(2410, "a", "commit", "drop", 4),
]


class HandoverTest(unittest.TestCase):
    """What clients meet of a handover."""

    def test_the_wait_for_the_copy_is_counted(self):
        asked = [request(900, 910), request(1010, 2080), request(2199, 2204), request(2203, 2206), request(2500, 9000), request(1000, 9000, "t"),
                 request(1000, 9000, final=True)]
        self.assertEqual(handovers_of(HANDOVER, asked), [Handover("s", 1000 * MILLI, 2410 * MILLI, 1.07, 3, 2, 7)])

    def test_work_that_begins_again_began_with_the_first(self):
        again = [order(100, "b", "begin", "prepare_add"), order(900, "b", "abandon", "prepare_add"), *HANDOVER]
        (found,) = handovers_of(again, [request(150, 850)])
        self.assertEqual((found.begin, found.longest), (100 * MILLI, 0.7))

    def test_a_request_that_began_before(self):
        (found,) = handovers_of(HANDOVER, [request(500, 1200)])
        self.assertEqual((found.requests, found.longest), (1, 0.7))

    def test_one_that_did_not_come_to_its_end_has_no_figure(self):
        self.assertEqual(handovers_of(HANDOVER[:-1], [request(1010, 2080)]), [])


class CopyTest(unittest.TestCase):
    """How much is copied."""

    def test_bytes_of_copies(self):
        self.assertEqual(copied([{"kind": "copy", "bytes": 7}, {"kind": "seal"}, {"kind": "copy", "bytes": 5}]), [7, 5])


class ServiceTest(unittest.TestCase):
    """How long shards were without service."""

    def longest(self, *asked):
        """The longest time for requests, each with its start, end, and whether it had a reply."""
        return without_service([request(start, end, **({"reply": 1} if has_reply else {})) for start, end, has_reply in asked])["s"]

    def test_time_in_which_nobody_asked_is_none_without_service(self):
        self.assertEqual(self.longest((0, 10, True), (5000, 5030, True)), 0.03)

    def test_a_slow_request_behind_which_others_are_quick(self):
        self.assertEqual(self.longest((0, 10_000, True), (9000, 9500, True)), 9.5)

    def test_replies_to_others_are_service(self):
        self.assertEqual(self.longest((0, 9000, True), *((it, it + 900, True) for it in range(0, 9000, 1000))), 1.0)

    def test_requests_without_a_reply(self):
        self.assertEqual(self.longest((0, 10_000, False), (10_000, 20_000, False), (20_000, 21_000, True)), 21.0)

    def test_time_for_which_the_machine_kept_the_proxies_is_none_without_service(self):
        asked = [request(2000, 2010, reply=1), request(2020, 9000, reply=1), request(9000, 11_000, reply=1)]
        found = [without_service(asked, kept)["s"] for kept in ([], [(5, 900), (3, 1000)], [(1, 5000), (12, 5000)], [(5, 6000)])]
        self.assertEqual(found, [6.98, 5.08, 6.98, 2.0])

    def test_the_end_is_not_looked_at(self):
        self.assertEqual(without_service([request(0, 9000, final=True, reply=1)]), {})
