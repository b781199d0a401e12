"""How many copies may run at once, over all schedules of a plan."""
import unittest
from collections import Counter

from reach_cases import Case
from smplan.model import document_of, plan_of
from smplan.width import copies_of, longest, most_at_once, widest
from test_reach import fleet_of, legs_of, wanted


def widest_by_trying(copies):
    """The size of the widest set of copies of which none waits for another, by trying all sets."""
    def is_free(chosen):
        return not any(one.waits_for(other) for one in chosen for other in chosen if one is not other)
    sets = ([it for at, it in enumerate(copies) if number >> at & 1] for number in range(1 << len(copies)))
    return max(len(it) for it in sets if is_free(it))


class Widths(unittest.TestCase):
    def test_streams_run_side_by_side_and_lanes_do_not(self):
        fleet = fleet_of("a:r:60 b:r:60 c:r:60 d:r:60", {f"s{it}:{it + 1}": {"at": "a b"} for it in range(4)})
        target = wanted(fleet, s0="a c", s1="a d", s2="a c", s3="a d")
        for at_server, found in ((0, (4, 4, 4)), (2, (2, 2, 5)), (1, (1, 1, 10))):
            (leg,), _ = legs_of(fleet, target, at_server=at_server)
            value = leg.document()
            at_once = most_at_once(plan_of(value["plan"]), document_of(value))
            self.assertEqual(found, (at_once.in_all, at_once.by_server["a"], at_once.chain), at_server)

    def test_a_plan_without_copies_has_none(self):
        fleet = fleet_of("a:r:60 b:r:60", {"s:4": {"at": "a b"}})
        (leg,), _ = legs_of(fleet, wanted(fleet, s="b a"))
        value = leg.document()
        self.assertIsNone(most_at_once(plan_of(value["plan"]), document_of(value)))

    def test_random_plans_by_trying_all_sets(self):
        tried = 0
        for seed in range(60):
            case = Case(seed)
            for leg in case.legs(Counter()) if case.target else []:
                value = leg.document()
                copies = copies_of(plan_of(value["plan"]), document_of(value))
                if 0 < len(copies) <= 9:
                    self.assertEqual(widest_by_trying(copies), widest(copies), seed)
                    self.assertGreaterEqual(sum(case.fleet.load[case.fleet.shard_of[it.shard]] for it in copies), longest(copies, dict(zip(case.fleet.shards, case.fleet.load))))
                    tried += 1
        self.assertGreater(tried, 20)
