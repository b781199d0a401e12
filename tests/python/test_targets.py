"""What operators want of a placement: no leaders, nothing at servers, other numbers of replicas, level loads and primaries."""
import unittest
from fractions import Fraction

from fixtures import program
from smplan.balance import Budget, Move, Thinning, after_moves, balance, level_primaries
from smplan.fleet import primary_of
from smplan.targets import as_in, demote, drain, scale
from test_reach import fleet_of, legs_of


def names(fleet, cells):
    """The servers with a replica of each shard, the primary first."""
    return {fleet.shards[shard]: " ".join(fleet.servers[it] for it in sorted(mine, key=lambda it: (mine[it] != "primary", it))) for shard, mine in enumerate(cells)}


class Demotions(unittest.TestCase):
    def test_the_server_with_the_fewest_primaries_takes_over(self):
        fleet = fleet_of("a:r:90 b:r:90 c:r:90", {"s:1": {"at": "a b c"}, "t:1": {"at": "b a"}, "u:1": {"at": "a b c"}, "w:1": {"at": "a b c"}})
        found = demote(fleet, {0})
        self.assertEqual({"s": "c a b", "t": "b a", "u": "b a c", "w": "c a b"}, names(fleet, found.target.cells))
        self.assertEqual([], found.left + legs_of(fleet, found.target)[1])

    def test_what_is_left(self):
        fleet = fleet_of("a:r:90 b:r:90 c:r:90", {"s:1": {"at": "a"}, "t:1": {"at": "a b"}, "u:1": {"at": "a b c"}})
        fleet.is_down[2] = True
        self.assertEqual(
            ["s keeps its primary at a: it has no other replica", "t keeps its primary at a: its other replicas are at b",
             "u keeps its primary at a: its other replicas are at b, c"], demote(fleet, {0}, {1}).left)
        self.assertIn("u keeps its primary at a: its replica at c is down, and the primary changes only while all replicas are up", demote(fleet, {0}).left)

    def test_without_a_gap_a_replica_and_its_region_are_spared(self):
        fleet = fleet_of("a:r1:90 b:r2:90 c:r1:90", {"s:1": {"at": "a b", "cap": 0}, "t:1": {"at": "a b", "spread": 2}, "u:1": {"at": "a b c", "spread": 2}})
        found = demote(fleet, {0}, has_gap=False)
        self.assertEqual("c a b", names(fleet, found.target.cells)["u"])
        self.assertEqual(["s keeps its primary at a: without a gap a live replica has to be spared: live 2, floor 2",
                          "t keeps its primary at a: without a gap it would lie in fewer than 2 regions for a while"], found.left)
        self.assertEqual([], legs_of(fleet, found.target, has_gap=False)[1])


class Drains(unittest.TestCase):
    def test_another_replica_gives_way(self):
        fleet = fleet_of("a:r:10 b:r:10 c:r:6", {"s:8": {"at": "a", "cap": 0}, "t:5": {"at": "b", "cap": 0}})
        found = drain(fleet, {0})
        self.assertEqual({"s": "b", "t": "c"}, names(fleet, found.target.cells))
        self.assertEqual([], found.left + legs_of(fleet, found.target)[1])

    def test_two_replicas_give_way(self):
        fleet = fleet_of("a:r:10 b:r:10 c:r:5 d:r:4", {"s:8": {"at": "a", "cap": 0}, "t:5": {"at": "b", "cap": 0}, "u:4": {"at": "b", "cap": 0}})
        found = drain(fleet, {0})
        self.assertEqual({"s": "b", "t": "c", "u": "d"}, names(fleet, found.target.cells))
        self.assertEqual([], found.left + legs_of(fleet, found.target)[1])

    def test_secondaries_are_copied_where_they_are_preferred(self):
        fleet = fleet_of("a:r:10 b:r:10 c:r:10", {"s:8": {"at": "a b"}})
        found = drain(fleet, {0}, prefers_secondary=True)
        (leg,), left = legs_of(fleet, found.target)
        self.assertEqual(["unlist", "change", "change", "publish", "add", "drop"], [it["do"] for it in leg.document()["plan"]["streams"][0]["code"]])
        self.assertEqual(({"s": "b c"}, []), (names(fleet, found.target.cells), left))

    def test_why_a_replica_stays(self):
        fleet = fleet_of("a:r1:10 b:r2:10 c:r2:4", {"s:8": {"at": "a", "cap": 0}, "t:2": {"at": "a b", "spread": 2}, "u:5": {"at": "b", "cap": 0}})
        self.assertEqual(["s stays at a: its load is 8, and c has the most room left, 4", "t stays at a: at c it would lie in fewer than 2 regions"], drain(fleet, {0}).left)
        self.assertEqual(["t stays at a: no other server that is up may have it"], [it for it in drain(fleet, {0}, {2}).left if it[0] == "t"])


class Scales(unittest.TestCase):
    def test_up_goes_to_new_regions_and_down_keeps_them(self):
        fleet = fleet_of("a:r1:10 b:r1:30 c:r2:20 d:r2:60", {"s:4": {"at": "a", "cap": 0, "spread": 2}, "t:4": {"at": "b c d", "cap": 1, "spread": 2}})
        found = scale(fleet, {0: 3, 1: 2})
        self.assertEqual({"s": "a b d", "t": "b d"}, names(fleet, found.target.cells))
        self.assertEqual([], found.left)

    def test_what_is_left(self):
        fleet = fleet_of("a:r1:10 b:r1:3", {"s:4": {"at": "a", "cap": 0}})
        self.assertEqual(["s has 1 of 2 replicas: its load is 4, and no other server that is up has as much room left"], scale(fleet, {0: 2}).left)


class Balances(unittest.TestCase):
    def fleet(self):
        return fleet_of("a:r1:100 b:r2:100 c:r3:100 d:r3:100", {
            "p:30": {"at": "a b", "spread": 2}, "q:30": {"at": "b a", "spread": 2}, "u:20": {"at": "a c", "spread": 2}, "w:10": {"at": "a b", "spread": 2}})

    def test_the_fullest_server_gives_and_the_bound_is_told(self):
        fleet = self.fleet()
        found = balance(fleet, over=Fraction(15, 100))
        self.assertEqual((Fraction(45, 100), Fraction(90, 100), Fraction(50, 100), 58, []), (found.mean, found.most, found.most_after, found.least, found.stuck))
        self.assertGreaterEqual(found.load, found.least)
        moves = [{"shard": fleet.shards[it.shard], "from": fleet.servers[it.source], "to": fleet.servers[it.target]} for it in found.moves]
        self.assertTrue(program("plan", {**fleet.value(fleet.target()), "moves": moves}).startswith("{"))
        self.assertEqual([], legs_of(fleet, after_moves(fleet, found.moves).target)[1])

    def test_budgets(self):
        fleet = self.fleet()
        self.assertEqual(1, len(balance(fleet, budget=Budget(moves=1)).moves))
        few = balance(fleet, budget=Budget(load=40))
        self.assertLessEqual(few.load, 40)
        self.assertTrue(few.stuck)

    def test_nothing_moves_if_all_are_level_or_closed(self):
        fleet = fleet_of("a:r:10 b:r:10", {"s:4": {"at": "a", "cap": 0}, "t:4": {"at": "b", "cap": 0}})
        self.assertEqual([], balance(fleet).moves)
        self.assertEqual([], balance(self.fleet(), {2, 3}).moves)

    def test_a_smaller_replica_does(self):
        fleet = fleet_of("a:r:100 b:r:100", {f"s{load}:{load}": {"at": "a", "cap": 0} for load in (40, 11, 9)})
        self.assertEqual([Move(1, 0, 1), Move(2, 0, 1)], sorted(balance(fleet, over=Fraction(34, 100)).moves))
        self.assertEqual([Move(1, 0, 1)], balance(fleet, over=Fraction(67, 100)).moves)

    def test_a_smaller_replica_does_not_if_the_other_one_would_lose_its_regions(self):
        fleet = fleet_of("a:r1:100 b:r2:100 c:r2:100 d:r1:100", {"x:10": {"at": "a b", "spread": 2}, "y:9": {"at": "a"}})
        moves = [Move(0, 0, 2), Move(0, 1, 3)]
        thinning = Thinning(fleet, moves, Fraction(10, 100))
        thinning.exchange()
        self.assertEqual(moves, thinning.moves)
        fleet = fleet_of("a:r1:100 b:r1:100 c:r2:100 d:r1:100", {"x:10": {"at": "a b"}, "y:9": {"at": "a b"}})
        thinning = Thinning(fleet, [Move(0, 0, 2), Move(1, 1, 3)], Fraction(10, 100))
        thinning.exchange()
        self.assertEqual([Move(1, 0, 2), Move(1, 1, 3)], thinning.moves)

    def test_primaries_are_level_by_chains(self):
        fleet = fleet_of("a:r:90 b:r:90 c:r:90", {"s:1": {"at": "a b"}, "t:1": {"at": "a b"}, "u:1": {"at": "a b"}, "w:1": {"at": "b c"}})
        target = level_primaries(fleet).target
        self.assertEqual([1, 1, 2], sorted([primary_of(it) for it in target.cells].count(server) for server in range(3)))
        self.assertEqual([], legs_of(fleet, target)[1])
        self.assertEqual(fleet.cells, level_primaries(fleet, {1, 2}).target.cells)


class Others(unittest.TestCase):
    def test_a_shard_without_a_primary_there_keeps_one(self):
        fleet = fleet_of("a:r:9 b:r:9", {"s:1": {"at": "a b"}, "t:1": {"at": "a"}})
        other = fleet_of("a:r:9 b:r:9", {"s:1": {"at": "a b"}})
        other.cells[0] = {1: "secondary"}
        found = as_in(fleet, other)
        self.assertEqual(({"s": "b", "t": "a"}, ["s keeps a primary, at b"]), (names(fleet, found.target.cells), found.left))
