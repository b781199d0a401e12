"""Plans that a controller does not begin, though `smpland` would: they may drop a shard's last replica before they add another."""
import random
import unittest
from collections import Counter

from smplan.control_begins import emptied_by, servers_of

WAIT, LATER = ({"do": "wait", "signal": it} for it in range(2))
SIGNAL, AGAIN = ({"do": "signal", "signal": it} for it in range(2))


def step(do, server, shard="s", **others):
    return {"do": do, "shard": shard, "server": server, **others}


def begin(*codes):
    return {"do": "begin", "plan": {"streams": [{"code": list(code)} for code in codes]}}


def recorded(**cells):
    return [{"shard": "s", "cells": [{"server": server, "state": state} for server, state in cells.items()]}, {"shard": "t", "cells": []}]


def handover(source, target):
    return [step("prepare_add", target), step("prepare_drop", source), step("add", target, role="primary"), step("publish", None), step("drop", source)]


DROP, ADD = step("drop", "a"), step("add", "b", role="secondary")


def may_be_emptied(codes, replicas):
    """Whether in some order of the steps all replicas have gone while an `add` is left."""
    def after(it, there, posted):
        """What a step leaves; none if it waits."""
        if it["do"] == "wait":
            return (there, posted) if it["signal"] in posted else None
        if it["do"] == "signal":
            return there, posted | {it["signal"]}
        return {"add": there | {it["server"]}, "drop": there - {it["server"]}}.get(it["do"], there), posted

    seen, left = set(), [(tuple(0 for _ in codes), frozenset(replicas), frozenset())]
    while left:
        now = left.pop()
        if now in seen:
            continue
        seen.add(now)
        places, there, posted = now
        if not there and any(it["do"] == "add" for code, place in zip(codes, places) for it in code[place:]):
            return True
        for number, code in enumerate(codes):
            behind = after(code[places[number]], there, posted) if places[number] < len(code) else None
            if behind is not None:
                left.append((tuple(it + (at == number) for at, it in enumerate(places)), *behind))
    return False


def some_plan(dice):
    """Streams of a plan over one shard: steps, and waits for signals."""
    codes = [[] for _ in range(dice.randint(1, 3))]
    for _ in range(dice.randint(2, 6)):
        code = dice.choice(codes)
        kind = dice.choice(("add", "drop", "drop", "move", "hand", "prepare_add"))
        first, second = dice.sample("abc", 2)
        code += {"move": [step("add", first), step("drop", second)], "hand": handover(second, first)}.get(kind, [step(kind, first)])
    for signal in (SIGNAL, AGAIN)[:dice.randint(0, 2)]:
        for it in (signal, {**signal, "do": "wait"}, *([signal] if dice.random() < 0.1 else [])):
            code = dice.choice(codes)
            code.insert(dice.randint(0, len(code)), it)
    return codes


class EmptiedByTest(unittest.TestCase):
    def test_a_plan_may_drop_the_last_replica_before_it_adds_another(self):
        for line in (begin([DROP], [ADD]), begin([DROP, ADD]), begin([step("unlist", None), DROP], [WAIT, ADD]), begin([WAIT, DROP], [SIGNAL, ADD])):
            for state in ("primary", "secondary"):
                self.assertEqual(emptied_by(line, recorded(a=state)), "s")
        self.assertEqual(emptied_by(begin([DROP], [step("drop", "c")], [ADD]), recorded(a="primary", c="secondary")), "s")

    def test_a_replica_that_goes_again_keeps_nothing(self):
        gone = [step("unlist", None), DROP]
        handed = [step("prepare_add", "b"), step("drop", "b")]
        there = [ADD, step("drop", "b")]
        for before in (handed, there):
            for line in (begin([*before, *gone], [step("add", "c")]), begin([*before, *gone, step("add", "c")]), begin([*before, *gone, ADD]),
                         begin([*before, *gone, step("prepare_add", "c"), step("add", "c")])):
                self.assertEqual(emptied_by(line, recorded(a="primary")), "s")
        late = step("drop", "b")
        for line in (begin([ADD, DROP], [late]), begin([ADD, SIGNAL, DROP], [WAIT, late]), begin([ADD, DROP, ADD], [late])):
            self.assertEqual(emptied_by(line, recorded(a="primary")), "s")

    def test_a_signal_that_also_comes_early_keeps_nothing(self):
        for line in (begin([ADD, SIGNAL], [SIGNAL], [WAIT, DROP]), begin([ADD, SIGNAL], [LATER, DROP], [AGAIN, WAIT])):
            self.assertEqual(emptied_by(line, recorded(a="primary")), "s")

    def test_another_replica_is_there_meanwhile(self):
        for line, cells in (
            (begin([ADD, DROP]), {"a": "primary"}),
            (begin([ADD, SIGNAL], [WAIT, DROP]), {"a": "primary"}),
            (begin([LATER, DROP], [WAIT, AGAIN], [ADD, SIGNAL]), {"a": "primary"}),
            (begin([DROP], [ADD]), {"a": "primary", "c": "secondary"}),
            (begin([DROP], [WAIT, step("drop", "c")], [ADD, SIGNAL]), {"a": "primary", "c": "secondary"}),
            (begin(handover("a", "b")), {"a": "primary"}),
            (begin([*handover("a", "b"), *handover("b", "c")]), {"a": "primary"}),
            (begin([ADD, DROP, step("add", "c"), step("drop", "b")]), {"a": "primary"}),
            (begin([ADD, DROP, SIGNAL], [step("add", "c"), WAIT, step("drop", "b")]), {"a": "primary"}),
            (begin([ADD, DROP, step("add", "a"), step("drop", "b")]), {"a": "primary"}),
            (begin([step("drop", "b"), *handover("a", "b"), step("add", "a")]), {"a": "primary", "b": "secondary"}),
        ):
            self.assertIsNone(emptied_by(line, recorded(**cells)))

    def test_nothing_is_lost_where_nothing_is_dropped_or_added(self):
        for line in (begin([DROP]), begin([ADD]), begin([DROP], [step("add", "b", "t")]), {"do": "approve", "server": "a"}, {"do": "begin", "plan": 7}, begin([{**DROP, "shard": []}], [{**ADD, "shard": []}])):
            self.assertIsNone(emptied_by(line, recorded(a="primary")))
        self.assertIsNone(emptied_by(begin([DROP], [ADD]), recorded(b="prepared")))

    def test_what_is_begun_is_emptied_in_no_order(self):
        dice, found = random.Random(7), Counter()
        for _ in range(1000):
            codes, replicas = some_plan(dice), "abc"[:dice.randint(1, 2)]
            refused = emptied_by(begin(*codes), recorded(**{it: "secondary" for it in replicas})) is not None
            verdict = (refused, may_be_emptied(codes, replicas))
            self.assertNotEqual(verdict, (False, True), codes)
            found[verdict] += 1
        self.assertGreater(min(found[True, True], found[False, False]), 100, found)

    def test_the_servers_of_a_plan(self):
        self.assertEqual(servers_of(begin([DROP, WAIT], [ADD, DROP])), ["a", "b"])
        self.assertEqual([servers_of(it) for it in ({}, {"do": "begin", "plan": {"streams": [{"code": [3]}]}})], [[], []])


if __name__ == "__main__":
    unittest.main()
