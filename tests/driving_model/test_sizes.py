"""Sizes that change: each rule is needed, no law is broken with all of them, and what may not change is refused."""
import unittest
from collections import Counter
from dataclasses import dataclass, replace

from driving_model.cells import ABSENT, PRIMARY, SECONDARY
from driving_model.commands import Approve, Begin, Open, Restarted, RestoreServer
from driving_model.laws import Sight, Violation
from driving_model.messages import BASE_STEP, LONGEST_LOG, Notice
from driving_model.plans import CellRight, Plan, RoomRight, Stream, add
from driving_model.replies import Begun, Ignored, Opened, Refused, Up
from driving_model.sized_controller import SizedController
from driving_model.sized_plays import PLAYS, SizedPlay, played
from driving_model.sized_schedule import OWN, SizedSchedule, run_schedule
from driving_model.sized_world import begins_a_journal, nobody_has_what_is_not_there, what_counts_is_recorded
from driving_model.sizes import NewEpoch, Order, Resize, Resized, SOUND, SizedDocument, sentence_of, sized_rule_names

STEPS = 220
RUNS = {"": 60} | {it: 20 for it in sorted(OWN)}
# What happens in some schedule of these.
MET = (
    "a late ask", "came with slots", "forgot", "grown", "journal replaced", "new sizes", "not resized: Engaged",
    "not resized: OverRoom", "refused: OverRoom", "refused: Running", "refused: Short", "refused: StillThere",
    "refused: TooManyDown", "reopened", "resized beside a plan", "restored", "server added", "server taken away",
    "shard added", "shard taken away", "shrunk",
)


@dataclass(frozen=True)
class Dice:
    """A random schedule, which breaks this law."""

    seed: int
    law: str
    profile: str


# If the model changes, so do the schedules of seeds: `tools/driving_model.py --sizes --mode RULE` finds another one.
DICE = {
    "old_loads_left": Dice(51, "no_order_is_refused", "still"),
    "cells_stay": Dice(7, "servers_have_what_is_recorded", "still"),
    "loads_fit": Dice(1, "loads_fit", "still"),
    "floors_live": Dice(3, "floors_are_kept", "still"),
    "limit_down": Dice(6, "away_is_recorded", "still"),
    "log_down": Dice(46, "log_fits", "still"),
    "leaver_is_bare": Dice(10, "servers_have_what_is_recorded", "still"),
    "shard_is_bare": Dice(4, "servers_have_what_is_recorded", "still"),
    "newcomer_down": Dice(107, "present_orders_are_not_old", "still"),
    "own_base_told": Dice(85, "present_orders_are_not_old", "still"),
    "named_loads_stay": Dice(1, "loads_fit", "tight"),
    "held_rooms_fit": Dice(10, "loads_fit", "tight"),
}
DOCUMENT = SizedDocument(
    servers=frozenset({0, 1, 2}), rooms=(10, 10, 5, 10), loads=(4, 4, 1), wants=(2, 1, 1), caps=(1, 0, 1), limit=1,
    cells=((PRIMARY, SECONDARY, ABSENT, ABSENT), (ABSENT, PRIMARY, ABSENT, ABSENT), (ABSENT,) * 4),
    left_out=frozenset({2}),
)


class RulesAreNeeded(unittest.TestCase):
    """The table of rules, and how each is shown to be needed."""

    def test_each_rule_has_a_play_and_a_sentence(self):
        self.assertLess(set(sized_rule_names()), {it.rule for it in PLAYS})
        for rule in sized_rule_names():
            self.assertTrue(sentence_of(rule).endswith("."), rule)
        with self.assertRaises(ValueError):
            SOUND.without("old_loads")

    def test_worked_plays_break_without_their_rule_alone(self):
        for worked in PLAYS:
            with self.subTest(worked.name, rule=worked.rule):
                self.assertIsNone(played(worked, with_rule=True))
                if worked.rule:
                    self.assertIsNotNone(played(worked, with_rule=False), f"no law is broken without {worked.rule}")

    def test_random_schedules_break_a_law_without_the_rule_alone(self):
        for rule, dice in DICE.items():
            with self.subTest(rule):
                violation = run_schedule(dice.seed, SOUND.without(rule), STEPS, dice.profile).violation
                self.assertIsNotNone(violation, f"no law is broken without {rule}")
                self.assertEqual(violation.law, dice.law)
                self.assertIsNone(run_schedule(dice.seed, SOUND, STEPS, dice.profile).violation)


class AtRest(unittest.TestCase):
    """What changes at rest alone do not ask for."""

    def test_a_server_keeps_no_number_of_sizes(self):
        """Each order has had its effect at rest, so a late one is old whatever loads count."""
        rules = SOUND.without("sizes_heeded")
        for seed in range(1, 31):
            with self.subTest(seed=seed):
                self.assertIsNone(run_schedule(seed, rules, STEPS, "still").violation)


class SoundSchedules(unittest.TestCase):
    """A fixed set of seeds."""

    def test_no_law_is_broken(self):
        met: Counter[str] = Counter()
        for profile, runs in RUNS.items():
            for seed in range(1, runs + 1):
                with self.subTest(profile=profile, seed=seed):
                    run = run_schedule(seed, SOUND, STEPS, profile)
                    self.assertIsNone(run.violation)
                    met.update(run.schedule.world.coverage)
        self.assertEqual([it for it in MET if not met[it]], [])

    def test_a_session_gives_the_same_outcomes_again(self):
        schedule = SizedSchedule(5, SOUND, STEPS, "rest")
        schedule.run()
        controller = SizedController()
        for command, outcome in schedule.world.session:
            controller = SizedController() if begins_a_journal(command) else controller
            self.assertEqual(controller.apply(command), outcome)


def second_shard_to(server):
    """A stream that adds a secondary of the second shard at the server."""
    return Stream({CellRight(1, server): ABSENT, RoomRight(server): 4}, (add(1, server, SECONDARY.kind),))


def new_permit(server, epoch):
    """The permit of a server that an epoch adds."""
    return epoch * BASE_STEP + LONGEST_LOG + 1 + server


class Changes(unittest.TestCase):
    """The controller's replies to changes of sizes."""

    def setUp(self):
        self.controller = SizedController()
        self.controller.apply(Open(DOCUMENT, 9, 0))

    def assert_reply(self, command, reply):
        """The command gets this reply, and one that is refused or ignored changes nothing."""
        before = self.controller.snapshot()
        outcome = self.controller.apply(command)
        self.assertEqual(outcome.reply, reply)
        if not outcome.has_changed:
            self.assertEqual(self.controller.snapshot(), before)

    def change(self, **sizes):
        """The next epoch, with other sizes."""
        return NewEpoch(replace(self.controller.record.document, **sizes))

    def test_a_new_epoch_has_other_sizes_and_the_same_cells(self):
        self.assert_reply(self.change(loads=(3, 5, 1), cells=((ABSENT,) * 4,) * 3), Opened(9, 1))
        record = self.controller.record
        self.assertEqual((record.document.loads, tuple(map(tuple, record.cells))), ((3, 5, 1), DOCUMENT.cells))
        self.assertEqual((self.controller.sized, record.listed), (BASE_STEP, [0, 1, None]))

    def test_what_would_not_be_settled_is_refused_with_how_much(self):
        self.assert_reply(self.change(loads=(4, 7, 1)), Refused("OverRoom", server=1, detail="11 of 10"))
        self.assert_reply(self.change(wants=(3, 1, 1), caps=(0, 0, 1)), Refused("Short", shard=0, detail="2 of 3"))
        self.assert_reply(self.change(left_out=frozenset(), caps=(1, 0, 0)), Refused("Short", shard=2, detail="0 of 1"))
        self.assert_reply(self.change(servers=frozenset({1, 2})), Refused("StillThere", server=0, shard=0))
        self.assert_reply(self.change(left_out=frozenset({1, 2})), Refused("StillThere", server=1, shard=1))
        self.controller.apply(Approve(2, "by"))
        self.assert_reply(self.change(limit=0), Refused("TooManyDown", detail="1 of 0"))
        self.assert_reply(self.change(log=0), Refused("LogFull", detail="1 of 0"))
        self.assert_reply(self.change(servers=frozenset({0, 1, 2, 3})), Refused("TooManyDown", detail="2 of 1"))

    def test_a_floor_that_a_reopening_has_lowered_stays_so(self):
        record = self.controller.record
        record.cells[0][1], record.floors[0], record.document = ABSENT, 1, replace(record.document, caps=(0, 0, 1))
        self.assert_reply(self.change(rooms=(10, 10, 6, 10)), Opened(9, 1))
        self.assertEqual(self.controller.record.floors[0], 1)
        self.assert_reply(self.change(wants=(3, 1, 1)), Refused("Short", shard=0, detail="1 of 3"))

    def test_a_server_that_is_added_is_down_until_it_has_slots(self):
        permit, told = new_permit(3, epoch=1), Begin("p", Plan((second_shard_to(3),)))
        self.assert_reply(self.change(servers=frozenset({0, 1, 2, 3})), Opened(9, 1, ((3, permit),)))
        self.assertEqual(self.controller.outgoing(), [Notice(3, 9, 0)])
        self.assert_reply(told, Refused("ServerDown", server=3))
        self.assert_reply(Restarted(permit, None), Refused("Unsettled", server=3))
        restore = self.controller.apply(RestoreServer(3, 77)).reply.restore
        self.assertEqual((restore.base, {it.cell for it in restore.slots}), (BASE_STEP, {ABSENT}))
        self.assert_reply(Restarted(permit, restore.base), Up(3))
        self.assertEqual(self.controller.apply(told).reply, Begun(1, 0, 1, 1))

    def test_a_permit_stands_over_a_change(self):
        permit = self.controller.apply(Approve(0, "by")).reply.permit
        self.assert_reply(self.change(loads=(3, 4, 1), limit=2), Opened(9, 1, ((0, permit),)))
        four = self.change(servers=frozenset({0, 1, 2, 3}))
        self.assert_reply(four, Opened(9, 2, ((0, permit), (3, new_permit(3, epoch=2)))))
        self.assert_reply(self.change(limit=1), Refused("TooManyDown", detail="2 of 1"))
        self.assert_reply(Restarted(permit, 0), Up(0))

    def test_with_a_server_goes_what_was_told_of_it(self):
        self.controller.apply(RestoreServer(2, 77))
        self.controller.apply(Approve(2, "by"))
        self.assert_reply(self.change(servers=frozenset({0, 1})), Opened(9, 1))
        self.assertEqual((self.controller.restores, self.controller.carried), ({}, set()))
        self.assert_reply(Begin("p", Plan((second_shard_to(2),))), Refused("ServerDown", server=2))

    def test_a_plan_names_shards_that_are_there(self):
        plan = Begin("p", Plan((Stream({CellRight(2, 2): ABSENT, RoomRight(2): 1}, (add(2, 2, SECONDARY.kind),)),)))
        self.assert_reply(plan, Refused("UnknownShard", shard=2))

    def test_sizes_change_once(self):
        self.assert_reply(Resize(loads=((0, 3),), rooms=((2, 6),)), Resized(1))
        self.assert_reply(Resize(loads=((0, 3),)), Ignored("old"))
        self.assert_reply(Resize(loads=((2, 3),)), Refused("UnknownShard", shard=2))
        self.assert_reply(Resize(rooms=((3, 3),)), Refused("UnknownServer", server=3))
        self.assert_reply(Resize(loads=((0, 9),)), Refused("OverRoom", server=1, detail="13 of 10"))


class ServersCount(unittest.TestCase):
    """A server refuses what has no room beside the loads that count."""

    def test_loads_that_were_brought_since_count(self):
        play = SizedPlay(SOUND, ((PRIMARY, SECONDARY, ABSENT), (ABSENT, ABSENT, PRIMARY)), loads=(6, 6))
        play.resize(rooms={1: 12})
        play.add(1, 1)
        order = play.sent_to(1, Order)[-1]
        server = play.world.hosts[1].server
        self.assertEqual([server.counted(replace(order, sized=it)) for it in (0, 1)], [6, 0])
        server.slots[0].last = 1
        self.assertEqual(server.counted(order), 6)
        with self.assertRaises(Violation):
            play.world.deliver(replace(order, room=11))

    def test_what_counts_is_as_recorded(self):
        play = SizedPlay(SOUND, ((PRIMARY, SECONDARY, ABSENT),), loads=(6,))
        play.resize(loads={0: 5})
        self.assertIsNone(what_counts_is_recorded(Sight(play.world)))
        play.world.hosts[1].server.slots[0].last = 1
        self.assertIsNotNone(what_counts_is_recorded(Sight(play.world)))

    def test_a_shard_that_is_not_there_is_had_by_nobody(self):
        play = SizedPlay(SOUND, ((PRIMARY, ABSENT, ABSENT), (ABSENT,) * 3), loads=(6, 6), left_out=frozenset({1}))
        self.assertIsNone(nobody_has_what_is_not_there(Sight(play.world)))
        play.world.hosts[2].server.slots[1].cell = SECONDARY
        self.assertIsNotNone(nobody_has_what_is_not_there(Sight(play.world)))
