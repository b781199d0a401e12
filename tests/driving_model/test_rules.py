"""Each rule is needed: without it a law is broken, in a random schedule or in a worked play."""
import unittest
from dataclasses import dataclass

from driving_model.plays import PLAYS, played
from driving_model.rules import SOUND, rule_names
from driving_model.schedule import run_schedule

STEPS = 220


@dataclass(frozen=True)
class Dice:
    """A random schedule, which breaks this law."""

    seed: int
    law: str
    profile: str = ""


# Each rule that a random schedule shows to be needed. If the model changes, so do the schedules of seeds:
# `tools/driving_model.py --mode RULE` finds another seed.
DICE = {
    "number_order": Dice(25, "no_order_is_refused"),
    "kept_slots": Dice(5, "servers_have_what_is_recorded"),
    "journal_named": Dice(9, "servers_have_what_is_recorded"),
    "publication_awaited": Dice(17, "map_names_who_serves"),
    "version_order": Dice(350, "map_never_goes_back"),
    "work_before_commit": Dice(25, "writes_stay"),
    "requests_ended": Dice(26, "executes_where_it_serves"),
    "change_waits": Dice(45, "executes_where_it_serves"),
    "drop_waits": Dice(499, "executes_where_it_serves"),
    "cut_awaited": Dice(25, "one_list_of_writes"),
    "copies_acknowledge": Dice(8, "one_loss_loses_nothing"),
    "old_owner_acknowledges": Dice(43, "one_loss_loses_nothing"),
    "restore_nonce": Dice(23, "servers_have_what_is_recorded"),
    "restore_base_low": Dice(17, "present_orders_are_not_old"),
    "restore_disengaged": Dice(45, "present_orders_are_not_old"),
    "permit_named": Dice(11, "permit_once", "restarts"),
    "restart_settled": Dice(74, "floors_are_kept"),
    "fence_first": Dice(132, "executes_where_it_serves"),
    "fenced_names_base": Dice(0, "all_ends"),
    "map_fenced": Dice(0, "map_names_who_serves"),
    "settles_awaited": Dice(0, "servers_have_what_is_recorded"),
    "journal_above": Dice(19, "all_ends"),
}


class RulesAreNeeded(unittest.TestCase):
    """The table of rules, and how each is shown to be needed."""

    def test_each_rule_is_in_the_table(self):
        shown = {*DICE, *(it.rule for it in PLAYS)}
        self.assertEqual(sorted(shown), sorted(rule_names()))

    def test_random_schedules_break_a_law_without_the_rule(self):
        for rule, dice in DICE.items():
            with self.subTest(rule):
                violation = run_schedule(dice.seed, SOUND.without(rule), STEPS, dice.profile).violation
                self.assertIsNotNone(violation, f"no law is broken without {rule}")
                self.assertEqual(violation.law, dice.law)

    def test_the_same_seeds_break_nothing_with_the_rule(self):
        for rule, dice in DICE.items():
            with self.subTest(rule):
                self.assertIsNone(run_schedule(dice.seed, SOUND, STEPS, dice.profile).violation)

    def test_worked_plays_break_without_their_rule_alone(self):
        for worked in PLAYS:
            with self.subTest(worked.name):
                self.assertIsNone(played(worked, with_rule=True))
                self.assertIsNotNone(played(worked, with_rule=False))
