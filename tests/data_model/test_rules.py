"""Each rule is needed: without it a law is broken, in a worked play, and for some in a random schedule too."""
import unittest
from dataclasses import dataclass

from data_model import laws
from data_model.plays import DATA_PLAYS, PLAYS
from data_model.rules import SOUND, data_rule_names, rule_names, sentence_of
from data_model.schedule import run_schedule
from data_model.worked import played

STEPS = 220


@dataclass(frozen=True)
class Dice:
    """A random schedule, which breaks this law."""

    seed: int
    law: str
    profile: str = ""


# If the model changes, so do the schedules of seeds: `tools/data_model.py --mode RULE` finds another one.
DICE = {
    "own_durable": Dice(42, "writes_stay", "one shard"),
    "enough_acknowledge": Dice(1, "fewer_losses_lose_nothing", "data"),
    "told_at_view": Dice(5, "fewer_losses_lose_nothing", "old views"),
    "loss_named": Dice(47, "writes_stay", "data"),
}
# Rules of `driving_model` on orders, restores and fences, which look at no data: its own random schedules show them.
OTHERS = {
    "number_order", "kept_slots", "journal_named", "publication_awaited", "version_order", "work_before_commit",
    "requests_ended", "change_waits", "drop_waits", "cut_awaited", "restore_nonce", "restore_base_low",
    "restore_disengaged", "permit_named", "fence_first", "fenced_names_base", "map_fenced", "settles_awaited",
    "journal_above",
}
# Liveness: without these rules the service does not go on, which a play shows.
STOPS = {
    "change_by_count", "down_lowers", "down_uncounted", "drops_leave_copies", "fence_bounded", "first_is_alone",
    "former_counts", "grant_ends", "leave_of_fewer", "lower_asks_first", "newest_terms", "numbers_rise",
    "raised_by_those_that_stay",
}


class RulesAreNeeded(unittest.TestCase):
    """The table of rules, and how each is shown to be needed."""

    def test_each_rule_for_data_has_a_play(self):
        self.assertEqual(sorted({it.rule for it in DATA_PLAYS}), sorted(data_rule_names()))

    def test_each_other_rule_is_shown_by_a_play_or_by_dice(self):
        shown = {*DICE, *(it.rule for it in PLAYS)}
        self.assertEqual([it for it in rule_names() if it not in shown and it not in OTHERS], [])

    def test_worked_plays_break_without_their_rule_alone(self):
        for worked in PLAYS:
            with self.subTest(worked.name, rule=worked.rule):
                self.assertIsNone(played(worked, with_rule=True))
                broken = played(worked, with_rule=False)
                self.assertIsNotNone(broken, f"no law is broken without {worked.rule}")
                if worked in DATA_PLAYS:
                    self.assertEqual(broken.law in ("goes_on", "all_ends"), worked.rule in STOPS)

    def test_random_schedules_break_a_law_without_the_rule_alone(self):
        for rule, dice in DICE.items():
            with self.subTest(rule):
                violation = run_schedule(dice.seed, SOUND.without(rule), STEPS, dice.profile).violation
                self.assertIsNotNone(violation, f"no law is broken without {rule}")
                self.assertEqual(violation.law, dice.law)
                self.assertIsNone(run_schedule(dice.seed, SOUND, STEPS, dice.profile).violation)

    def test_each_law_on_data_is_broken_by_some_play(self):
        broken = {played(it, with_rule=False).law for it in DATA_PLAYS}
        own = [it.__name__ for it in laws.STANDING if it.__module__ == laws.__name__]
        self.assertEqual([it for it in (*own, "last_copy_stays", "best_copy_wins", "named_writes_stay") if it not in broken], [])

    def test_rules_have_sentences(self):
        for rule in rule_names():
            self.assertTrue(sentence_of(rule).endswith("."), rule)
        with self.assertRaises(ValueError):
            SOUND.without("copies_acknowledge")


if __name__ == "__main__":
    unittest.main()
