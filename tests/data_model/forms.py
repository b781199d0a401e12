"""What the tests of the smaller forms share: each rule is needed, and random schedules break no law."""
from collections import Counter
from dataclasses import dataclass
from unittest import mock

from data_model import laws
from data_model.rules import Rules, data_rule_names, sentence_of
from data_model.schedule import run_schedule
from data_model.worked import Worked, played

STEPS = 100


class Needed:
    """Each rule of a form is needed. A test names the form, its plays, and those of them that no larger form has."""

    form: Rules
    plays: tuple[Worked, ...]
    own_plays: tuple[Worked, ...]
    # Without these rules acknowledged writes stay, and another law is broken.
    of_other_laws: frozenset[str]
    # The rules that a larger form has, and this one has not, and those of the larger form.
    left_out: frozenset[str]
    wider: list[str]

    def test_each_rule_has_a_play(self):
        self.assertEqual(sorted({it.rule for it in self.plays}), sorted(data_rule_names(self.form)))

    def test_plays_break_without_their_rule_alone(self):
        for worked in self.plays:
            with self.subTest(worked.name, rule=worked.rule):
                self.assertIsNone(played(worked, True, self.form))
                self.assertIsNotNone(played(worked, False, self.form), f"no law is broken without {worked.rule}")

    def test_its_own_rules_keep_acknowledged_writes(self):
        for worked in self.own_plays:
            if worked.rule not in self.of_other_laws:
                with self.subTest(worked.name), mock.patch.object(laws, "STANDING", (laws.writes_stay,)):
                    self.assertIn(played(worked, False, self.form).law, ("writes_stay", "best_copy_wins"))

    def test_the_larger_form_has_the_rules_that_this_has_not(self):
        self.assertEqual(sorted(self.left_out), sorted(set(self.wider) - set(data_rule_names(self.form))))
        for rule in data_rule_names(self.form):
            self.assertTrue(sentence_of(rule).endswith("."), rule)
        for rule in self.left_out:
            with self.assertRaises(ValueError):
                self.form.without(rule)


@dataclass(frozen=True)
class Dice:
    """A random schedule, which breaks this law."""

    seed: int
    law: str


class Schedules:
    """Random schedules of a form, of a fixed set of seeds."""

    form: Rules
    # How many schedules of each profile are run; an empty one stands for schedules of all profiles.
    runs: dict[str, int]
    # What happens in some schedule of these.
    met: tuple[str, ...]
    # By the rule without which the schedule breaks the law.
    dice: dict[str, Dice]

    def test_no_law_is_broken(self):
        met: Counter[str] = Counter()
        for profile, runs in self.runs.items():
            for seed in range(1, runs + 1):
                with self.subTest(profile=profile, seed=seed):
                    run = run_schedule(seed, self.form, STEPS, profile)
                    self.assertIsNone(run.violation)
                    met.update(run.schedule.world.coverage)
        self.assertEqual([it for it in self.met if not met[it]], [])

    def test_a_law_is_broken_without_a_rule_alone(self):
        for rule, dice in self.dice.items():
            with self.subTest(rule):
                violation = run_schedule(dice.seed, self.form.without(rule), STEPS, "kept").violation
                self.assertIsNotNone(violation, f"no law is broken without {rule}")
                self.assertEqual(violation.law, dice.law)
                self.assertIsNone(run_schedule(dice.seed, self.form, STEPS, "kept").violation)
