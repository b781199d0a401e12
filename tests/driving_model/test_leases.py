"""Leases under clocks that differ, and answers that come late."""
import unittest

from driving_model.laws import Violation
from driving_model.leases import CLOCKS, random_play
from driving_model.rules import SOUND

SEEDS = range(100)


def broken(rules, clocks=CLOCKS):
    """The laws that plays with dice break."""
    found = set()
    for seed in SEEDS:
        try:
            random_play(seed, rules, clocks)
        except Violation as violation:
            found.add(violation.law)
    return found


class LeaseTest(unittest.TestCase):
    """A server that is given up while it goes on."""

    def test_no_law_is_broken(self):
        self.assertEqual(broken(SOUND), set())

    def test_each_rule_is_needed(self):
        for rule in ("lease_ends", "lease_waited", "lease_from_asking"):
            with self.subTest(rule):
                self.assertIn("one_serves", broken(SOUND.without(rule)))

    def test_so_is_the_bound_on_clocks(self):
        self.assertIn("one_serves", broken(SOUND, clocks=1.5))
