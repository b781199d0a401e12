"""Random schedules with all rules: no law is broken, and what they are about does happen in them."""
import unittest
from collections import Counter

from data_model.rules import SOUND
from data_model.schedule import PROFILES, run_schedule

STEPS = 220
# How many schedules of each profile are run; an empty one stands for schedules of all profiles.
RUNS = {"": 60} | {it: 20 for it in PROFILES if it != "any"} | {"views": 30}
# What happens in some schedule of these.
MET = (
    "a copy in doubt chosen", "a crash lost writes", "a named loss taken", "a new primary, sure",
    "acknowledged at several", "an answer too late", "approved", "asked again", "carried over", "copied", "copies anew",
    "copies anew though a beginning", "copies lowered", "crashed at work", "cut off", "gone back", "journal replaced",
    "leave given", "leave taken",
    "lost for good", "named rather than awaited", "reopened", "reopening replaced", "restored", "seen", "set aside",
    "told too late",
)


class SoundSchedules(unittest.TestCase):
    """A fixed set of seeds."""

    def test_no_law_is_broken(self):
        met: Counter[str] = Counter()
        for profile, runs in RUNS.items():
            for seed in range(1, runs + 1):
                with self.subTest(profile=profile, seed=seed):
                    run = run_schedule(seed, SOUND, STEPS, profile)
                    self.assertIsNone(run.violation)
                    met.update(run.schedule.world.coverage)
        self.assertEqual([it for it in MET if not met[it]], [])

    def test_a_seed_determines_its_schedule(self):
        first, second = (run_schedule(7, SOUND, STEPS, keeps_trace=True).schedule.world.trace for _ in range(2))
        self.assertEqual(first, second)
        self.assertNotEqual(first, run_schedule(8, SOUND, STEPS, keeps_trace=True).schedule.world.trace)


if __name__ == "__main__":
    unittest.main()
