"""Random schedules with all rules: no law is broken, and what they are about does happen in them."""
import json
import unittest
from collections import Counter

from driving_model.commands import Open, Reopen
from driving_model.controller import Controller
from driving_model.rules import SOUND
from driving_model.schedule import PROFILES, Schedule, run_schedule
from driving_model.sessions import session_lines

STEPS = 220
# How many schedules of each profile are run; an empty one stands for schedules of all profiles.
RUNS = {"": 600} | {it: 150 for it in PROFILES if it != "any"}
# What happens in some schedule of these.
MET = (
    "a late ask", "acknowledged", "approved", "carried over", "crashed at work", "executed", "fence met work",
    "forgot", "journal replaced", "left out", "lost for good", "passed executed", "reopened", "reopening replaced",
    "restored", "settled", "turned Unknown",
)


class SoundSchedules(unittest.TestCase):
    """A fixed set of seeds."""

    def test_no_law_is_broken(self):
        met: Counter[str] = Counter()
        for profile, runs in RUNS.items():
            for seed in range(1, runs + 1):
                with self.subTest(profile=profile, seed=seed):
                    run = run_schedule(seed, SOUND, STEPS, profile)
                    self.assertIsNone(run.violation)
                    met.update(run.schedule.world.coverage)
        self.assertEqual([it for it in MET if not met[it]], [])

    def test_a_seed_determines_its_schedule(self):
        first, second = (run_schedule(7, SOUND, STEPS, keeps_trace=True).schedule.world.trace for _ in range(2))
        self.assertEqual(first, second)
        self.assertNotEqual(first, run_schedule(8, SOUND, STEPS, keeps_trace=True).schedule.world.trace)


class Sessions(unittest.TestCase):
    """Commands with their outcomes, to compare another controller with."""

    def test_a_session_gives_the_same_outcomes_again(self):
        schedule = Schedule(5, SOUND, STEPS)
        schedule.run()
        controller = Controller()
        replies = Counter()
        for command, outcome in schedule.world.session:
            controller = Controller() if is_first(command) else controller
            self.assertEqual(controller.apply(command), outcome)
            replies[type(outcome.reply).__name__] += 1
        self.assertLess({"Opened", "Begun", "Moved", "Ignored", "Refused"}, set(replies))

    def test_a_session_is_lines_of_json(self):
        lines = [json.loads(it) for it in session_lines(5, STEPS)]
        self.assertEqual(lines[0]["command"]["class"], "Open")
        self.assertEqual(lines[0]["outcome"]["reply"], {"class": "Opened", "journal": 1, "epoch": 0, "permits": []})


def is_first(command):
    """The command is the first one of a journal."""
    return isinstance(command, Open) or (isinstance(command, Reopen) and command.journal is not None)
