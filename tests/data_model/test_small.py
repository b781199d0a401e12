"""The small form: a number that is wanted, one that is kept, and what is named by it."""
import unittest

from driving_model.cells import ABSENT, PRIMARY, SECONDARY
from driving_model.commands import NewEpoch
from driving_model.replies import Ignored, Up

from data_model.commands import CopiedAt
from data_model.controller import replayed
from data_model.play import ALL, Play as FullPlay, TWO
from data_model.plays_small import OWN_PLAYS, PLAYS, Play
from data_model.rules import NOT_SMALL, SMALL, data_rule_names

import forms
from forms import Dice


class Numbers(unittest.TestCase):
    """How many copies are wanted, and how many are kept."""

    def numbers(self, play: FullPlay) -> tuple[int, int]:
        """Those that are wanted, and those that are kept."""
        record = play.controller.record
        return record.wanted[0], record.copies[0]

    def test_no_more_are_wanted_than_the_floor(self):
        for copies, cap, wanted in ((None, 0, 1), (2, 0, 2), (3, 1, 2), (2, 2, 1), (2, 3, 1)):
            with self.subTest(copies=copies, cap=cap):
                self.assertEqual(self.numbers(FullPlay(SMALL, ALL, want=3, cap=cap, copies=copies)), (wanted, 1))

    def test_copied_raises_and_is_ignored_again(self):
        play = FullPlay(SMALL, ALL, want=3, cap=1, copies=2)
        for wrong in (CopiedAt(0, 2, 0, 0), CopiedAt(0, 1, -1, 0)):
            self.assertEqual(play.do(wrong), Ignored("old"))
        self.assertEqual(play.do(CopiedAt(0, 1, 0, 0)), Up(0))
        self.assertEqual(self.numbers(play), (2, 2))
        self.assertEqual(play.do(CopiedAt(0, 1, 0, 0)), Ignored("old"))
        self.assertEqual(replayed(play.world.journal, SMALL).snapshot(), play.controller.snapshot())

    def test_an_approval_an_epoch_and_a_handover_leave_both(self):
        play = Play(SMALL, (PRIMARY, SECONDARY, SECONDARY, ABSENT), want=3, copies=2)
        permit = play.approve(1)
        self.assertEqual(self.numbers(play), (2, 2))
        play.do(play.host(1).restarted(permit))
        play.do(NewEpoch())
        play.hand(0, 3)
        for _ in range(8):
            play.turn()
        self.assertEqual(play.world.row(0)[3], PRIMARY)
        self.assertEqual(self.numbers(play), (2, 2))

    def test_nothing_is_said_before_it_is_so(self):
        play = FullPlay(SMALL, ALL, want=3, cap=1, copies=2)
        play.execute(0, 7)
        play.host(0).copy(0).flush()
        play.world.raise_copies(0)
        self.assertEqual(play.world.network.copied, [])
        play.copy(1, 0)
        play.raise_copies()
        self.assertEqual(play.world.network.copied, [CopiedAt(0, 1, 0, 0)])

    def test_a_reopening_keeps_less_the_replicas_that_go(self):
        play = Play(SMALL, (PRIMARY, SECONDARY, SECONDARY, SECONDARY), want=4, copies=3)
        play.write(7, copies=(1, 2))
        play.fail_over(1, (PRIMARY, ABSENT, SECONDARY, SECONDARY))
        self.assertEqual(self.numbers(play), (3, 2))

    def test_one_loss_is_not_named_where_two_copies_are_kept(self):
        for copies, lost in ((2, ()), (None, (0,))):
            play = Play(SMALL, ALL, want=3, cap=2, copies=copies)
            play.write(7, copies=(1,))
            play.lose(0)
            proposal = play.reopening({0}, (ABSENT, SECONDARY, SECONDARY)).propose()
            self.assertEqual((proposal.lost, proposal.cells), (lost, ((ABSENT, PRIMARY, SECONDARY),)))

    def test_a_primary_that_is_there_is_never_named(self):
        play = FullPlay(SMALL, TWO, want=2, cap=0, copies=2)
        play.write(7, copies=())
        play.lose(1)
        self.assertEqual(play.reopening({1}, (PRIMARY, ABSENT, ABSENT)).propose().lost, ())


    def test_a_lost_secondary_is_not_named_where_all_that_served_are_there(self):
        play = Play(SMALL, (PRIMARY, SECONDARY, ABSENT), want=2, cap=1)
        play.hand(0, 2)
        for _ in range(2):
            play.turn()
        play.lose(1)
        self.assertEqual([it.kind.value for it in play.world.row(0)], ["forwarding", "absent", "prepared"])
        self.assertEqual(play.reopening({1}, (ABSENT, ABSENT, ABSENT)).propose().lost, ())


class Needed(forms.Needed, unittest.TestCase):
    """Each rule is needed."""

    form, plays, own_plays = SMALL, PLAYS, OWN_PLAYS
    of_other_laws = frozenset({"wanted_within_floor", "views_below"})
    left_out, wider = NOT_SMALL, data_rule_names()


class Schedules(forms.Schedules, unittest.TestCase):
    """Random schedules. If the model changes, `tools/data_model.py --small --mode RULE` finds other seeds."""

    form = SMALL
    runs = {"": 33, "kept": 60, "one shard": 15, "drops": 15}
    met = (
        "a named loss taken", "a new primary, named", "a new primary, sure", "acknowledged at several", "approved",
        "carried over", "copied", "copies anew", "leave taken", "lost for good", "reopened", "reopening replaced",
        "restored",
    )
    dice = {
        "enough_acknowledge": Dice(4, "fewer_losses_lose_nothing"),
        "copied_of_all": Dice(22, "enough_have_it"),
        "kept_from_one": Dice(8, "enough_have_it"),
        "kept_below_wanted": Dice(54, "enough_have_it"),
        "loss_named": Dice(220, "writes_stay"),
        "unknown_gone": Dice(259, "writes_stay"),
        "goers_lower": Dice(288, "enough_have_it"),
        "replaced_counted": Dice(343, "enough_have_it"),
    }


if __name__ == "__main__":
    unittest.main()
