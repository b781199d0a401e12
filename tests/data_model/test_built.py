"""The form that is built: a number that servers tell, what a reopening keeps of it, and what is named by it."""
import unittest

from driving_model.cells import ABSENT, PRIMARY, SECONDARY
from driving_model.commands import NewEpoch
from driving_model.replies import Ignored, Refused, Up

from data_model.commands import CopiedAt
from data_model.controller import replayed
from data_model.play import ALL, Play as FullPlay, TWO
from data_model.plays_built import OWN_PLAYS, PLAYS, Play
from data_model.rules import BUILT, NOT_BUILT, SMALL, data_rule_names
from data_model.schedule import run_schedule

import forms
from forms import Dice


class Numbers(unittest.TestCase):
    """What `copied` does, and how many copies a reopening keeps."""

    def kept(self, play: FullPlay, lost: set[int] = frozenset()) -> int:
        """Those by which a reopening counts that begins now."""
        for server in lost:
            play.lose(server)
        return play.reopening(set(lost), play.document.cells[0]).least(0)

    def test_copied_raises_and_is_ignored_again(self):
        play = FullPlay(BUILT, ALL, want=3, cap=1, copies=2)
        for wrong in (CopiedAt(0, 2, 0, 0, 2), CopiedAt(0, 1, -1, 0, 2), CopiedAt(0, 1, 0, 0, 1)):
            self.assertEqual(play.do(wrong), Ignored("old"))
        self.assertEqual(play.do(CopiedAt(0, 1, 0, 0, 4)), Refused("AboveWant", shard=0))
        self.assertEqual(play.do(CopiedAt(0, 1, 0, 0, 2)), Up(0))
        self.assertEqual(play.do(CopiedAt(2, 1, 0, 0, 2)), Ignored("old"))
        self.assertEqual(play.do(CopiedAt(1, 1, 0, 0, 3)), Up(1))
        self.assertEqual(play.controller.record.copies, [3])
        self.assertEqual(replayed(play.world.journal, BUILT).snapshot(), play.controller.snapshot())

    def test_an_approval_an_epoch_and_a_handover_leave_it(self):
        play = Play(BUILT, (PRIMARY, SECONDARY, SECONDARY, ABSENT), want=3, copies=2)
        play.do(play.host(1).restarted(play.approve(1)))
        play.do(NewEpoch())
        play.hand(0, 3)
        for _ in range(8):
            play.turn()
        self.assertEqual((play.world.row(0)[3], play.controller.record.copies), (PRIMARY, [2]))
        self.assertEqual(self.kept(play), 2)

    def test_a_reopening_keeps_what_was_told(self):
        for copies, kept in ((2, 2), (None, 1)):
            self.assertEqual(self.kept(Play(BUILT, ALL, want=3, cap=1, copies=copies)), kept)

    def test_one_is_kept_while_an_order_is_present(self):
        play = Play(BUILT, TWO, want=2, copies=2)
        play.add_secondary(2)
        self.assertEqual(self.kept(play), 1)

    def test_another_reopening_keeps_the_same_until_one_is_confirmed(self):
        play = Play(BUILT, TWO, want=2, copies=2)
        self.assertEqual([self.kept(play), self.kept(play)], [2, 2])
        play.confirm()
        self.assertEqual([self.kept(play), self.kept(play)], [1, 1])
        play.settle()
        self.assertEqual(play.controller.record.copies, [1])

    def test_during_a_reopening_it_is_old(self):
        play = FullPlay(BUILT, TWO, want=2, cap=0, copies=2)
        play.reopening(set(), TWO)
        self.assertEqual(play.do(CopiedAt(0, 1, 0, 0, 2)), Ignored("old"))


class Names(unittest.TestCase):
    """What is named as lost."""

    def names(self, play: FullPlay, lost: set[int], row: tuple) -> tuple[int, ...]:
        """What a reopening names without these servers."""
        for server in lost:
            play.lose(server)
        return play.reopening(lost, row).propose().lost

    def test_one_loss_is_not_named_where_two_copies_are_kept(self):
        for copies, lost in ((2, ()), (None, (0,))):
            play = Play(BUILT, ALL, want=3, cap=1, copies=copies)
            play.write(7, copies=(1,))
            self.assertEqual(self.names(play, {0}, (ABSENT, SECONDARY, SECONDARY)), lost)
            self.assertEqual(play.controller.reopening.propose().cells, ((ABSENT, PRIMARY, SECONDARY),))

    def test_two_losses_are(self):
        play = Play(BUILT, ALL, want=3, copies=2)
        self.assertEqual(self.names(play, {0, 2}, (ABSENT, SECONDARY, ABSENT)), (0,))

    def test_copies_without_a_write_are_told_like_none(self):
        play = FullPlay(BUILT, ALL, want=3, cap=1, copies=2)
        play.do(CopiedAt(0, 1, 0, 0, 2))
        self.assertEqual(self.names(play, {0}, (ABSENT, SECONDARY, SECONDARY)), (0,))

    def test_nobody_tells_a_whole_copy(self):
        play = FullPlay(BUILT, TWO, want=3, cap=1, copies=2)
        play.do(CopiedAt(0, 1, 0, 0, 3))
        play.world.lose(play.host(1))
        play.restore(1)
        self.assertEqual(self.names(play, {0}, (ABSENT, SECONDARY, ABSENT)), (0,))

    def test_a_primary_that_is_there_is_never_named(self):
        play = FullPlay(BUILT, TWO, want=2, cap=0, copies=2)
        play.write(7, copies=())
        self.assertEqual(self.names(play, {1}, (PRIMARY, ABSENT, ABSENT)), ())


class Needed(forms.Needed, unittest.TestCase):
    """Each rule is needed."""

    form, plays, own_plays = BUILT, PLAYS, OWN_PLAYS
    # Without it a name is there that need not be.
    of_other_laws = frozenset({"copied_only_rises"})
    left_out, wider = NOT_BUILT, data_rule_names(SMALL)


class Schedules(forms.Schedules, unittest.TestCase):
    """Random schedules. If the model changes, `tools/data_model.py --built --mode RULE` finds other seeds."""

    form = BUILT
    runs = {"": 15, "kept": 25, "one shard": 10, "drops": 10}
    met = (
        "a named loss taken", "a new primary, named", "a new primary, sure", "acknowledged at several", "approved",
        "copied", "copies anew", "leave taken", "lost for good", "reopened", "reopening replaced", "restored",
    )
    dice = {
        "kept_begins_anew": Dice(2, "enough_have_it"),
        "replaced_keeps_one": Dice(99, "enough_have_it"),
        "loss_named": Dice(1, "best_copy_wins"),
        "part_gone": Dice(5, "writes_stay"),
        "silent_gone": Dice(27, "best_copy_wins"),
        "server_named": Dice(88, "best_copy_wins"),
    }

    def test_no_copy_is_promised_that_a_confirmed_reopening_takes_away(self):
        """A primary that is not settled yet counts the new owner of a handover, which is settled with nothing."""
        self.assertIsNone(run_schedule(41108037, BUILT, 300).violation)

    def test_who_has_come_back_is_away_no_longer(self):
        """An old end of a restart comes once more, and is the one by which a server is recorded up; later this one crashes."""
        self.assertIsNone(run_schedule(43015159, BUILT, 300, "carry").violation)


if __name__ == "__main__":
    unittest.main()
