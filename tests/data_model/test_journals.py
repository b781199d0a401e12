"""Another journal with low numbers, after the last epoch: what servers keep of the old one, and what that does."""
import unittest
from unittest import mock

from driving_model.cells import ABSENT, PRIMARY, SECONDARY

from data_model import laws
from data_model.play import Play, TWO
from data_model.plays_journals import PLAYS, begin_last_view, open_anew, turns
from data_model.rules import SOUND, Rules
from data_model.worked import played

KEPT = SOUND.without("views_cleared")


class OldViews(unittest.TestCase):
    """Views that stand above the numbers of the new journal, and copies that are less than others."""

    def opened(self, rules: Rules) -> Play:
        """A service of two copies under its new journal."""
        play = Play(rules, TWO, want=2, cap=1, copies=2)
        play.write(7, copies=(1,))
        begin_last_view(play)
        open_anew(play, TWO)
        return play

    def test_an_acknowledged_write_is_lost_unnamed(self):
        for worked in PLAYS:
            if worked.rule in ("views_cleared", "unlike_set_aside"):
                with self.subTest(worked.name), mock.patch.object(laws, "STANDING", (laws.writes_stay,)):
                    self.assertEqual(played(worked, with_rule=False).law, "writes_stay")
                    self.assertIsNone(played(worked, with_rule=True))

    def test_nothing_is_acknowledged_after_a_change(self):
        for rules in (SOUND, KEPT):
            with self.subTest(rules.views_cleared), mock.patch.object(laws, "STANDING", (laws.writes_stay,)):
                play = self.opened(rules)
                play.change_to_secondary()
                turns(play)
                play.change_to_primary(1)
                turns(play)
                self.assertEqual(play.world.row(0), [SECONDARY, PRIMARY, ABSENT])
                play.write(8, copies=(0,), primary=1)
                turns(play)
                play.acknowledge()
                self.assertEqual(8 in play.world.writes.acknowledged[0], rules.views_cleared)

    def test_no_reopening_takes_their_copies(self):
        for rules in (SOUND, KEPT):
            play = self.opened(rules)
            play.lose(0)
            reopening = play.reopening({0}, (ABSENT, SECONDARY, ABSENT))
            self.assertEqual(reopening.missing, [] if rules.views_cleared else [1])


if __name__ == "__main__":
    unittest.main()
