"""The controller over data: the number of copies, what is refused, and what is named."""
import unittest

from driving_model.cells import ABSENT, PRIMARY, SECONDARY
from driving_model.commands import Approve, Fenced, NewEpoch, Reopen, Restarted
from driving_model.messages import BASE_STEP, Inventory
from driving_model.replies import Approved, Ignored, Opened, Proposal, Refused, Restoring, Settling, Up

from data_model.commands import Copied, Document, RestoreServer
from data_model.controller import replayed
from data_model.copies import Told
from data_model.messages import Lower, SlotFound
from data_model.play import ALL, Play, TWO
from data_model.rules import SOUND


class Copies(unittest.TestCase):
    """How many copies are asked for."""

    def test_a_document_asks_for_its_floor_or_what_it_says(self):
        document = Document(frozenset(), (), (1, 1, 1), (3, 3, 1), (1, 1, 1), 1, (), copies=(None, 3))
        self.assertEqual([document.wanted(it) for it in range(3)], [2, 3, 1])

    def test_an_approval_lowers_and_copied_raises(self):
        play = Play(SOUND, TWO, want=2, copies=2)
        self.assertEqual(play.do(Approve(1, "by")), Approved(1, 1))
        self.assertEqual(play.controller.lowers(), [Lower(0, 1, 0, 0, copies=1, permit=1, up=frozenset())])
        play.do(Restarted(1, 0))
        self.assertEqual(play.controller.lowers(), [Lower(0, 1, 0, 0, copies=1, permit=1, up=frozenset({1}))])
        for wrong in (Copied(0, 1, -1, 0, 1), Copied(0, 1, 0, 0, 0), Copied(1, 1, 0, 0, 1)):
            self.assertEqual(play.do(wrong), Ignored("old"))
        play.do(NewEpoch())
        self.assertEqual(play.do(Copied(0, 1, 0, 0, 1)), Up(0))
        self.assertEqual((play.controller.record.copies, play.controller.lowers()), ([2], []))
        self.assertEqual(play.do(Copied(0, 1, 0, 0, 1)), Ignored("old"))

    def test_others_make_up_for_one_that_is_down(self):
        play = Play(SOUND, ALL, want=3, cap=2, copies=2)
        play.write(7, copies=(1, 2))
        play.do(Approve(2, "by"))
        self.assertEqual(play.controller.record.copies, [1])
        play.raise_copies()
        self.assertEqual(play.do(play.world.network.copied[-1]), Up(0))
        self.assertEqual(play.controller.record.copies, [2])

    def test_a_plan_leaves_as_many_replicas(self):
        play = Play(SOUND, TWO, want=2, cap=1, copies=2)
        play.drop(1)
        self.assertEqual(play.world.session[-1][1].reply, Refused("ShortCopies", shard=0))

    def test_a_reopening_asks_for_no_more_than_are_left(self):
        play = Play(SOUND, ALL, want=3, copies=2)
        play.write(7, copies=(1, 2))
        play.write(8, copies=(1,))
        play.fail_over(0, (ABSENT, SECONDARY, SECONDARY))
        self.assertEqual((play.controller.record.copies, play.controller.record.wanted), ([1], [2]))
        play.copy(2, 1)
        play.raise_copies()
        self.assertEqual(play.do(play.world.network.copied[-1]), Up(1))
        self.assertEqual(play.controller.record.copies, [2])

    def test_who_confirms_may_ask_for_fewer(self):
        play = Play(SOUND, ALL, want=3, copies=2)
        play.lose(0)
        play.reopening({0}, (ABSENT, SECONDARY, SECONDARY))
        self.assertIsInstance(play.confirm(copies=1), Settling)
        self.assertEqual(play.controller.reopening.copies, (1,))


class Losses(unittest.TestCase):
    """What may be lost is refused or named."""

    def test_a_primary_is_restored_with_its_data_alone(self):
        play = Play(SOUND, TWO, want=2)
        self.assertEqual(play.do(RestoreServer(0, 77)), Refused("DataLost", server=0, shard=0))
        self.assertIsInstance(play.do(RestoreServer(0, 77, frozenset({0}))), Restoring)

    def test_who_is_restored_with_nothing_is_recorded_down(self):
        play = Play(SOUND, TWO, want=2, copies=2)
        play.do(RestoreServer(1, 77))
        self.assertEqual((play.controller.record.permits, play.controller.record.copies), ({1: 1}, [1]))
        self.assertEqual(play.do(Approve(0, "by")), Refused("ShardCap", shard=0))
        self.assertIsInstance(play.do(Restarted(1, 0)), Up)

    def test_a_loss_is_named_and_repeated(self):
        play = Play(SOUND, TWO, want=2, cap=1)
        play.lose(0)
        proposal = play.reopening({0}, (ABSENT, SECONDARY, ABSENT)).propose()
        self.assertIsInstance(proposal, Proposal)
        self.assertEqual((proposal.lost, proposal.cells), ((0,), ((ABSENT, PRIMARY, ABSENT),)))
        self.assertEqual(play.confirm(lost=frozenset()), Refused("Unnamed", shard=0))
        self.assertIsInstance(play.confirm(), Settling)

    def test_nothing_is_named_while_enough_are_left(self):
        play = Play(SOUND, TWO, want=2, copies=2)
        play.lose(0)
        self.assertEqual(play.reopening({0}, (ABSENT, SECONDARY, ABSENT)).propose().lost, ())

    def test_nothing_is_named_of_a_shard_without_a_primary_whose_copies_are_there(self):
        play = Play(SOUND, TWO, want=2, cap=2)
        play.change_to_secondary()
        for _ in range(3):
            play.turn()
        self.assertEqual(play.reopening(set(), (SECONDARY, SECONDARY, ABSENT)).propose().lost, ())

    def test_a_shard_that_is_named_waits_for_nobody(self):
        play = Play(SOUND, ALL, want=3, cap=2)
        play.do(Approve(1, "by"))
        play.lose(0)
        reopening = play.reopening({0}, (ABSENT, SECONDARY, SECONDARY), silent=frozenset({1}))
        self.assertEqual(reopening.waits_for(), [1])
        self.assertEqual(play.confirm(lost=frozenset()), Refused("Missing", server=1))
        self.assertIsInstance(play.confirm(lost=frozenset({0})), Settling)

    def test_a_view_above_the_reopening_is_refused(self):
        controller = Play(SOUND, TWO, want=2).controller
        controller.apply(Reopen(controller.record.document, frozenset()))
        above = Told(BASE_STEP, 4)
        for slot in (SlotFound(SECONDARY, above, None, False), SlotFound(SECONDARY, None, above, False)):
            refused = controller.apply(Fenced(1, BASE_STEP, Inventory((slot,)))).reply
            self.assertEqual(refused, Refused("Number", server=1))

    def test_a_journal_gives_the_same_controller(self):
        play = Play(SOUND, TWO, want=2, copies=2)
        play.approve(1)
        play.fail_over(0, (ABSENT, SECONDARY, ABSENT))
        self.assertIsInstance(play.controller.opened(), Opened)
        self.assertEqual(replayed(play.world.journal).snapshot(), play.controller.snapshot())


if __name__ == "__main__":
    unittest.main()
