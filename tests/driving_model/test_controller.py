"""The controller: each command on its way, each refusal once, and that a journal gives the same controller again."""
import unittest
from dataclasses import replace

from driving_model.cells import ABSENT, Call, Cell, Kind, PRIMARY, SECONDARY, Verb
from driving_model.commands import (
    Answered, Approve, Begin, Confirm, Fenced, NewEpoch, Open, Reopen, Restarted, RestoreServer,
)
from driving_model.controller import Controller, replayed
from driving_model.decisions import MOST_PLANS
from driving_model.messages import BASE_STEP, Fence, LAST_EPOCH, LONGEST_LOG, MAP, Notice, Order, Publication, Unknown
from driving_model.plans import Plan, RoomRight, Stream, publish
from driving_model.replies import (
    Approved, Begun, Fencing, Ignored, Moved, Opened, PermitEnded, Proposal, Refused, Restoring, Settling, Up, Waiting,
)

from examples import (
    DOCUMENT, drop_secondary, hand, hand_by_two_streams, move_secondary, opened, settled, told,
)

STEADY = DOCUMENT.cells


class ControllerTest(unittest.TestCase):
    """What all tests of the controller need."""

    def assert_reply(self, controller, command, reply):
        """The command gets this reply, and one that is refused or ignored changes nothing."""
        before = controller.snapshot()
        outcome = controller.apply(command)
        self.assertEqual(outcome.reply, reply)
        if not outcome.has_changed:
            self.assertEqual(controller.snapshot(), before)
        return outcome

    def answer_all(self, controller):
        """Each order is answered, until there are none."""
        while controller.orders():
            order = controller.orders()[0]
            controller.apply(Answered(order.plan, order.stream, order.number))

    def reopened(self, controller, cells=STEADY, lost=frozenset()):
        """A reopening begins, with a document of these cells."""
        document = replace(DOCUMENT, servers=DOCUMENT.servers - lost, cells=cells)
        return controller.apply(Reopen(document, lost))


class Plans(ControllerTest):
    """Beginning plans, and answers."""

    def test_a_handover_is_five_orders(self):
        controller = opened(epoch=3)
        base = 3 * BASE_STEP
        outcome = self.assert_reply(controller, hand(), Begun(epoch=3, plan=0, calls=4, streams=1))
        first = Order(
            journal=9, epoch=3, fence=0, plan=0, stream=0, number=base + 1, server=2, shard=0,
            call=Call(Verb.PREPARE_ADD, party=0, handover=base + 1), load=4, room=5,
        )
        self.assertEqual(outcome.orders, (first,))
        outcome = self.assert_reply(controller, Answered(0, 0, base + 1), Moved(0, 0, 1))
        self.assertEqual(outcome.orders[0].call, Call(Verb.PREPARE_DROP, party=2, handover=base + 1))
        controller.apply(Answered(0, 0, base + 2))
        outcome = controller.apply(Answered(0, 0, base + 3))
        self.assertEqual(outcome.orders, (Publication(9, 3, 0, 0, 0, base + 4, shard=0, to=2, version=base + 1),))
        controller.apply(Answered(0, 0, base + 4))
        outcome = self.assert_reply(controller, Answered(0, 0, base + 5), Moved(0, 0, 5))
        self.assertEqual((outcome.orders, outcome.ended), ((), (0,)))
        self.assertEqual(controller.record.cells[0], [ABSENT, SECONDARY, PRIMARY])
        self.assertEqual((controller.record.listed[0], controller.record.log), (2, 6))

    def test_a_cell_has_the_base_in_its_number(self):
        controller = opened(epoch=1)
        controller.apply(hand())
        controller.apply(Answered(0, 0, BASE_STEP + 1))
        self.assertEqual(controller.cell(0, 2), Cell(Kind.PREPARED, 0, BASE_STEP + 1))

    def test_steps_that_need_nobody_are_made_at_once(self):
        controller = opened()
        outcome = controller.apply(hand_by_two_streams())
        self.assertEqual([(it.stream, it.number) for it in outcome.orders], [(1, 1)])
        controller.apply(Answered(0, 1, 1))
        outcome = self.assert_reply(controller, Answered(0, 1, 2), Moved(0, 1, 3))
        # (the signal is at place 3; the lowest stream is next: its wait at 4; then the end of stream 1 at 5)
        self.assertEqual([(it.stream, it.number) for it in outcome.orders], [(0, 5)])
        self.assertEqual(controller.record.log, 5)

    def test_an_answer_counts_once_and_only_for_the_present_order(self):
        controller = opened()
        controller.apply(hand())
        self.assert_reply(controller, Answered(0, 0, 2), Ignored("old"))
        self.assert_reply(controller, Answered(1, 0, 1), Ignored("unknown"))
        self.assert_reply(controller, Answered(0, 1, 1), Ignored("unknown"))
        self.assert_reply(controller, Answered(0, 0, 1), Moved(0, 0, 1))
        self.assert_reply(controller, Answered(0, 0, 1), Ignored("old"))

    def test_a_name_begins_one_plan(self):
        controller = opened()
        controller.apply(move_secondary())
        again = Begun(0, 0, 2, 1, is_again=True)
        self.assert_reply(controller, move_secondary(), again)
        self.answer_all(controller)
        controller.apply(NewEpoch())
        self.assert_reply(controller, move_secondary(), again)
        controller.apply(NewEpoch())
        untrue = Refused("Untrue", stream=0, detail="CellRight(shard=0, server=2)")
        self.assert_reply(controller, move_secondary(), untrue)

    def test_what_holds_a_plan_up(self):
        controller = opened()
        plan = Begin("bare", Plan((Stream({}, (publish(0),)),)))
        where = "{'stream': 0, 'at': 0, 'why': 'NoCrown'}"
        self.assert_reply(controller, plan, Refused("Stream", stream=0, detail=where))
        room = Begin("room", Plan((Stream({RoomRight(2): 6}, ()),)))
        self.assert_reply(controller, room, Refused("ShortRoom", server=2))
        self.assert_reply(controller, hand(), Begun(0, 0, 4, 1))
        taken = Refused("Taken", stream=0, detail="CellRight(shard=0, server=2)")
        self.assert_reply(controller, move_secondary(), taken)
        controller = opened(replace(DOCUMENT, caps=(0, 0)))
        self.assert_reply(controller, drop_secondary(), Refused("ShortSpare", shard=0))
        controller = opened()
        controller.apply(Approve(2, "by"))
        self.assert_reply(controller, hand(), Refused("ServerDown", server=2))

    def test_a_full_log_refuses_beginnings_and_approvals_alone(self):
        controller = opened(replace(DOCUMENT, caps=(1, 1), log=6))
        self.assert_reply(controller, hand(), Begun(0, 0, 4, 1))
        self.assert_reply(controller, drop_secondary(), Refused("LogFull"))
        self.assert_reply(controller, Approve(1, "by"), Refused("LogFull"))
        self.answer_all(controller)
        self.assertEqual(controller.record.free_places(), 0)
        self.assert_reply(controller, Approve(1, "by"), Refused("LogFull"))
        self.assert_reply(controller, NewEpoch(), Opened(9, 1))
        self.assert_reply(controller, Approve(1, "by"), Approved(1, BASE_STEP + 1))

    def test_so_many_plans_run_at_once(self):
        controller = opened()
        waiting = Plan((Stream({}, ()),))
        for number in range(MOST_PLANS):
            controller.apply(Begin(f"none-{number}", waiting))
        self.assertTrue(all(it.is_done for it in controller.record.plans))
        for plan in controller.record.plans:
            plan.streams[0].is_done = False
        self.assertEqual(controller.apply(Begin("more", waiting)).reply, Refused("TooManyPlans"))


class Restarts(ControllerTest):
    """Approvals, permits and restores."""

    def test_a_permit_ends_one_restart(self):
        controller = opened()
        self.assert_reply(controller, Approve(1, "a"), Refused("ShardCap", shard=1))
        self.assert_reply(controller, Approve(0, "a"), Approved(0, 1))
        self.assert_reply(controller, Approve(0, "a"), Approved(0, 1))
        self.assert_reply(controller, Approve(1, "a"), Refused("OtherServer", server=0))
        self.assert_reply(controller, Approve(0, "b"), Refused("AlreadyDown", server=0))
        self.assert_reply(controller, Approve(2, "b"), Refused("GlobalCap"))
        self.assert_reply(controller, Approve(3, "b"), Refused("UnknownServer", server=3))
        self.assert_reply(controller, Restarted(2, 0), Ignored("old"))
        self.assert_reply(controller, Restarted(1, 0), Up(0))
        self.assert_reply(controller, Restarted(1, 0), Ignored("old"))
        self.assert_reply(controller, Approve(0, "a"), PermitEnded(0, 1))
        self.assert_reply(controller, Approve(0, "b"), Approved(0, 3))

    def test_a_restart_ends_with_a_base_alone(self):
        controller = opened()
        controller.apply(Approve(0, "a"))
        self.assert_reply(controller, Restarted(2, None), Ignored("old"))
        self.assert_reply(controller, Restarted(1, None), Refused("Unsettled", server=0))
        self.assert_reply(controller, Restarted(1, 0), Up(0))

    def test_permits_are_kept_across_epochs(self):
        controller = opened()
        controller.apply(Approve(0, "a"))
        self.assert_reply(controller, NewEpoch(), Opened(9, 1, ((0, 1),)))
        self.assert_reply(controller, Restarted(1, 0), Up(0))

    def test_a_document_that_calls_a_server_down_gives_it_a_permit(self):
        controller = Controller()
        document = replace(DOCUMENT, down=frozenset({0}))
        permit = LONGEST_LOG + 1
        self.assert_reply(controller, Open(document, 9, 0), Opened(9, 0, ((0, permit),)))
        self.assert_reply(controller, Restarted(permit, 0), Up(0))

    def test_a_server_that_a_stream_names_is_engaged(self):
        controller = opened()
        controller.apply(hand())
        self.assert_reply(controller, Approve(2, "a"), Refused("Engaged", server=2, plan=0, stream=0))
        self.assert_reply(controller, RestoreServer(2, 77), Refused("Engaged", server=2, plan=0, stream=0))

    def test_a_restore_is_an_entry_that_comes_again(self):
        controller = opened(epoch=1)
        self.assert_reply(controller, RestoreServer(7, 77), Refused("UnknownServer", server=7))
        controller.apply(Approve(0, "a"))
        outcome = controller.apply(RestoreServer(0, 77))
        restore = outcome.reply.restore
        self.assertEqual((restore.nonce, restore.base, restore.fence), (77, BASE_STEP + 1, 0))
        self.assertEqual([it.cell for it in restore.slots], [PRIMARY, ABSENT])
        controller.apply(Restarted(BASE_STEP + 1, BASE_STEP + 1))
        self.assert_reply(controller, RestoreServer(0, 77), Restoring(restore))
        self.assertEqual(controller.apply(RestoreServer(0, 78)).reply.restore.base, BASE_STEP + 2)


class Epochs(ControllerTest):
    """New epochs and reopenings."""

    def test_what_is_not_opened(self):
        controller = Controller()
        for command in (hand(), Answered(0, 0, 1), Approve(0, "a"), RestoreServer(0, 1), NewEpoch()):
            self.assert_reply(controller, command, Refused("NotOpened"))
        self.assert_reply(controller, Reopen(DOCUMENT, frozenset()), Refused("NotOpened"))
        faults = {
            "BadLead": replace(DOCUMENT, cells=((PRIMARY, PRIMARY, ABSENT), STEADY[1])),
            "OverRoom": replace(DOCUMENT, rooms=(3, 10, 5)),
            "Short": replace(DOCUMENT, wants=(4, 1)),
            "TooManyDown": replace(DOCUMENT, limit=0, down=frozenset({2})),
            "LogFull": replace(DOCUMENT, log=0, down=frozenset({2})),
        }
        for kind, document in faults.items():
            self.assertEqual(controller.apply(Open(document, 9, 0)).reply.kind, kind)
        self.assert_reply(controller, Open(DOCUMENT, 9, 0), Opened(9, 0))
        self.assert_reply(controller, Open(DOCUMENT, 9, 0), Refused("AlreadyOpened"))

    def test_an_epoch_ends_at_rest(self):
        controller = opened()
        controller.apply(hand())
        self.assert_reply(controller, NewEpoch(), Refused("Running", plan=0))
        self.answer_all(controller)
        self.assert_reply(controller, NewEpoch(), Opened(9, 1))
        self.assertEqual((controller.record.listed, controller.record.versions), ([2, 1], [0, 0]))
        self.assert_reply(opened(epoch=LAST_EPOCH), NewEpoch(), Refused("LastEpoch"))

    def test_a_reopening_from_its_fences_to_the_opening(self):
        controller = opened()
        controller.apply(hand())
        controller.apply(Answered(0, 0, 1))
        fences = tuple(Fence(it, BASE_STEP, 9) for it in (MAP, 0, 1, 2))
        document = replace(DOCUMENT, cells=((ABSENT,) * 3,) * 2)
        self.assert_reply(controller, Reopen(document, frozenset()), Fencing(fences))
        for command in (NewEpoch(), hand("other"), Approve(0, "a"), RestoreServer(0, 1)):
            self.assert_reply(controller, command, Refused("Reopening"))
        self.assert_reply(controller, Answered(0, 0, 2), Ignored("old"))
        self.assert_reply(controller, told(MAP), Waiting((0, 1, 2)))
        self.assert_reply(controller, told(0, PRIMARY, ABSENT, epoch=2), Ignored("old"))
        self.assert_reply(controller, told(0, PRIMARY, ABSENT), Waiting((1, 2)))
        self.assert_reply(controller, told(0, ABSENT, ABSENT), Ignored("old"))
        self.assert_reply(controller, Confirm(BASE_STEP), Refused("Missing", server=1))
        controller.apply(told(1, SECONDARY, PRIMARY))
        proposal = Proposal(BASE_STEP, STEADY, lost=(), floors=(), carried=())
        self.assert_reply(controller, told(2, Cell(Kind.PREPARED, 0, 1), ABSENT), proposal)
        settles = controller.apply(Confirm(BASE_STEP)).reply
        self.assertIsInstance(settles, Settling)
        self.assertEqual([it.server for it in settles.settles], [MAP, 0, 1, 2])
        self.assertEqual(settles.settles[0].entries, (0, 1))
        self.assert_reply(controller, settled(MAP), Waiting((0, 1, 2)))
        controller.apply(settled(0))
        self.assert_reply(controller, settled(0), Ignored("old"))
        controller.apply(settled(1))
        self.assert_reply(controller, settled(2), Opened(9, 1))
        self.assertEqual(controller.fence, BASE_STEP)

    def test_what_may_not_be_confirmed(self):
        controller = opened()
        self.reopened(controller)
        for command in (told(MAP), told(0, PRIMARY, ABSENT), told(1, SECONDARY, PRIMARY), told(2, ABSENT, ABSENT)):
            controller.apply(command)
        choices = {
            "BadLead": (PRIMARY, PRIMARY, ABSENT),
            "Primary": (SECONDARY, PRIMARY, ABSENT),
        }
        for kind, row in choices.items():
            self.assertEqual(controller.apply(Confirm(BASE_STEP, (row, STEADY[1]))).reply.kind, kind)
        too_much = ((PRIMARY, SECONDARY, SECONDARY), (ABSENT, PRIMARY, SECONDARY))
        self.assert_reply(controller, Confirm(BASE_STEP, too_much), Refused("OverRoom", server=2))

    def test_a_party_without_all_writes_ranks_below_a_secondary(self):
        for reached, successor in ((False, 1), (True, 2)):
            controller = opened()
            self.reopened(controller, lost=frozenset({0}))
            prepared = Cell(Kind.PREPARED, 0, 1)
            controller.apply(told(MAP))
            controller.apply(told(1, SECONDARY, PRIMARY))
            proposal = controller.apply(told(2, prepared, ABSENT, position=9, reached=reached)).reply
            self.assertEqual(proposal.cells[0].index(PRIMARY), successor)
            other = tuple(PRIMARY if it == 3 - successor else ABSENT for it in range(3))
            refused = Refused("LowerChoice", shard=0, server=3 - successor)
            self.assert_reply(controller, Confirm(BASE_STEP, (other, STEADY[1])), refused)

    def test_a_document_counts_only_for_who_is_unknown(self):
        controller = opened()
        self.reopened(controller)
        for command in (told(MAP), told(0, PRIMARY, ABSENT), told(2, ABSENT, ABSENT)):
            controller.apply(command)
        proposal = controller.apply(Fenced(1, BASE_STEP, Unknown(5))).reply
        self.assertEqual((proposal.cells, proposal.lost), (STEADY, (1,)))
        settles = controller.apply(Confirm(BASE_STEP)).reply.settles
        self.assertEqual([it.nonce for it in settles[1:]], [None, 5, None])

    def test_a_silent_server_is_carried_over(self):
        controller = opened()
        controller.apply(Approve(0, "a"))
        document = replace(DOCUMENT, cells=((ABSENT,) * 3,) * 2)
        controller.apply(Reopen(document, frozenset()))
        controller.apply(told(MAP))
        controller.apply(told(1, SECONDARY, PRIMARY))
        proposal = controller.apply(told(2, ABSENT, ABSENT)).reply
        self.assertEqual((proposal.cells, proposal.carried), (STEADY, (0,)))
        other = ((PRIMARY, SECONDARY, ABSENT), (SECONDARY, PRIMARY, ABSENT))
        self.assert_reply(controller, Confirm(BASE_STEP, other), Refused("CarriedOver", shard=1, server=0))
        controller.apply(Confirm(BASE_STEP))
        for server in (MAP, 1, 2):
            controller.apply(settled(server))
        self.assertEqual([it.server for it in controller.outgoing()], [0])
        for base in (None, 0, BASE_STEP - 1):
            self.assert_reply(controller, Restarted(1, base), Refused("Unsettled", server=0))
        controller.apply(RestoreServer(0, 3))
        self.assert_reply(controller, Restarted(1, None), Refused("Unsettled", server=0))
        self.assertIn(Notice(0, 9, BASE_STEP), controller.outgoing())
        self.assert_reply(controller, Restarted(1, BASE_STEP), Up(0))
        self.assertNotIn(Notice(0, 9, BASE_STEP), controller.outgoing())

    def test_who_was_sent_a_settle_is_not_carried_over(self):
        controller = opened()
        controller.apply(Approve(0, "a"))
        self.reopened(controller)
        for command in (told(MAP), told(0, PRIMARY, ABSENT), told(1, SECONDARY, PRIMARY), told(2, ABSENT, ABSENT)):
            controller.apply(command)
        controller.apply(Confirm(BASE_STEP))
        self.reopened(controller)
        for command in (told(MAP, epoch=2), told(1, SECONDARY, PRIMARY, epoch=2)):
            controller.apply(command)
        self.assert_reply(controller, told(2, ABSENT, ABSENT, epoch=2), Waiting((0,)))
        self.assert_reply(controller, Confirm(2 * BASE_STEP), Refused("Missing", server=0))

    def test_a_silent_secondary_that_would_be_primary_is_waited_for(self):
        controller = opened()
        controller.record.permits[1] = 1
        controller.record.cells[1] = [ABSENT, ABSENT, ABSENT]
        self.reopened(controller, lost=frozenset({0}))
        controller.apply(told(MAP))
        self.assert_reply(controller, told(2, Cell(Kind.PREPARED, 0, 1), ABSENT), Waiting((1,)))

    def test_who_is_left_out_has_nothing_left(self):
        controller = opened()
        document = replace(DOCUMENT, servers=frozenset({0, 1}), cells=((PRIMARY, SECONDARY, ABSENT),) * 2)
        for epoch, cell in ((1, SECONDARY), (2, ABSENT)):
            controller.apply(Reopen(document, frozenset()))
            controller.apply(told(MAP, epoch=epoch))
            controller.apply(told(0, PRIMARY, ABSENT, epoch=epoch))
            controller.apply(told(1, ABSENT, PRIMARY, epoch=epoch))
            controller.apply(told(2, cell, ABSENT, epoch=epoch))
            reply = controller.apply(Confirm(epoch * BASE_STEP)).reply
            if cell == SECONDARY:
                self.assertEqual(reply, Refused("StillThere", shard=0, server=2))
        self.assertEqual([it.server for it in reply.settles], [MAP, 0, 1, 2])
        stranger = ((PRIMARY, ABSENT, SECONDARY), (ABSENT, PRIMARY, ABSENT))
        controller.apply(Reopen(document, frozenset({2})))
        controller.apply(told(MAP, epoch=3))
        controller.apply(told(0, PRIMARY, ABSENT, epoch=3))
        controller.apply(told(1, ABSENT, PRIMARY, epoch=3))
        self.assert_reply(controller, Confirm(3 * BASE_STEP, stranger), Refused("UnknownServer", shard=0, server=2))

    def test_who_was_named_by_a_replaced_reopening_is_fenced(self):
        controller = Controller()
        controller.apply(Reopen(DOCUMENT, frozenset(), journal=4, epoch=1))
        controller.apply(Reopen(replace(DOCUMENT, servers=frozenset({1, 2})), frozenset()))
        self.assertEqual([it.server for it in controller.fences()], [MAP, 0, 1, 2])

    def test_reopenings_that_do_not_fit(self):
        controller = opened()
        self.assert_reply(controller, Reopen(DOCUMENT, frozenset(), journal=8), Refused("OtherJournal"))
        self.assert_reply(controller, Reopen(DOCUMENT, frozenset({1})), Refused("LostServer", server=1))
        last = opened(epoch=LAST_EPOCH)
        self.assert_reply(last, Reopen(DOCUMENT, frozenset()), Refused("LastEpoch"))
        self.assert_reply(controller, Confirm(BASE_STEP), Ignored("old"))
        self.assert_reply(controller, told(0), Ignored("old"))
        self.assert_reply(controller, settled(0), Ignored("old"))

    def test_a_first_reopening_adopts_a_service(self):
        controller = Controller()
        controller.apply(Reopen(DOCUMENT, frozenset(), journal=4, epoch=6))
        self.assertEqual(controller.fences()[0], Fence(MAP, 6 * BASE_STEP, 4))
        for command in (told(MAP, epoch=6), *(Fenced(it, 6 * BASE_STEP, Unknown(1)) for it in range(3))):
            controller.apply(command)
        controller.apply(Confirm(6 * BASE_STEP))
        for server in (MAP, 0, 1):
            controller.apply(settled(server, epoch=6))
        self.assert_reply(controller, settled(2, epoch=6), Opened(4, 6))
        self.assertEqual([tuple(it) for it in controller.record.cells], list(STEADY))


class Journals(ControllerTest):
    """The same commands give the same controller."""

    def test_a_replay_is_the_same(self):
        journal = [Open(DOCUMENT, 9, 0), hand(), Answered(0, 0, 1), Answered(0, 0, 2)]
        one, two = replayed(journal), replayed(journal)
        self.assertEqual(one.snapshot(), two.snapshot())
        self.assertNotEqual(one.snapshot(), replayed(journal[:-1]).snapshot())
        with self.assertRaises(ValueError):
            replayed([*journal, Answered(0, 0, 2)])
