"""A server's side, and the map's owner: each answer once."""
import unittest

from driving_model.cells import ABSENT, Call, Cell, Kind, PRIMARY, SECONDARY, Verb
from driving_model.map_owner import Entry, MapOwner
from driving_model.messages import (
    BASE_STEP, Fence, Inventory, MAP, Notice, Order, Publication, Restore, Settle, SettleMap, SlotFound, SlotTold,
    Unknown,
)
from driving_model.rules import SOUND
from driving_model.server import Commit, Judgement, Pass, Route, Server, Shown

ADD = Call(Verb.ADD, role=Kind.SECONDARY)
IDLE = Shown(position=0, is_running=False, is_copied=True)
NOBODY = frozenset()


def server(*cells):
    """Server 1 of the journal 9, with these cells, each of load 4."""
    made = Server(1, len(cells), SOUND, nonce=5)
    made.restore(Restore(1, 5, 9, 0, 100, tuple(SlotTold(it, 4) for it in cells)))
    return made


def order(number, call=ADD, journal=9, fence=0, room=10):
    """An order for shard 0."""
    return Order(journal, 0, fence, 0, 0, number, 1, 0, call, 4, room)


class Orders(unittest.TestCase):
    """Judging, beginning, committing and abandoning."""

    def test_judgements(self):
        cases = {
            Judgement.BEGIN: order(101), Judgement.OLD: order(100), Judgement.FOREIGN: order(101, journal=8),
            Judgement.REFUSED: order(101, Call(Verb.DROP)),
        }
        for judgement, it in cases.items():
            self.assertEqual(server(ABSENT).judge(it), judgement)
        self.assertEqual(server(ABSENT, SECONDARY).judge(order(101, room=7)), Judgement.REFUSED)
        self.assertEqual(Server(1, 1, SOUND, nonce=5).judge(order(101)), Judgement.NOT_READY)

    def test_an_order_has_its_effect_once(self):
        it = server(ABSENT)
        it.begin(order(101))
        self.assertEqual(it.judge(order(101)), Judgement.WORKING)
        self.assertEqual(it.judge(order(102)), Judgement.OLD)
        self.assertEqual(it.commit(order(102), IDLE), Commit.THROWN_AWAY)
        self.assertEqual(it.commit(order(101), IDLE), Commit.DONE)
        self.assertEqual((it.cell(0), it.load), (SECONDARY, 4))
        self.assertEqual(it.judge(order(101)), Judgement.AGAIN)
        self.assertEqual(it.commit(order(101), IDLE), Commit.THROWN_AWAY)
        it.begin(order(103, Call(Verb.DROP)))
        it.commit(order(103, Call(Verb.DROP)), IDLE)
        self.assertEqual(it.judge(order(101)), Judgement.OLD)

    def test_work_that_is_abandoned_begins_again(self):
        it = server(ABSENT)
        it.begin(order(101))
        it.abandon()
        self.assertEqual(it.commit(order(101), IDLE), Commit.THROWN_AWAY)
        self.assertEqual(it.judge(order(101)), Judgement.BEGIN)

    def test_calls_that_wait(self):
        running, lagging = Shown(7, True, True), Shown(7, False, False)
        leave = Call(Verb.CHANGE, role=Kind.SECONDARY, previous=Kind.PRIMARY)
        for call, shown in (
            (Call(Verb.PREPARE_DROP, party=2, handover=3), running), (leave, running), (leave, lagging),
            (Call(Verb.DROP), running),
        ):
            it = server(PRIMARY)
            it.begin(order(101, call))
            self.assertEqual(it.route(0, 7), Route.NOT_YET)
            self.assertEqual(it.commit(order(101, call), shown), Commit.NOT_YET)
            self.assertEqual(it.commit(order(101, call), Shown(7, False, True)), Commit.DONE)

    def test_a_new_owner_waits_for_the_cut(self):
        it = server(Cell(Kind.PREPARED, 0, 3))
        call = Call(Verb.ADD, role=Kind.PRIMARY)
        it.begin(order(101, call))
        self.assertEqual(it.commit(order(101, call), Shown(9, False, True)), Commit.NOT_YET)
        it.seal(0, sender=0, handover=2, cut=8)
        self.assertIsNone(it.slots[0].cut)
        it.seal(0, sender=0, handover=3, cut=8)
        self.assertEqual(it.commit(order(101, call), Shown(7, False, True)), Commit.NOT_YET)
        self.assertEqual(it.commit(order(101, call), Shown(8, False, True)), Commit.DONE)


class Requests(unittest.TestCase):
    """Routing."""

    def test_routes(self):
        self.assertEqual(server(PRIMARY).route(0, 0), Route.EXECUTE)
        self.assertEqual(server(SECONDARY).route(0, 0), Route.NOT_HERE)
        self.assertEqual(Server(1, 1, SOUND, nonce=5).route(0, 0), Route.NOT_HERE)
        it = server(PRIMARY)
        call = Call(Verb.PREPARE_DROP, party=2, handover=3)
        it.begin(order(101, call))
        it.commit(order(101, call), Shown(7, False, True))
        self.assertEqual(it.route(0, 7), Pass(to=2, sender=1, handover=3, cut=7))

    def test_passed_requests(self):
        it = server(Cell(Kind.PREPARED, 0, 3))
        self.assertEqual(it.route(0, 9), Route.NOT_HERE)
        self.assertEqual(it.route(0, 9, Pass(1, 0, 2, 7)), Route.NOT_HERE)
        self.assertEqual(it.route(0, 9, Pass(1, 0, 3, None)), Route.NOT_YET)
        self.assertEqual(it.route(0, 6, Pass(1, 0, 3, 7)), Route.NOT_YET)
        self.assertEqual(it.route(0, 7, Pass(1, 0, 3, 7)), Route.EXECUTE)
        it.fence(Fence(1, BASE_STEP, 9), NOBODY, [7])
        self.assertEqual(it.route(0, 7, Pass(1, 0, 3, 7)), Route.NOT_YET)


class Reopening(unittest.TestCase):
    """Fences, settles, restores and notices."""

    def test_a_fence_ends_work_and_is_answered_again(self):
        it = server(Cell(Kind.PREPARED, 0, 3))
        it.seal(0, 0, 3, 4)
        fence = Fence(1, BASE_STEP, 8)
        self.assertIsNone(it.fence(fence, frozenset({0}), [4]))
        it.begin(order(101, Call(Verb.DROP)))
        found = Inventory((SlotFound(it.cell(0), 4, True),))
        self.assertEqual(it.fence(fence, NOBODY, [4]), found)
        self.assertEqual(it.fence(fence, NOBODY, [4]), found)
        self.assertIsNone(it.fence(Fence(1, 50, 9), NOBODY, [4]))
        self.assertEqual(it.commit(order(101, Call(Verb.DROP)), IDLE), Commit.THROWN_AWAY)
        self.assertEqual(it.judge(order(BASE_STEP + 1, journal=8)), Judgement.NOT_READY)

    def test_a_settle_is_taken_once(self):
        it = server(SECONDARY)
        settle = Settle(1, BASE_STEP, 9, (SlotTold(PRIMARY, 4),), None)
        self.assertFalse(it.settle(settle))
        it.fence(Fence(1, BASE_STEP, 9), NOBODY, [0])
        self.assertTrue(it.settle(settle))
        self.assertEqual((it.cell(0), it.is_fenced), (PRIMARY, False))
        leave = Call(Verb.DROP)
        it.begin(order(BASE_STEP + 1, leave))
        it.commit(order(BASE_STEP + 1, leave), IDLE)
        self.assertTrue(it.settle(settle))
        self.assertEqual(it.cell(0), ABSENT)

    def test_an_unknown_server_takes_the_settle_for_its_nonce(self):
        it = Server(1, 1, SOUND, nonce=5)
        self.assertEqual(it.fence(Fence(1, BASE_STEP, 9), NOBODY, [0]), Unknown(6))
        slots = (SlotTold(PRIMARY, 4),)
        for nonce in (None, 5):
            self.assertFalse(it.settle(Settle(1, BASE_STEP, 9, slots, nonce)))
        self.assertTrue(it.settle(Settle(1, BASE_STEP, 9, slots, 6)))

    def test_a_restore_is_for_one_nonce(self):
        it = Server(1, 1, SOUND, nonce=5)
        slots = (SlotTold(SECONDARY, 4),)
        self.assertFalse(it.restore(Restore(1, 4, 9, 0, 100, slots)))
        self.assertTrue(it.restore(Restore(1, 5, 9, 0, 100, slots)))
        self.assertFalse(it.restore(Restore(1, 5, 9, 0, 100, slots)))
        it.forget()
        it.fence(Fence(1, BASE_STEP, 9), NOBODY, [0])
        self.assertFalse(it.restore(Restore(1, it.nonce, 9, 0, 100, slots)))

    def test_a_start_keeps_slots_but_no_nonce(self):
        it = Server(1, 1, SOUND, nonce=5)
        it.fence(Fence(1, BASE_STEP, 9), NOBODY, [0])
        it.start()
        self.assertEqual((it.nonce, it.base, it.is_fenced), (7, 0, False))
        self.assertTrue(it.restore(Restore(1, 7, 9, 0, 100, (SlotTold(SECONDARY, 4),))))
        it.start()
        self.assertEqual((it.is_known, it.base, it.cell(0)), (True, 100, SECONDARY))

    def test_a_stale_server_turns_unknown(self):
        it = server(SECONDARY)
        it.notice(Notice(1, 8, BASE_STEP))
        it.notice(Notice(1, 9, 100))
        self.assertTrue(it.is_known)
        it.notice(Notice(1, 9, BASE_STEP))
        self.assertFalse(it.is_known)
        it = server(SECONDARY)
        it.fence(Fence(1, BASE_STEP, 9), NOBODY, [0])
        self.assertEqual(it.judge(order(BASE_STEP + 1, fence=BASE_STEP)), Judgement.NOT_READY)
        self.assertFalse(it.is_known)


    def test_the_base_that_ends_a_restart(self):
        it = server(SECONDARY)
        self.assertEqual(it.settled_base(), 100)
        it.fence(Fence(1, BASE_STEP, 9), NOBODY, [0])
        self.assertIsNone(it.settled_base())
        self.assertTrue(it.settle(Settle(1, BASE_STEP, 9, (SlotTold(SECONDARY, 4),), None)))
        self.assertEqual(it.settled_base(), BASE_STEP)
        it.forget()
        self.assertIsNone(it.settled_base())


class TheMap(unittest.TestCase):
    """The map's owner."""

    def test_publications(self):
        owner = MapOwner(1, SOUND)
        owner.journal = 9
        self.assertTrue(owner.publish(Publication(9, 0, 0, 0, 0, 1, 0, 2, 1)))
        self.assertTrue(owner.publish(Publication(9, 0, 0, 0, 0, 1, 0, 1, 1)))
        self.assertFalse(owner.publish(Publication(8, 0, 0, 0, 0, 1, 0, 1, 2)))
        self.assertEqual(owner.entries, [Entry(2, 1)])
        self.assertEqual(owner.fence(Fence(MAP, BASE_STEP, 9)), Inventory())
        self.assertFalse(owner.publish(Publication(9, 0, 0, 0, 0, 1, 0, 1, 2)))
        settle = SettleMap(BASE_STEP, 9, (None,))
        self.assertFalse(owner.settle(SettleMap(0, 9, (1,))))
        self.assertTrue(owner.settle(settle))
        self.assertTrue(owner.settle(settle))
        self.assertIsNone(owner.fence(Fence(MAP, BASE_STEP, 9)))
        self.assertFalse(owner.publish(Publication(9, 0, 0, 0, 0, 1, 0, 1, 2)))
        self.assertEqual(owner.entries, [Entry(None, BASE_STEP)])
