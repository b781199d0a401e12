"""Cells, instructions and the check of plans."""
import unittest

from driving_model.cells import (
    ABSENT, Call, Cell, GONE, Kind, Lead, PRIMARY, SECONDARY, Stage, Verb, is_live, lead_of, led, serving,
)
from driving_model.plans import (
    CellRight, Crown, CrownRight, Faulty, Plan, RoomRight, SpareRight, Stream, add, after, change, check_plan, drop,
    handover, prepare_add, publish, signal, unlist, wait,
)

from examples import hand, hand_by_two_streams, handover_rights

PREPARED, FORWARDING = Cell(Kind.PREPARED, 0, 3), Cell(Kind.FORWARDING, 1, 3)
AT, LOADS = Crown(Lead(Stage.AT, 0), 0), (4, 4)
UNLISTED = Crown(Lead(Stage.AT, 0), None)


class Cells(unittest.TestCase):
    """What calls do, and what a row of cells says."""

    def test_calls_lead_as_in_the_table(self):
        self.assertEqual(led(ABSENT, Call(Verb.ADD, role=Kind.SECONDARY)), SECONDARY)
        self.assertEqual(led(PREPARED, Call(Verb.ADD, role=Kind.PRIMARY)), PRIMARY)
        self.assertEqual(led(PRIMARY, Call(Verb.CHANGE, role=Kind.SECONDARY, previous=Kind.PRIMARY)), SECONDARY)
        self.assertEqual(led(ABSENT, Call(Verb.PREPARE_ADD, party=0, handover=3)), PREPARED)
        self.assertEqual(led(PRIMARY, Call(Verb.PREPARE_DROP, party=1, handover=3)), FORWARDING)
        self.assertEqual(led(FORWARDING, Call(Verb.DROP)), ABSENT)
        for cell, call in (
            (PREPARED, Call(Verb.ADD, role=Kind.SECONDARY)), (ABSENT, Call(Verb.DROP)),
            (SECONDARY, Call(Verb.PREPARE_ADD)), (SECONDARY, Call(Verb.PREPARE_DROP)),
            (SECONDARY, Call(Verb.CHANGE, Kind.SECONDARY, Kind.PRIMARY)),
        ):
            self.assertIsNone(led(cell, call))

    def test_who_serves(self):
        self.assertEqual(serving([PRIMARY, PREPARED, SECONDARY]), [0])
        self.assertEqual(serving([FORWARDING, PREPARED, SECONDARY]), [1])
        self.assertEqual(serving([FORWARDING, Cell(Kind.PREPARED, 0, 2)]), [])
        self.assertTrue(is_live([FORWARDING, PREPARED], 1))
        self.assertFalse(is_live([FORWARDING, PREPARED], 0))

    def test_leads(self):
        rows = {
            GONE: [ABSENT, SECONDARY], Lead(Stage.AT, 0): [PRIMARY, SECONDARY],
            Lead(Stage.READY, 0, 1): [PRIMARY, PREPARED],
            Lead(Stage.HANDING, 0, 1): [FORWARDING, PREPARED], Lead(Stage.HANDED, 0, 1): [FORWARDING, PRIMARY],
        }
        for lead, row in rows.items():
            self.assertEqual(lead_of(row), lead)


class Instructions(unittest.TestCase):
    """The table of what instructions need and give."""

    def assert_fault(self, reason, instruction, hold, signals=()):
        """The instruction may not be made for this reason."""
        with self.assertRaises(Faulty) as raised:
            after(instruction, hold, LOADS, signals)
        self.assertEqual(raised.exception.reason, reason)

    def test_a_handover_ends_where_it_is_to_end(self):
        hold = handover_rights()
        for instruction in handover(0, 0, 2):
            hold = after(instruction, hold, LOADS, ())
        left = {CrownRight(0): Crown(Lead(Stage.AT, 2), 2), CellRight(0, 0): ABSENT, RoomRight(0): 4}
        self.assertEqual(hold, left)

    def test_the_primary_goes_and_comes(self):
        hold = {CrownRight(0): AT, SpareRight(0): 1}
        for instruction in (unlist(0), drop(0, 0)):
            hold = after(instruction, hold, LOADS, ())
        self.assertEqual(hold[CrownRight(0)], Crown(GONE, None))
        for instruction in (add(0, 0, Kind.PRIMARY), publish(0)):
            hold = after(instruction, hold, LOADS, ())
        self.assertEqual(hold, {CrownRight(0): AT, SpareRight(0): 1})

    def test_roles_change(self):
        hold = {CrownRight(0): AT, CellRight(0, 1): SECONDARY}
        for instruction in (unlist(0), change(0, 0, Kind.SECONDARY), change(0, 1, Kind.PRIMARY), publish(0)):
            hold = after(instruction, hold, LOADS, ())
        self.assertEqual(hold, {CrownRight(0): Crown(Lead(Stage.AT, 1), 1), CellRight(0, 0): SECONDARY})

    def test_why_not(self):
        right = {CellRight(0, 2): ABSENT}
        self.assert_fault("NoCrown", publish(0), {})
        self.assert_fault("WrongLead", prepare_add(0, 2, 1), {CrownRight(0): AT})
        self.assert_fault("NoRight", prepare_add(0, 2, 0), {CrownRight(0): AT})
        self.assert_fault("WrongState", prepare_add(0, 2, 0), {CrownRight(0): AT, CellRight(0, 2): SECONDARY})
        self.assert_fault("NoRoom", prepare_add(0, 2, 0), {CrownRight(0): AT, RoomRight(2): 3} | right)
        self.assert_fault("NoRight", drop(0, 2), {})
        self.assert_fault("NoSpare", drop(0, 1), {CellRight(0, 1): SECONDARY})
        self.assert_fault("StillListed", drop(0, 0), {CrownRight(0): AT})
        self.assert_fault("StillListed", change(0, 0, Kind.SECONDARY), {CrownRight(0): AT})
        self.assert_fault("Twice", change(0, 0, Kind.SECONDARY), {CrownRight(0): UNLISTED, CellRight(0, 0): ABSENT})
        self.assert_fault("NotCarried", signal(0), {RoomRight(2): 3}, ({RoomRight(2): 4},))
        self.assert_fault("Twice", wait(0), right, (right,))


class Check(unittest.TestCase):
    """The check that a plan passes before it begins."""

    def assert_fault(self, reason, *streams, signals=()):
        """The plan does not pass for this reason."""
        with self.assertRaises(Faulty) as raised:
            check_plan(Plan(streams, signals), LOADS)
        self.assertEqual(raised.exception.reason, reason)
        return raised.exception.where

    def test_plans_that_pass(self):
        check_plan(hand().plan, LOADS)
        check_plan(hand_by_two_streams().plan, LOADS)

    def test_plans_that_do_not_pass(self):
        self.assert_fault("SignalNotOnce", Stream({}, (wait(0),)), signals=({},))
        where = self.assert_fault("Stream", Stream(handover_rights(), handover(0, 0, 2)[:1]))
        self.assertEqual(where, {"stream": 0, "at": 1, "why": "Unsettled"})
        where = self.assert_fault("Stream", Stream(handover_rights(), handover(0, 0, 2), budget=3))
        self.assertEqual(where["why"], "OverBudget")
        crossed = (Stream({}, (wait(0), signal(1))), Stream({}, (wait(1), signal(0))))
        self.assert_fault("Stuck", *crossed, signals=({}, {}))
