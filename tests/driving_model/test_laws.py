"""Each law can be broken: bugs are planted for those that no rule taken away breaks in the other tests."""
import unittest
from dataclasses import replace
from unittest.mock import patch

from driving_model import commands, laws
from driving_model.cells import ABSENT, Kind, PRIMARY, SECONDARY
from driving_model.controller import Controller
from driving_model.laws import Violation
from driving_model.messages import Order
from driving_model.plans import CellRight, Plan, RoomRight, SpareRight, Stream, add, drop, signal
from driving_model.play import Play
from driving_model.record import Record
from driving_model.rules import SOUND


class PlantedBugs(unittest.TestCase):
    """A shard at three servers, and a bug."""

    def setUp(self):
        self.play = Play(SOUND, (PRIMARY, SECONDARY, ABSENT), want=2)
        self.world = self.play.world
        self.world.check()

    def assert_breaks(self, law, act, *arguments):
        """The act breaks the law."""
        with self.assertRaises(Violation) as raised:
            act(*arguments)
        self.assertEqual(raised.exception.law, law)

    def add_replica(self):
        """A plan that adds a secondary at server 2."""
        rights = ((CellRight(0, 2), ABSENT), (RoomRight(2), 1))
        self.play.begin((add(0, 2, Kind.SECONDARY),), *rights)

    def look(self):
        """Looks at all standing laws."""
        laws.check_standing(laws.Sight(self.world))

    def test_loads(self):
        self.world.hosts[1].server.slots[0].load = 0
        self.world.rooms = (9, 0, 9)
        self.assert_breaks("loads_fit", self.look)

    def test_log(self):
        self.add_replica()
        record = self.play.controller.record
        record.document = replace(record.document, log=1)
        self.assert_breaks("log_fits", self.look)

    def test_what_is_recorded(self):
        self.world.hosts[1].server.slots[0].cell = ABSENT
        self.assert_breaks("servers_have_what_is_recorded", self.look)

    def test_floors(self):
        self.play.controller.record.floors = [3]
        self.assert_breaks("floors_are_kept", self.look)

    def test_own_steps(self):
        begin = commands.Begin("signals", Plan((Stream({}, (signal(0),)),), ({},)))
        with patch.object(Controller, "advance", lambda self, number: set()), patch(
            "driving_model.decisions.check_plan", lambda plan, loads: None
        ):
            self.assert_breaks("own_steps_are_made", self.world.do, begin)

    def test_decisions(self):
        """What running plans hold is not counted, so a second live replica is given away."""
        self.play.begin((drop(0, 1),), (CellRight(0, 1), SECONDARY), (SpareRight(0), 1))
        self.play.deliver(self.play.sent_to(1, Order)[-1])
        approve = commands.Approve(0, "by")
        laws.decisions_are_right(self.world, approve)
        with patch.object(Record, "held", lambda self: {}):
            self.assert_breaks("decisions_are_right", self.world.do, approve)

    def test_effects(self):
        self.add_replica()
        order = self.play.sent_to(2, Order)[-1]
        self.play.deliver(order)
        self.world.hosts[2].server.slots[0].cell = ABSENT
        self.world.hosts[2].server.slots[0].last = 0
        self.assert_breaks("effect_once", self.world.deliver, order, True)

    def test_inventories(self):
        self.play.reopen()
        self.world.hosts[1].server.slots[0].cell = PRIMARY
        for fence in self.play.controller.fences():
            self.world.deliver(fence)
        *first, last = self.world.network.inventories.items
        for answer in first:
            self.world.do(answer)
        self.assert_breaks("one_primary_is_told", self.world.do, last)

    def test_beginnings_of_the_journal(self):
        self.add_replica()
        self.world.check_replay(len(self.world.journal))
        self.play.controller.record.log += 1
        self.assert_breaks("a_replay_is_the_same", self.world.check_replay, len(self.world.journal))
        self.world.network.messages.known.clear()
        self.assert_breaks("a_beginning_sends_nothing_new", self.world.check_replay, len(self.world.journal))
