"""A server that makes each slot what its settle brings, and leaves all others as they are, has what was confirmed."""
from __future__ import annotations

import json
import unittest
from collections.abc import Iterator
from typing import Any

from smplan import agent
from smplan.agent import VACANT, Cell, Slot
from smplan.control_agent import slot_of

from session_files import exchanges, FOLDER, Program, subject
from test_sessions import PROGRAM

Json = dict[str, Any]
Slots = dict[str, Slot]


class Numbers(dict[str, int]):
    """A number for each name of a server."""

    def __missing__(self, name: str) -> int:
        self[name] = len(self)
        return self[name]


NUMBERS = Numbers()


def by_settle(had: Slots, settle: Json) -> Slots:
    """The slots of a server that does what the lines of a settle say, and no more."""
    brought = {it["shard"]: slot_of(it, NUMBERS) for it in settle["slots"]}
    return had | {shard: agent.replaced(had.get(shard, VACANT), slot) for shard, slot in brought.items()}


def settles() -> Iterator[tuple[str, Slots, Json]]:
    """The settles to the servers of all sessions, with the place, and the slots that the server has told."""
    for path in sorted(FOLDER.glob("*.session")):
        replier, told = subject(PROGRAM or None), {}
        for exchange in exchanges(path):
            reply = replier.reply(exchange.line)
            if "waiting" in reply or "proposal" in reply:
                line = json.loads(exchange.line)
                told[line.get("server")] = {it["shard"]: slot_of(it, NUMBERS) for it in line.get("slots", [])}
            for settle in [] if "orders" in reply else reply.get("settle", []):
                if settle["server"] is not None:
                    yield exchange.place, told[settle["server"]], settle
        if isinstance(replier, Program):
            replier.end()


def in_handovers(slots: Slots) -> list[str]:
    """The shards that are in a handover by these slots."""
    return [shard for shard, it in slots.items() if it.cell in (Cell.PREPARED, Cell.FORWARDING)]


class GivenUp(unittest.TestCase):
    """What settles say of shards that a server gives up."""

    def test_nobody_stays_in_a_handover(self) -> None:
        """A server that does just what its lines say is in no handover behind a settle, as no settlement has one."""
        found = list(settles())
        self.assertGreater(len(found), 20)
        for place, told, settle in found:
            self.assertEqual(in_handovers(by_settle(told, settle)), [], f"{place}: {settle}")

    def test_it_takes_the_absent_slots(self) -> None:
        """Without the slots that settles name as absent some server would stay in one."""
        left = []
        for _, told, settle in settles():
            held = [it for it in settle["slots"] if it["cell"] != "absent"]
            left += in_handovers(by_settle(told, settle | {"slots": held}))
        self.assertGreater(len(left), 2)
