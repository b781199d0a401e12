"""Random lines that ask."""
from __future__ import annotations

import random
from typing import Any

from smpland_model.session import Session

from random_plans import bent, random_plan
from random_slots import Slots

Json = dict[str, Any]
PLAIN = ("hello", "orders", "map", "document", "state", "since")
ANSWERS = ("old", "refused", "foreign", "not_ready")


class Questions:
    """Asks a session. `plans_often` says how often for a plan, which takes a process each."""

    def __init__(self, session: Session, dice: random.Random, slots: Slots, plans_often: float) -> None:
        self.session, self.dice, self.slots, self.plans_often = session, dice, slots, plans_often
        self.before: list[Json] = []

    @property
    def servers(self) -> list[str]:
        """The servers that have numbers, or one that nobody knows."""
        return list(self.session.controller.numbering.servers) or ["v0"]

    @property
    def shards(self) -> list[str]:
        """The shards that have numbers, or one that nobody knows."""
        return list(self.session.controller.numbering.shards) or ["s0"]

    def line(self) -> Json:
        """Returns a question."""
        if self.session.controller.is_open and self.dice.random() < self.plans_often:
            return self.dice.choice([self.moves, self.drain])()
        asking = [self.plain, self.plain, self.plain, self.part, self.check, self.check, self.audit, self.failed, self.failed]
        return self.dice.choice(asking)()

    def place(self) -> int:
        """Returns a place, which may be one that is not reached yet."""
        place = self.session.history.place
        return max(0, place + self.dice.choice([-9, -3, -2, -1, 0, 0, 0, 1]))

    def plain(self) -> Json:
        """Asks for all there is of something."""
        do = self.dice.choice(PLAIN)
        return {"do": do} | ({"place": self.place()} if do == "since" else {})

    def part(self) -> Json:
        """Asks for a shard, or a plan."""
        if self.dice.random() < 0.5:
            return {"do": "state", "shard": self.dice.choice(self.shards)}
        return {"do": "state", "plan": self.dice.choice([0, 0, 1, 2, 9])}

    def check(self) -> Json:
        """Asks whether a plan would begin: one that may, a wrong one, or one that was made before."""
        if self.before and self.dice.random() < 0.3:
            return {"do": "check", "plan": self.dice.choice(self.before[-8:])}
        plan = random_plan(self.session.controller, self.dice) if self.session.controller.is_open else None
        plan = plan or {"budget": 0, "streams": [{"budget": 0, "holds": {}, "code": []}]}
        self.before.append(plan)
        return {"do": "check", "plan": bent(plan, self.dice) if self.dice.random() < 0.6 else plan}

    def audit(self) -> Json:
        """Asks whether slots are as recorded."""
        server = self.dice.choice(self.servers)
        slots = self.slots.of(server, self.dice.choice([0, 0.1, 0.3]), is_asked=False)
        return {"do": "audit", "server": server, "place": self.place(), "slots": slots}

    def failed(self) -> Json:
        """Asks about an order that was not taken, or about none."""
        orders = self.session.asking.orders({})["orders"]
        restored = {self.session.controller.server_name(it) for it in self.session.controller.restores}
        orders = [it for it in orders if it["server"] in restored] or orders
        order = self.dice.choice(orders) if orders else {"plan": 0, "stream": 0, "number": 1}
        told = {it: order[it] for it in ("plan", "stream", "number")}
        member = self.dice.choice(["plan", "stream", "number", "number", None, None, None, None])
        if member:
            told[member] = max(0, told[member] + self.dice.choice([-1, 1]))
        return {"do": "failed"} | told | {"answer": self.dice.choice(ANSWERS)}

    # Plans.

    def moves(self) -> Json:
        """Asks for a plan of moves, of replicas that are there for the most part."""
        record, numbering = self.session.controller.record, self.session.controller.numbering
        moves = []
        for _ in range(self.dice.choice([1, 1, 2, 3, 5])):
            shard = self.dice.randrange(len(numbering.shards)) if numbering.shards else 0
            row = [cell.kind.value != "absent" for cell in record.cells[shard]]
            there = [name for name, has in zip(numbering.servers, row) if has]
            away = [name for name, has in zip(numbering.servers, row) if not has]
            source = self.dice.choice(there or self.servers)
            target = self.dice.choice(away if away and self.dice.random() < 0.8 else self.servers)
            if record.permits and self.dice.random() < 0.3:
                target = numbering.servers[self.dice.choice(list(record.permits))]
            elif away and self.dice.random() < 0.2:
                target = min(away, key=self.left)
            moves.append({"shard": self.shards[shard], "from": source, "to": target})
        if self.dice.random() < 0.3:
            moves = [it | {"to": moves[0]["to"]} for it in moves]
        return {"do": "moves", "moves": moves}

    def left(self, server: str) -> int:
        """Returns how much room a server has left."""
        controller = self.session.controller
        rows = zip(controller.numbering.shards, controller.record.cells)
        number = controller.numbering.servers.index(server)
        used = sum(controller.document.shards[name].load for name, row in rows if row[number].kind.value != "absent")
        return controller.document.servers[server].room - used

    def drain(self) -> Json:
        """Asks for a plan that empties a server."""
        return {"do": "drain", "server": self.dice.choice(self.servers)}
