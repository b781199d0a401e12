"""Random lines of reopenings: who is fenced, what servers tell, what is confirmed, and who is settled."""
from __future__ import annotations

import random
from typing import Any

from driving_model.cells import PRIMARY
from smpland_model.session import Session

from random_documents import Documents
from random_slots import Slots

Json = dict[str, Any]


def document_json(document: Any) -> Json:
    """Returns a document that was read, as a line has it."""
    servers = [{"name": it.name, "region": it.region, "room": it.room, "down": it.down} for it in document.servers.values()]
    shards = []
    for it in document.shards.values():
        cells = [{"server": cell.server, "state": cell.state} for cell in it.cells]
        numbers = {name: getattr(it, name) for name in ("load", "want", "cap", "spread", "listed")}
        shards.append({"name": it.name} | numbers | {"cells": cells})
    return {"limit": document.limit, "log": document.log, "servers": servers, "shards": shards}


class Reopenings:
    """The operator of a session, and the servers that answer."""

    def __init__(self, session: Session, dice: random.Random, slots: Slots, documents: Documents) -> None:
        self.session, self.dice, self.slots, self.documents = session, dice, slots, documents
        # Whether the document and the answers are such that it can be confirmed, and how often it was not.
        self.is_careful, self.refused = True, 0

    def chance(self, probability: float) -> bool:
        """Returns true with this probability."""
        return self.dice.random() < probability

    # Reopening.

    def reopen(self) -> Json:
        """Begins a reopening, or one in place of another."""
        controller = self.session.controller
        self.is_careful, self.refused = self.chance(0.6) or self.refused > 2, 0
        document = (controller.document if self.is_careful else None) or controller.next_document or controller.document
        if document is None:
            return {"do": "reopen", "document": self.documents.first()}
        self.slots.note_effects()
        names = list(controller.numbering.servers)
        lost = self.dice.sample(names, 1) if len(names) > 1 and self.chance(0.25) else []
        spared = self.copied_primaries()
        lost = [self.dice.choice(spared)] if spared and self.chance(0.5) else lost
        lost += ["v8"] if self.chance(0.03) else []
        kept = [] if self.chance(0.1) and not self.is_careful else lost
        told = self.documents.next(document_json(document), self.recorded(), kept, self.is_careful)
        line: Json = {"do": "reopen", "document": told}
        line |= {"lost": lost} if lost or self.chance(0.3) else {}
        line |= {"why": "a disk is gone"} if self.chance(0.2) else {}
        line |= {"journal": self.dice.choice([f"{controller.journal:x}", "77"])} if self.chance(0.06) else {}
        return line | ({"epoch": self.dice.choice([1, 9])} if self.chance(0.05) else {})

    def copied_primaries(self) -> list[str]:
        """Returns the primaries of shards each of whose writes has several copies."""
        controller = self.session.controller
        if controller.record is None:
            return []
        rows = [row for row, copies in zip(controller.record.cells, controller.copies) if copies > 1]
        return [controller.server_name(it) for row in rows for it, cell in enumerate(row) if cell == PRIMARY]

    def recorded(self) -> dict[str, list[Json]]:
        """Returns the cells that are recorded, by shard."""
        controller = self.session.controller
        if controller.record is None:
            return {}
        return {it["shard"]: it["cells"] for it in self.session.asking.whole()["shards"]}

    # Under way.

    def line(self) -> Json:
        """Returns a line that a reopening waits for, or one that comes late."""
        reopening = self.session.controller.reopening
        if self.chance(0.6 if self.refused > 2 else 0.03):
            return self.reopen()
        if reopening.settles:
            return self.settled() if self.chance(0.95) else self.confirm()
        if self.chance(0.05 if reopening.waits_for() else 0.7):
            self.refused += not reopening.waits_for()
            return self.confirm()
        return self.fenced() if self.chance(0.97) else self.settled()

    def base(self) -> int:
        """Returns the base of the reopening, or another one."""
        base = self.session.controller.reopening.base
        return base if self.chance(0.96) else self.dice.choice([0, base - 1, base + 1, max(0, base - 2**21)])

    def party(self, awaited: list[int]) -> str | None:
        """Returns one of those that are awaited, or anybody."""
        names = list(self.session.controller.numbering.servers)
        if awaited and self.chance(0.9):
            return self.session.controller.server_name(self.dice.choice(awaited))
        return self.dice.choice([None, *names, "v9"])

    def fenced(self) -> Json:
        """Returns what a server, or the map's owner, tells. Who is down answers less often."""
        controller = self.session.controller
        reopening = controller.reopening
        awaited = [it for it in reopening.missing if not reopening.is_silent(it) or self.chance(0.1)]
        server = self.party(awaited or reopening.waits_for())
        line: Json = {"do": "fenced", "server": server, "base": self.base()}
        if server is None:
            return line
        number = controller.numbering.server_numbers.get(server, -1)
        is_stranger = controller.record is not None and number not in controller.record.document.servers
        if self.chance((0.9 if self.is_careful else 0.5) if is_stranger else 0.15):
            return line | {"unknown": f"{self.dice.randrange(1, 2**64):x}"}
        error = 0 if self.is_careful else self.dice.choice([0, 0.4, 0.4] if is_stranger else [0, 0, 0.1, 0.4])
        return line | {"slots": self.slots.of(server, error, is_asked=True)}

    def settled(self) -> Json:
        """Returns that a settle was taken."""
        return {"do": "settled", "server": self.party(self.session.controller.reopening.unsettled), "base": self.base()}

    # What is confirmed.

    def confirm(self) -> Json:
        """Accepts the proposal, or chooses otherwise."""
        controller = self.session.controller
        line: Json = {"do": "confirm", "base": self.base(), **self.named()}
        document = controller.next_document
        if controller.reopening.settles or self.chance(0.5) or not document.shards:
            return line
        names = self.dice.sample(list(document.shards), self.dice.randint(1, min(2, len(document.shards))))
        rows = {it["shard"]: it["cells"] for it in self.session.writer.proposal(controller.reopening.propose())["cells"]}
        return line | {"cells": [{"shard": it, "cells": self.choice(rows[it])} for it in names]}

    def named(self) -> Json:
        """Returns, as a member, the shards that are named as lost, and sometimes others, or fewer."""
        controller = self.session.controller
        lost = [controller.numbering.shards[it] for it in controller.reopening.propose().lost]
        if self.chance(0.1):
            lost = self.dice.sample(lost, self.dice.randint(0, len(lost)))
        if self.chance(0.05):
            lost.append(self.dice.choice([*controller.numbering.shards, "zz"]))
        return {"lost": lost} if lost or self.chance(0.3) else {}

    def choice(self, cells: list[Json]) -> list[Json]:
        """Returns cells of a shard: the proposed ones, others that may be chosen, and such that may not."""
        dice, servers = self.dice, list(self.session.controller.next_document.servers) or ["v0"]
        states = {it["server"]: it["state"] for it in cells}
        change = dice.choice(["none", "primary", "primary", "primary", "bare", "more", "less", "two", "strange"])
        if change == "primary":
            states = {it: "secondary" for it in states} | {dice.choice([*states, *servers]): "primary"}
        elif change == "bare":
            states = {it: "secondary" for it in states}
        elif change == "more":
            states.setdefault(dice.choice(servers), "secondary")
        elif change == "less" and states:
            del states[dice.choice(list(states))]
        elif change == "two":
            states |= {it: "primary" for it in dice.sample(servers, min(2, len(servers)))}
        elif change == "strange":
            states[dice.choice(["v9", *self.session.controller.numbering.servers])] = "secondary"
        return [{"server": it, "state": state} for it, state in states.items()]
