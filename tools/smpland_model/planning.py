"""Plans for moves and for a server to empty, by `smplan plan`, beside what running plans hold."""
from __future__ import annotations

import json
from typing import Any

from driving_model.cells import ABSENT, Kind, Lead, Stage, lead_of
from driving_model.plans import CellRight, CrownRight
from smpland_model import words
from smpland_model.controller import NamedController, Refusal, refuse
from smplan import program
from smplan.limits import MOST_PLACES
from smplan.model import Move

Json = dict[str, Any]


class Planner:
    """Plans over what is recorded."""

    def __init__(self, controller: NamedController, path: str | None) -> None:
        self.controller, self.path = controller, path

    # Moves.

    def of_moves(self, moves: list[Move]) -> Json:
        """Returns a plan of moves."""
        shards, servers = self.controller.numbering.shard_numbers, self.controller.numbering.server_numbers
        numbered = [(shards[it.shard], servers[it.source], servers[it.target]) for it in moves]
        self.check_moves(numbered)
        return self.made({"moves": [{"shard": it.shard, "from": it.source, "to": it.target} for it in moves]})

    def check_moves(self, moves: list[tuple[int, int, int]]) -> None:
        """Refuses moves of what is not there or is held, as the planner does before it looks at rooms."""
        record, held = self.controller.record, self.controller.record.held()
        for shard, source, _ in moves:
            if record.cells[shard][source].kind not in (Kind.PRIMARY, Kind.SECONDARY):
                self.refuse("2 NotThere", shard, source)
        taken: set[object] = set(held)
        for shard, source, target in moves:
            rights = self.rights(shard, source, target)
            if record.cells[shard][target] != ABSENT or taken & rights or self.is_under_way(shard, source):
                self.refuse("3 Held", shard, target)
            taken |= rights
        for _, source, target in moves:
            for server in (source, target):
                if server in record.permits:
                    self.refuse("4 ServerDown", None, server)

    def rights(self, shard: int, source: int, target: int) -> set[object]:
        """Returns the rights to cells and crowns that a move needs."""
        is_primary = self.controller.record.cells[shard][source].kind is Kind.PRIMARY
        return {CellRight(shard, target), CrownRight(shard) if is_primary else CellRight(shard, source)}

    def is_under_way(self, shard: int, server: int) -> bool:
        """The server's replica is the primary of a handover."""
        row = self.controller.record.cells[shard]
        return row[server].kind is Kind.PRIMARY and lead_of(row).stage is not Stage.AT

    def refuse(self, word: str, shard: int | None, server: int | None) -> None:
        """Refuses to plan."""
        at = "" if shard is None else f" shard {self.controller.shard_name(shard)}"
        at += "" if server is None else f" server {self.controller.server_name(server)}"
        raise Refusal(words.reported(f"no plan: {word}{at}"))

    # A server to empty.

    def of_drain(self, name: str) -> Json:
        """Returns a plan that empties a server."""
        controller, record = self.controller, self.controller.record
        server, held = controller.numbering.server_numbers[name], record.held()
        shards = [it for it in record.shards if record.cells[it][server] != ABSENT]
        for shard in shards:
            kind = record.cells[shard][server].kind
            right = CrownRight(shard) if kind is Kind.PRIMARY else CellRight(shard, server)
            may_leave = kind in (Kind.PRIMARY, Kind.SECONDARY) and right not in held
            if not may_leave or self.is_under_way(shard, server):
                self.refuse("3 Held", shard, server)
        if server in record.permits:
            self.refuse("4 ServerDown", None, server)
        left = {it: max(0, record.free_room(it, held)) for it in record.document.servers}
        targets = [(controller.shard_name(it), self.target(it, server, held, left)) for it in shards]
        return self.made({"moves": [{"shard": shard, "from": name, "to": target} for shard, target in targets]})

    def target(self, shard: int, drained: int, held: Any, left: dict[int, int]) -> str | None:
        """Returns where a shard goes, and takes the room for it."""
        controller, record = self.controller, self.controller.record
        load = record.document.loads[shard]
        takers = [
            it for it in sorted(record.document.servers)
            if it != drained and it not in record.permits and record.cells[shard][it] == ABSENT
            and CellRight(shard, it) not in held and left[it] >= load and self.is_spread(shard, drained, it)
        ]
        if not takers:
            self.refuse("6 NoPlace", shard, None)
        taker = max(takers, key=lambda it: (left[it], -it))
        left[taker] -= load
        return controller.server_name(taker)

    def is_spread(self, shard: int, drained: int, taker: int) -> bool:
        """The replicas lie in enough regions if this server takes the drained one's place."""
        controller = self.controller
        row = controller.record.cells[shard]
        servers = {it for it, cell in enumerate(row) if cell != ABSENT} - {drained} | {taker}
        names = [controller.server_name(it) for it in servers]
        regions = {controller.document.servers[it].region for it in names}
        return len(regions) >= controller.document.shards[controller.shard_name(shard)].spread

    # The program.

    def made(self, task: Json) -> Json:
        """Returns the plan that the program makes."""
        path = program.find_program(self.path)
        if path is None:
            raise refuse("NoProgram")
        line = program.run(path, "plan", json.dumps(self.document() | task).encode()).report.strip()
        if not line.startswith("{"):
            raise Refusal(words.reported(line))
        return json.loads(line)

    def document(self) -> Json:
        """Returns what is recorded as a document, in which what streams hold takes room."""
        controller, record = self.controller, self.controller.record
        held = record.held()
        rooms = {it: record.load(it) + max(0, record.free_room(it, held)) for it in sorted(record.document.servers)}
        shards = []
        for number, shard in enumerate(controller.document.shards.values()):
            row = record.cells[number]
            owner = self.owner(lead_of(row))
            cells = []
            for server, cell in enumerate(row):
                if cell.kind is Kind.SECONDARY or server == owner:
                    state = "primary" if server == owner else "secondary"
                    cells.append({"server": controller.server_name(server), "state": state})
                elif cell != ABSENT:
                    rooms[server] -= shard.load
            listed = record.listed[number]
            shards.append({
                "name": shard.name, "load": shard.load, "want": 0, "cap": 0, "spread": shard.spread,
                "listed": controller.server_name(listed) if listed == owner else None, "cells": cells,
            })
        servers = [
            {"name": it.name, "region": it.region, "room": rooms[number], "down": number in record.permits}
            for number, it in enumerate(controller.document.servers.values())
        ]
        return {"limit": len(servers), "log": MOST_PLACES, "servers": servers, "shards": shards}

    @staticmethod
    def owner(lead: Lead) -> int | None:
        """Returns the server that stands for a shard's primary."""
        return lead.new_owner if lead.stage is Stage.HANDED else lead.owner
