"""The instructions of a block, and the rights that its stream has to declare for them."""
from __future__ import annotations

from collections import defaultdict
from dataclasses import dataclass, field
from typing import Dict, List, Optional, Set

from .blocks import Block, Kind
from .fleet import PRIMARY, SECONDARY, Cells, Fleet, primary_of
from .model import Json


@dataclass
class Course:
    """How far a plan has brought a shard: its cells and its entry in the map, how many live replicas may go, and which rights to it the stream holds."""

    cells: Cells
    is_listed: bool
    spare: int
    stream: Optional[int] = None
    held: Set[int] = field(default_factory=set)
    has_crown: bool = False
    spare_held: int = 0


@dataclass
class Holding:
    """What a stream declares: it holds it when the plan begins."""

    cells: List[Json] = field(default_factory=list)
    crowns: List[Json] = field(default_factory=list)
    room: Dict[int, int] = field(default_factory=lambda: defaultdict(int))
    spare: Dict[int, int] = field(default_factory=lambda: defaultdict(int))

    def value(self, fleet: Fleet) -> Json:
        """The parcel."""
        return {
            "cells": self.cells,
            "crowns": self.crowns,
            "room": [{"server": fleet.servers[it], "amount": amount} for it, amount in sorted(self.room.items()) if amount],
            "spare": [{"shard": fleet.shards[it], "amount": amount} for it, amount in sorted(self.spare.items()) if amount],
        }


class Steps:
    """Writes the instructions of one block behind those that its stream has. What the stream does not hold yet, it declares as it was at the beginning."""

    def __init__(self, fleet: Fleet, shard: int, course: Course, holding: Holding) -> None:
        self.fleet, self.shard, self.course, self.holding = fleet, shard, course, holding
        self.name = fleet.shards[shard]
        self.code: List[Json] = []

    def call(self, do: str, server: int, **more: str) -> None:
        self.code.append({"do": do, "shard": self.name, "server": self.fleet.servers[server], **more})

    # Rights.

    def need_cell(self, server: int, state: str) -> None:
        """Declares the right to a cell."""
        if server not in self.course.held:
            self.course.held.add(server)
            self.holding.cells.append({"shard": self.name, "server": self.fleet.servers[server], "state": state})

    def need_crown(self) -> None:
        """Declares the crown."""
        if self.course.has_crown:
            return
        self.course.has_crown = True
        primary = primary_of(self.course.cells)
        owner = None if primary is None else self.fleet.servers[primary]
        lead: Json = {"lead": "gone"} if owner is None else {"lead": "at", "server": owner}
        self.holding.crowns.append({"shard": self.name, "listed": owner if self.course.is_listed else None, **lead})

    def need_spare(self) -> None:
        """Uses a live replica that may go, of the stream's own or of the pool."""
        self.course.spare -= 1
        if self.course.spare_held:
            self.course.spare_held -= 1
        else:
            self.holding.spare[self.shard] += 1

    # Blocks and their parts.

    def add(self, server: int) -> None:
        self.need_cell(server, "absent")
        self.call("add", server, role=SECONDARY)
        self.course.cells[server] = SECONDARY
        self.course.spare += 1
        self.course.spare_held += 1

    def drop(self, server: int) -> None:
        self.need_cell(server, SECONDARY)
        self.need_spare()
        self.call("drop", server)
        del self.course.cells[server]

    def hand(self, source: int, target: int) -> None:
        """The five steps of a handover, or four if the map lists nobody."""
        self.need_crown()
        self.need_cell(target, "absent")
        servers = self.fleet.servers
        self.call("prepare_add", target, other=servers[source])
        self.call("prepare_drop", source, other=servers[target])
        self.call("add", target, role=PRIMARY)
        if self.course.is_listed:
            self.list("publish")
        self.call("drop", source)
        del self.course.cells[source]
        self.course.cells[target] = PRIMARY
        self.course.held = self.course.held - {target} | {source}

    def promote(self, server: int) -> None:
        self.need_crown()
        self.need_cell(server, SECONDARY)
        self.call("change", server, to=PRIMARY)
        self.course.cells[server] = PRIMARY
        self.course.held.remove(server)

    def swap(self, source: int, target: int) -> None:
        """Exchanges two roles. The map lists nobody meanwhile."""
        self.need_crown()
        if self.course.is_listed:
            self.list("unlist")
        self.call("change", source, to=SECONDARY)
        self.course.cells[source] = SECONDARY
        self.course.held.add(source)
        self.promote(target)
        if self.course.is_listed:
            self.list("publish")

    def list(self, do: str) -> None:
        self.need_crown()
        self.code.append({"do": do, "shard": self.name})


def write_block(fleet: Fleet, block: Block, course: Course, holding: Holding) -> List[Json]:
    """Returns a block's instructions, and changes the course and what the stream declares by them."""
    steps = Steps(fleet, block.shard, course, holding)
    source, target = block.source, block.target
    if block.kind in (Kind.PUBLISH, Kind.UNLIST):
        steps.list(block.kind.name.lower())
        course.is_listed = block.kind is Kind.PUBLISH
    if block.kind is Kind.PROMOTE and target is not None:
        steps.promote(target)
    if block.kind in (Kind.ADD, Kind.MOVE) and target is not None:
        steps.add(target)
    if block.kind in (Kind.DROP, Kind.MOVE) and source is not None:
        steps.drop(source)
    if source is not None and target is not None:
        if block.kind is Kind.SWAP:
            steps.swap(source, target)
        if block.kind is Kind.WARM:
            steps.drop(target)
        if block.kind in (Kind.HAND, Kind.WARM):
            steps.hand(source, target)
        if block.kind is Kind.WARM:
            steps.add(source)
    return steps.code
