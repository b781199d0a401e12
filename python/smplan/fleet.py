"""A placement at rest by numbers: servers and shards in the document's order, and a placement that one wants instead."""
from __future__ import annotations

from dataclasses import dataclass
from typing import Dict, Iterable, List, Optional, Set

from .model import Document, Json, document_of

PRIMARY, SECONDARY = "primary", "secondary"

# What a shard's servers have of it: each with the role of its replica.
Cells = Dict[int, str]


def primary_of(cells: Cells) -> Optional[int]:
    """The server with the primary, if there is one."""
    return next((server for server, role in cells.items() if role == PRIMARY), None)


class Fleet:
    """Servers with regions, rooms and loads, and shards with their replicas. A shard's entry in the published map is its primary, or none."""

    def __init__(self, document: Document) -> None:
        servers, shards = list(document.servers.values()), list(document.shards.values())
        self.document = document
        self.servers: List[str] = [it.name for it in servers]
        self.server_of: Dict[str, int] = {name: number for number, name in enumerate(self.servers)}
        self.region: List[str] = [it.region for it in servers]
        self.room: List[int] = [it.room for it in servers]
        self.is_down: List[bool] = [it.down for it in servers]
        self.shards: List[str] = [it.name for it in shards]
        self.shard_of: Dict[str, int] = {name: number for number, name in enumerate(self.shards)}
        self.load: List[int] = [it.load for it in shards]
        self.want: List[int] = [it.want for it in shards]
        self.floor: List[int] = [it.floor for it in shards]
        self.spread: List[int] = [it.spread for it in shards]
        self.cells: List[Cells] = [{self.server_of[cell.server]: cell.state for cell in it.cells} for it in shards]
        self.is_listed: List[bool] = [it.listed is not None for it in shards]
        self.used: List[int] = [0] * len(servers)
        self.at: List[Set[int]] = [set() for _ in servers]
        for shard, cells in enumerate(self.cells):
            for server in cells:
                self.used[server] += self.load[shard]
                self.at[server].add(shard)

    def free(self, server: int) -> int:
        """The room that is left at a server."""
        return self.room[server] - self.used[server]

    def live(self, shard: int) -> int:
        """How many replicas of a shard are at servers that are up."""
        return sum(not self.is_down[it] for it in self.cells[shard])

    def regions(self, servers: Iterable[int]) -> int:
        """In how many regions these servers stand."""
        return len({self.region[it] for it in servers})

    def can_copy(self, shard: int) -> bool:
        """Whether there is a primary that is up, to copy a shard from."""
        primary = primary_of(self.cells[shard])
        return primary is not None and not self.is_down[primary]

    def target(self) -> "Target":
        """This placement, to be changed into one that is wanted."""
        return Target([dict(it) for it in self.cells], list(self.is_listed))

    def shard_value(self, shard: int, cells: Cells, is_listed: bool) -> Json:
        """A shard of the document with these cells."""
        primary = primary_of(cells)
        listed = self.servers[primary] if is_listed and primary is not None else None
        row = self.document.value["shards"][shard]
        return {**row, "listed": listed, "cells": [{"server": self.servers[it], "state": cells[it]} for it in sorted(cells)]}

    def value(self, target: "Target") -> Json:
        """The document with the placement that is wanted, and without plans, moves and events."""
        value = {name: it for name, it in self.document.value.items() if name in ("limit", "log", "servers")}
        value["shards"] = [self.shard_value(it, target.cells[it], target.is_listed[it]) for it in range(len(self.shards))]
        return value

    def after(self, target: "Target") -> "Fleet":
        """The fleet once it has come to the placement that is wanted."""
        return Fleet(document_of(self.value(target)))


@dataclass
class Target:
    """A placement that is wanted of a fleet's shards: their cells, and whether the map lists their primaries."""

    cells: List[Cells]
    is_listed: List[bool]

    def move(self, shard: int, source: int, target: int) -> None:
        """Puts a replica at another server, in its role."""
        self.cells[shard][target] = self.cells[shard].pop(source)

    def promote(self, shard: int, server: int) -> None:
        """Makes a replica the primary, and the primary a secondary."""
        primary = primary_of(self.cells[shard])
        if primary is not None:
            self.cells[shard][primary] = SECONDARY
        self.cells[shard][server] = PRIMARY
