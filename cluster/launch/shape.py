"""How large a cluster is, and the document that it begins with."""
from __future__ import annotations

import random
from dataclasses import dataclass
from typing import Any

REGIONS = ("berlin", "oslo", "porto")


@dataclass(frozen=True, slots=True)
class Shape:
    """How many there are of each, and the replicas that a shard is to have."""

    servers: int = 3
    shards: int = 8
    controllers: int = 3
    clients: int = 4
    want: int = 2
    seed: int = 1
    # How many clients never rest, and how many ask at times of their own, both of shards that are being moved; and how many bytes of text a shard
    # has at most.
    hot_clients: int = 0
    open_clients: int = 0
    largest: int = 0

    @property
    def server_names(self) -> list[str]:
        """The servers: letters, as in the documents."""
        return [chr(ord("a") + it) for it in range(self.servers)]

    @property
    def controller_names(self) -> list[str]:
        """The controllers."""
        return [f"k{it}" for it in range(self.controllers)]

    @property
    def shard_names(self) -> list[str]:
        """The shards."""
        return [f"s{it:02}" for it in range(self.shards)]


def fewest(shape: Shape) -> int:
    """The fewest replicas that a shard is to have: one may be down."""
    return shape.want - min(1, shape.want)


def document_of(shape: Shape) -> dict[str, Any]:
    """Returns a placement with each shard's replicas at different servers, in different regions where there are enough."""
    dice = random.Random(shape.seed)
    regions = min(len(REGIONS), shape.servers)
    loads = {it: dice.randint(1, 4) for it in shape.shard_names}
    cells: dict[str, list[str]] = {}
    for number, shard in enumerate(shape.shard_names):
        first = number % shape.servers
        cells[shard] = [shape.server_names[(first + it) % shape.servers] for it in range(shape.want)]
    room = 3 * sum(loads.values()) * shape.want // max(1, shape.servers - 1)
    servers = [{"name": it, "region": REGIONS[at % regions], "room": room} for at, it in enumerate(shape.server_names)]
    shards = [shard_of(it, loads[it], cells[it], shape) for it in shape.shard_names]
    return {"limit": 1, "servers": servers, "shards": shards}


def shard_of(name: str, load: int, servers: list[str], shape: Shape) -> dict[str, Any]:
    """A shard of the document, whose primary is at the first of the servers."""
    states = ["primary"] + ["secondary"] * (len(servers) - 1)
    return {
        "name": name, "load": load, "want": shape.want, "cap": min(1, shape.want), "spread": 1, "listed": servers[0],
        "cells": [{"server": server, "state": state} for server, state in zip(servers, states)],
    }
