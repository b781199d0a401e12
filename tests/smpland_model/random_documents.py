"""Random documents: of an opening, of a reopening over what is recorded, and some in which something is wrong."""
from __future__ import annotations

import random
from typing import Any

Json = dict[str, Any]
SERVERS = [f"v{it}" for it in range(7)]
SHARDS = [f"s{it}" for it in range(8)]


class Documents:
    """Makes documents with dice. `is_wide` asks for many small shards, so that many plans run side by side."""

    def __init__(self, dice: random.Random, is_wide: bool = False) -> None:
        self.dice, self.is_wide = dice, is_wide

    def chance(self, probability: float) -> bool:
        """Returns true with this probability."""
        return self.dice.random() < probability

    # Parts.

    def server(self, name: str) -> Json:
        """Returns a server."""
        dice = self.dice
        told: Json = {"name": name, "region": dice.choice(["r0", "r1"]), "room": dice.choice([6, 9, 9, 14])}
        if self.is_wide:
            told["room"] = 100
        return told | ({"down": True} if self.chance(0.08) else {})

    def shard(self, name: str, replicas: list[str]) -> Json:
        """Returns a shard with a primary and secondaries at these servers."""
        dice = self.dice
        want = dice.choice([0, 1, max(1, len(replicas)), len(replicas)])
        told: Json = {
            "name": name, "load": 1 if self.is_wide else dice.choice([1, 2, 2, 3]), "want": want,
            "cap": dice.choice([0, min(want, 1), want]), "spread": dice.choice([0, 2, 2]),
            "cells": [{"server": it, "state": "secondary"} for it in replicas],
        }
        if replicas and self.chance(0.9):
            told["cells"][0]["state"] = "primary"
            told["listed"] = replicas[0] if self.chance(0.9) else None
        return told

    def names(self, all_of_them: list[str], least: int, most: int) -> list[str]:
        """Returns some names, in any order."""
        return self.dice.sample(all_of_them, self.dice.randint(least, min(most, len(all_of_them))))

    def limits(self) -> Json:
        """Returns a limit, and how long the log may be."""
        told: Json = {"limit": self.dice.choice([0, 1, 1, 2, 3])}
        return told | ({"log": self.dice.choice([3, 5, 9, 14, 30])} if self.chance(0.3) else {})

    # Documents.

    def first(self) -> Json:
        """Returns a document to open with, which fits in most cases."""
        servers = [self.server(it) for it in self.names(SERVERS, 2, 5)]
        names = [f"s{it}" for it in range(20)] if self.is_wide else self.names(SHARDS, 1, 6)
        left = {it["name"]: it["room"] for it in servers}
        shards = []
        for name in names:
            shard = self.shard(name, [])
            takers = [it for it in left if left[it] >= shard["load"]]
            replicas = self.names(takers, min(1, len(takers)), 3)
            shard = self.shard(name, replicas) | {"load": shard["load"]}
            for it in replicas:
                left[it] -= shard["load"]
            shards.append(shard)
        document = self.limits() | {"servers": servers, "shards": shards}
        return self.bent(document) if self.chance(0.3) else document

    def next(self, document: Json, rows: dict[str, list[Json]], lost: list[str], is_careful: bool) -> Json:
        """Returns a document to reopen with: in another order, with servers and shards more, and, if it is not careful,
        less of them, or other rooms and loads."""
        rare = 0 if is_careful else 1
        servers = [dict(it) for it in document["servers"] if it["name"] not in lost and not self.chance(0.08 * rare)]
        shards = [dict(it) for it in document["shards"] if not self.chance(self.often_left_out(rows.get(it["name"], []), lost, rare))]
        has = {it["name"] for it in servers} | set(lost)
        servers += [self.server(it) for it in SERVERS if it not in has and self.chance(0.15)]
        named = {it["name"] for it in shards}
        for name in SHARDS:
            if name not in named and self.chance(0.08):
                shards.append(self.shard(name, self.names([it["name"] for it in servers], 0, 2)))
        for shard in shards:
            self.change_shard(shard, rows, {it["name"] for it in servers}, 0.1 * rare)
        for server in servers:
            if self.chance(0.1):
                server |= self.server(server["name"]) | ({"room": 30} if is_careful else {})
        if self.chance(0.5):
            self.dice.shuffle(servers)
            self.dice.shuffle(shards)
        limits = self.limits() if self.chance(0.3 * rare) else {"limit": document["limit"]}
        told = limits | {"servers": servers, "shards": shards}
        return self.bent(told) if self.chance(0.1 * rare) else told

    def often_left_out(self, row: list[Json], lost: list[str], rare: int) -> float:
        """Returns how often a document leaves out a shard with these cells: more often if all of them are lost."""
        return 0.3 if row and all(it["server"] in lost for it in row) else 0.06 * rare

    def change_shard(self, shard: Json, rows: dict[str, list[Json]], servers: set[str], often: float) -> None:
        """Gives a shard the cells that are recorded, or others, and other numbers now and then."""
        cells = rows.get(shard["name"], shard["cells"]) if self.chance(0.7) else shard["cells"]
        kept = [{"server": it["server"], "state": it["state"]} for it in cells if it["server"] in servers]
        shard["cells"] = [it for it in kept if it["state"] in ("primary", "secondary")]
        if shard["cells"] and self.chance(0.3) and all(it["state"] == "secondary" for it in shard["cells"]):
            shard["cells"][0]["state"] = "primary"
        shard["listed"] = next((it["server"] for it in shard["cells"] if it["state"] == "primary"), None)
        if self.chance(0.1):
            shard |= {"want": self.dice.randint(0, 3), "cap": 0}
        if self.chance(often):
            shard["load"] = self.dice.choice([1, 2, 3])

    # What is wrong.

    def bent(self, document: Json) -> Json:
        """Returns a document in which something is wrong, or may be."""
        dice = self.dice
        shards = [it for it in document["shards"] if it["cells"]]
        servers = [it["name"] for it in document["servers"]]
        if not shards or not servers:
            return document
        shard = dice.choice(shards)
        changed: Json = dice.choice([
            {"cells": shard["cells"] + [shard["cells"][0]]},
            {"cells": [{"server": it, "state": "primary"} for it in servers[:2]]},
            {"listed": dice.choice(servers)},
            {"load": 15},
            {"want": 4, "cap": 0},
        ])
        others = [it | changed if it is shard else it for it in document["shards"]]
        bent = document | {"shards": others}
        if self.chance(0.3):
            bent = document | {"limit": 0, "log": dice.choice([0, 1])}
            bent["servers"] = [it | {"down": True} for it in document["servers"]]
            bent["shards"] = [it | {"want": 0, "cap": 0} for it in document["shards"]]
            bent |= {"limit": 9, "log": 1} if self.chance(0.5) else {}
        return bent
