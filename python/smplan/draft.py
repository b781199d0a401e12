"""A placement in the making: who has how much by now, and who may receive."""
from __future__ import annotations

from bisect import bisect_left, insort
from typing import AbstractSet, Iterator, List, Set, Tuple

from .fleet import SECONDARY, Fleet

# Shares of a server's room are compared as whole numbers of this part.
PARTS = 1 << 40


class Draft:
    """A placement in the making, and the open servers, which may receive: those that are up and not closed. No replica moves twice, and none returns."""

    def __init__(self, fleet: Fleet, closed: AbstractSet[int]) -> None:
        self.fleet = fleet
        self.target = fleet.target()
        self.used = list(fleet.used)
        self.at: List[Set[int]] = [set(it) for it in fleet.at]
        self.moved: Set[Tuple[int, int]] = set()
        self.can_copy = [fleet.can_copy(it) for it in range(len(fleet.shards))]
        self.is_open = [not fleet.is_down[it] and it not in closed and room > 0 for it, room in enumerate(fleet.room)]
        self.ranked = sorted((self.rank(it), it) for it, is_open in enumerate(self.is_open) if is_open)

    def rank(self, server: int) -> int:
        """By what the open servers are ordered: the one with the most room left comes first, of equals the lowest."""
        return -self.free(server)

    def free(self, server: int) -> int:
        """The room that is left at a server."""
        return self.fleet.room[server] - self.used[server]

    def share(self, server: int) -> int:
        """How full a server is, in parts of its room."""
        return self.used[server] * PARTS // max(1, self.fleet.room[server])

    def receivers(self, load: int) -> Iterator[int]:
        """The open servers that have room for a load, if the one with the most room comes first."""
        for _, server in self.ranked:
            if self.free(server) < load:
                return
            yield server

    def is_new(self, shard: int, server: int) -> bool:
        """Whether a server has nothing of a shard, and had nothing."""
        return server not in self.target.cells[shard] and server not in self.fleet.cells[shard]

    def movable(self, server: int) -> List[int]:
        """The shards whose replicas at a server may move: they have not moved yet, and there is a primary that is up to copy them from."""
        return [it for it in sorted(self.at[server]) if self.can_copy[it] and (it, server) not in self.moved]

    def keeps_spread(self, shard: int, source: int, target: int) -> bool:
        """Whether a shard lies in enough regions once its replica is at the target: in its spread, or in as many as at first."""
        fleet = self.fleet
        stay = [it for it in self.target.cells[shard] if it != source]
        return fleet.regions([*stay, target]) >= fleet.spread[shard] or fleet.regions([*stay, target]) >= fleet.regions(fleet.cells[shard])

    def burden(self, shard: int, server: int, times: int) -> None:
        """Adds a shard's load to a server's, or takes it away."""
        if self.is_open[server]:
            self.ranked.pop(bisect_left(self.ranked, (self.rank(server), server)))
        self.used[server] += times * self.fleet.load[shard]
        if self.is_open[server]:
            insort(self.ranked, (self.rank(server), server))

    def add(self, shard: int, server: int, role: str = SECONDARY) -> None:
        """Adds a replica."""
        self.burden(shard, server, 1)
        self.target.cells[shard][server] = role
        self.at[server].add(shard)

    def drop(self, shard: int, server: int) -> str:
        """Drops a replica, and returns its role."""
        self.burden(shard, server, -1)
        self.at[server].remove(shard)
        return self.target.cells[shard].pop(server)

    def move(self, shard: int, source: int, target: int) -> None:
        """Moves a replica."""
        self.add(shard, target, self.drop(shard, source))
        self.moved.add((shard, target))
