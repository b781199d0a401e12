"""Clients: what was executed, acknowledged and seen, and how many copies each acknowledged write was promised."""
from __future__ import annotations

from driving_model.clients import PassedWrite, Seal, Write


class Writes:
    """For each shard its one list of executed writes, those that were acknowledged, and those that some reply showed.

    A write is forgotten only when the shard was named as lost and that was confirmed, until a new primary acknowledges
    it again, or when a plan has dropped the shard's last replica. `named` has those that no new primary had. `promised`
    has of each how many copies it had at least, and `destroyed` how many were lost with their disks.
    """

    def __init__(self, shard_count: int) -> None:
        self.history: list[list[int]] = [[] for _ in range(shard_count)]
        self.acknowledged: list[set[int]] = [set() for _ in range(shard_count)]
        self.seen: list[set[int]] = [set() for _ in range(shard_count)]
        self.named: list[set[int]] = [set() for _ in range(shard_count)]
        self.promised: dict[int, int] = {}
        self.destroyed: dict[int, int] = {}
        self.requests: list[Write] = []
        self.passed: list[PassedWrite] = []
        self.seals: list[Seal] = []

    def new_write(self, shard: int) -> Write:
        """A request of a client with an identity of its own."""
        self.requests.append(Write(shard, len(self.requests) + 1))
        return self.requests[-1]

    def acknowledge(self, shard: int, writes: set[int], copies: int) -> None:
        """These writes are acknowledged, each at as many copies."""
        self.acknowledged[shard] |= writes
        self.promised.update(dict.fromkeys(writes, copies))

    def promise_less(self, shard: int, copies: int) -> None:
        """From now on no more copies than these are promised of any write of the shard."""
        for write in self.acknowledged[shard]:
            self.promised[write] = min(self.promised[write], copies)

    def destroy(self, writes: list[int]) -> None:
        """A copy of each of these writes is lost."""
        for write in writes:
            self.destroyed[write] = self.destroyed.get(write, 0) + 1

    def keep(self, shard: int, writes: list[int]) -> None:
        """The loss of all others was named."""
        self.named[shard] |= self.acknowledged[shard].difference(writes)
        self.acknowledged[shard] &= set(writes)
        self.seen[shard] &= set(writes)

    def give_up(self, shard: int, writes: list[int]) -> None:
        """The shard was named, and its new primary has these."""
        self.keep(shard, writes)
        self.acknowledged[shard], self.seen[shard] = set(), set()

    def drop(self, shard: int) -> None:
        """A plan has dropped the shard."""
        for found in (self.acknowledged, self.seen, self.named):
            found[shard] = set()
