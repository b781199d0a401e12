"""Clients and their writes: what was executed and acknowledged, what was passed on, and what losses excuse."""
from __future__ import annotations

from dataclasses import dataclass

from .server import Pass


@dataclass(frozen=True, slots=True)
class Write:
    """A client's request, which adds its identity to a shard's list of writes."""

    shard: int
    identity: int


@dataclass(frozen=True, slots=True)
class PassedWrite:
    """A write that a server has passed on."""

    write: Write
    passed: Pass


@dataclass(frozen=True, slots=True)
class Seal:
    """The end of the old owner's stream of writes, on its way to the new owner."""

    shard: int
    sender: int
    to: int
    handover: int
    cut: int


class Writes:
    """For each shard its one list of executed writes, and those that were acknowledged.

    If all that had a write are lost, nobody can have it any more: `has_lost` then lets the list begin anew at the next
    execution, and `excuse` takes what nobody else has from the acknowledged writes.
    """

    def __init__(self, shard_count: int) -> None:
        self.history: list[list[int]] = [[] for _ in range(shard_count)]
        self.acknowledged: list[set[int]] = [set() for _ in range(shard_count)]
        self.has_lost = [False] * shard_count
        self.requests: list[Write] = []
        self.passed: list[PassedWrite] = []
        self.seals: list[Seal] = []

    def new_write(self, shard: int) -> Write:
        """A request of a client with an identity of its own."""
        self.requests.append(Write(shard, len(self.requests) + 1))
        return self.requests[-1]

    def excuse(self, shard: int, others: set[int]) -> None:
        """Only these writes are left elsewhere."""
        self.acknowledged[shard] &= others

    def begin_anew(self, shard: int, data: list[int]) -> None:
        """After a loss the list is what the server that executes next has."""
        if self.has_lost[shard]:
            self.history[shard], self.has_lost[shard] = list(data), False
