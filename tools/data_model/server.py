"""A server's side over data: what its commits wait for, and what it tells of its copies."""
from __future__ import annotations

from dataclasses import dataclass

from driving_model import server as driving
from driving_model.cells import ABSENT, Call, Kind, Verb
from driving_model.messages import BASE_STEP, Fence, Found, Inventory
from driving_model.server import Slot

from .copies import Told
from .messages import SlotFound, Unknown
from .rules import Rules

# How many epochs above its base a server with slots takes a fence at most.
MOST_AHEAD = 1 << 20


@dataclass(frozen=True, slots=True)
class Shown(driving.Shown):
    """What the service shows of a shard at a commit, also: the copy is whole, a drop has leave, the copy is the
    greatest of enough replicas, nobody else is named as a replica."""

    is_whole: bool = True
    has_leave: bool = True
    is_greatest: bool = True
    is_alone: bool = True


@dataclass(frozen=True, slots=True)
class Copies:
    """What a server tells at a fence: by shard its whole copy, and one in doubt."""

    whole: tuple[Told | None, ...]
    doubted: tuple[Told | None, ...]


class Server(driving.Server):
    """A server's base and slots."""

    rules: Rules

    def has_to_wait(self, slot: Slot, call: Call, shown: Shown) -> bool:
        """The work may not have its effect yet."""
        rules = self.rules
        brings = call.verb is Verb.PREPARE_ADD or (call.verb is Verb.ADD and call.role is Kind.SECONDARY)
        if brings and not shown.is_whole and rules.work_before_commit:
            return True
        if call.verb is Verb.DROP and not shown.has_leave and rules.drop_granted:
            return True
        becomes_primary = call.role is Kind.PRIMARY
        if call.verb is Verb.CHANGE and becomes_primary and not shown.is_greatest and rules.change_compares:
            return True
        if call.verb is Verb.ADD and slot.cell == ABSENT and becomes_primary and rules.begins_alone:
            return not shown.is_alone
        return super().has_to_wait(slot, call, shown)

    def fence(self, fence: Fence, running: frozenset[int], copies: Copies) -> Found | None:
        """Takes a fence above its base, but not far above it. Returns what it has, or None if it does not answer
        (now)."""
        is_far = fence.base > self.base + MOST_AHEAD * BASE_STEP
        if self.is_known and is_far and self.rules.fence_bounded:
            return None
        return super().fence(fence, running, copies)

    def inventory(self, copies: Copies) -> Found:
        """What it tells of its slots, or its nonce and its data if it has none."""
        if not self.is_known:
            return Unknown(self.nonce, copies.whole, copies.doubted)
        found = []
        for slot, whole, doubted in zip(self.slots, copies.whole, copies.doubted):
            has_reached_cut = slot.cut is not None and whole is not None and whole.position >= slot.cut
            found.append(SlotFound(slot.cell, whole, doubted, has_reached_cut))
        return Inventory(tuple(found))
