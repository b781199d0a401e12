"""What the controller has recorded, with the numbers of copies."""
from __future__ import annotations

from collections.abc import Iterable, Sequence
from copy import copy

from driving_model import record as driving
from driving_model.cells import ABSENT, Kind, Verb
from driving_model.plans import Instruction, Plan
from driving_model.record import primary_of

from .commands import Document
from .messages import Terms
from .rules import Rules, SOUND


class Record(driving.Record):
    """The placement and the plans of one epoch. Of each shard `copies` are asked for, `wanted` by the document, and
    `lowered` is the permit, the base, or the log's place at which another server became primary, whichever lowered the
    number last. `former` was primary before, until an order's number.

    In the small form servers ask for those that are `wanted`, and `copies` surely have each acknowledged write."""

    document: Document
    is_small: bool

    @classmethod
    def over(
        cls, record: driving.Record, before: Record | None = None, copies: Iterable[int] = (), base: int = 0,
        rules: Rules = SOUND,
    ) -> Record:
        """A record with the numbers of the one before, of a settlement of this base, or of its document."""
        made = copy(record)
        made.__class__ = cls
        made.is_small = rules.is_small
        made.wanted = [wanted_of(made.document, it, made.floors[it], rules) for it in made.shards]
        made.copies = list(copies) or [made.copies_at_opening(it, rules) for it in made.shards]
        made.lowered = [base] * len(made.cells)
        made.former: list[tuple[int, int] | None] = [None] * len(made.cells)
        if before:
            made.wanted, made.copies, made.lowered = list(before.wanted), list(before.copies), list(before.lowered)
            made.former = list(before.former)
        return made

    def copies_at_opening(self, shard: int, rules: Rules) -> int:
        """How many copies an opened document begins with."""
        if rules.is_small:
            return 1 if rules.kept_from_one else self.wanted[shard]
        return max(1, min(self.wanted[shard], self.there(shard)))

    def copy(self) -> Record:
        """A record that can be changed beside this one."""
        other = super().copy()
        other.wanted, other.copies, other.lowered = list(self.wanted), list(self.copies), list(self.lowered)
        other.former = list(self.former)
        return other

    def replicas(self, shard: int) -> frozenset[int]:
        """Who has something of the shard."""
        return frozenset(it for it, cell in enumerate(self.cells[shard]) if cell != ABSENT)

    def there(self, shard: int) -> int:
        """How many replicas the shard has at servers that are not recorded down."""
        return len(self.replicas(shard) - set(self.permits))

    def staying(self, shard: int) -> frozenset[int]:
        """Its replicas at servers that are not recorded down, and that no unfinished stream names for the shard."""
        code = (it for _, _, state in self.running() for it in state.stream.code if it.shard == shard)
        return self.replicas(shard) - set(self.permits) - frozenset().union(*(it.servers for it in code))

    def led_by(self, shard: int) -> int | None:
        """Who is the shard's primary, or forwards its requests."""
        lead = self.lead(shard)
        return lead.owner if primary_of(self.cells[shard]) is None else primary_of(self.cells[shard])

    def lower(self, shard: int, permit: int) -> None:
        """A replica is recorded down under this permit: fewer copies are asked for."""
        down = len(self.replicas(shard)) - self.there(shard)
        self.copies[shard] = max(1, min(self.copies[shard], self.wanted[shard] - down))
        self.lowered[shard] = permit

    def renumber(self, shard: int, number: int) -> None:
        """Another server is primary, from this number on: what the one before said of its copies counts no more."""
        if self.copies[shard] < self.wanted[shard]:
            self.lowered[shard] = number

    def terms(self, shard: int, ordered: frozenset[int] = frozenset()) -> Terms:
        """What an order or a slot says of the shard."""
        return Terms(
            self.wanted[shard] if self.is_small else self.copies[shard], self.wanted[shard], self.lowered[shard],
            self.led_by(shard), self.replicas(shard) | ordered, self.former[shard],
        )

    def codes(self, plan: Plan) -> list[Sequence[Instruction]]:
        """What the plan's streams do, and those of other plans from where they are."""
        return [it.code for it in plan.streams] + [state.stream.code[state.at:] for _, _, state in self.running()]

    def most_gone(self, shard: int, code: Sequence[Instruction]) -> int:
        """How many replicas fewer than now a stream may leave of the shard, by itself."""
        there, most = set(self.replicas(shard)), 0
        for it in code:
            if it.shard == shard and it.verb is Verb.DROP:
                there.discard(it.server)
            elif brings(shard, it):
                there.add(it.server)
            most = max(most, len(self.replicas(shard)) - len(there))
        return most

    def adds(self, shard: int, code: Sequence[Instruction]) -> bool:
        """A stream adds a replica of the shard at a time when none of those is there that it drops."""
        there = set(self.replicas(shard))
        own = there & {it.server for it in code if it.shard == shard and it.verb is Verb.DROP}
        for it in code:
            if it.shard == shard and it.verb is Verb.DROP:
                there.discard(it.server)
                own.discard(it.server)
            elif brings(shard, it) and it.server not in there:
                if not own:
                    return True
                there.add(it.server)
                own.add(it.server)
        return False

    def begins_beside(self, shard: int, code: Sequence[Instruction]) -> bool:
        """A stream adds a first primary of the shard beside a replica that it has not dropped."""
        there = set(self.replicas(shard))
        for it in code:
            if it.shard == shard and it.verb is Verb.DROP:
                there.discard(it.server)
            elif brings(shard, it):
                if it.verb is Verb.ADD and it.role is Kind.PRIMARY and there - {it.server} and it.server not in there:
                    return True
                there.add(it.server)
        return False

    def is_short_of_copies(self, shard: int, plan: Plan) -> bool:
        """The plan's drops may leave fewer replicas of the shard than are wanted, if these are more than one."""
        left = len(self.replicas(shard)) - sum(self.most_gone(shard, it) for it in self.codes(plan))
        return left < self.wanted[shard] != 1 and any(self.most_gone(shard, it.code) for it in plan.streams)

    def adds_beside_the_last(self, shard: int, plan: Plan) -> bool:
        """With this plan streams may drop the shard's last replica, one of them while another one adds a replica."""
        codes = self.codes(plan)
        most = [self.most_gone(shard, it) for it in codes]
        drops, adds = places(most), places(self.adds(shard, it) for it in codes)
        return sum(most) >= len(self.replicas(shard)) and any(drops - {it} for it in adds)

    def adds_beside_the_first(self, shard: int, plan: Plan) -> bool:
        """With this plan streams would wait for each other: two add replicas of a shard that has none, or one adds a
        first primary beside a replica."""
        if any(self.begins_beside(shard, it.code) for it in plan.streams):
            return True
        return not self.replicas(shard) and len(places(self.adds(shard, it) for it in self.codes(plan))) > 1


def wanted_of(document: Document, shard: int, floor: int, rules: Rules) -> int:
    """How many copies are wanted of a shard whose floor is this, at present."""
    if not rules.is_small:
        return document.wanted(shard)
    return max(1, min(document.chosen(shard), floor)) if rules.wanted_within_floor else document.chosen(shard)


def places(marks: Iterable[int | bool]) -> set[int]:
    """The places of those that are not 0."""
    return {place for place, mark in enumerate(marks) if mark}


def brings(shard: int, it: Instruction) -> bool:
    """An instruction adds a replica of the shard, or makes a prepared one the primary."""
    return it.shard == shard and it.verb in (Verb.ADD, Verb.PREPARE_ADD)
