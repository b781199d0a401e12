"""A reopening as the crate sm_reopening has it: who inherits a shard, what is proposed, and why cells may not be settled.

Over the model's it has more. A shard whose primary is lost goes to a secondary even if the document names no primary
for it, and one without a lead gets none. No replica comes or goes by a reopening, but at servers that are Unknown. A
server that was given up has to be empty before it is back. And more shards are named as lost.
"""
from __future__ import annotations

from collections.abc import Iterator
from dataclasses import dataclass, field, fields

from driving_model.cells import ABSENT, Cell, Kind, PRIMARY, SECONDARY
from driving_model.commands import Cells
from driving_model.messages import Inventory, SlotFound, Unknown
from driving_model.record import primary_of
from driving_model.reopening import Reopening
from driving_model.replies import Proposal, Refused
from smpland_model import words
from smpland_model.numbering import Numbering

Json = words.Json
HANDED = (Kind.PREPARED, Kind.FORWARDING)

# The rank of a claim, the copy's view and position, and the claim; without a view the claim, and then the position.
Standing = tuple[int, int, int, int]


@dataclass(frozen=True, slots=True)
class SlotOfLine(SlotFound):
    """What a line tells of a shard: the view of its copy's list, too."""

    view: int = 0


ABSENT_SLOT = SlotOfLine(ABSENT, 0, False)


def claim(cell: Cell, has_reached_cut: bool) -> int:
    """Returns how good a claim to a shard a cell gives."""
    claims = {Kind.ABSENT: 0, Kind.SECONDARY: 2, Kind.FORWARDING: 3, Kind.PRIMARY: 4}
    return claims.get(cell.kind, 3 if has_reached_cut else 1)


def standing_by(claim: int, view: int = 0, position: int = 0) -> Standing:
    """Returns a standing. A primary comes before all others, and who has nothing after them, whatever the copies."""
    rank = 2 if claim > 3 else 1 if claim > 0 else 0
    return (rank, view, position, claim) if view > 0 else (rank, view, claim, position)


def keeps(told: Cell, settled: Cell) -> bool:
    """Returns whether a server that told a cell may be settled with another one: a primary stays, a secondary stays or
    becomes the primary, a party of a handover becomes the primary or gives the shard up."""
    kept = {Kind.PRIMARY: [PRIMARY], Kind.SECONDARY: [SECONDARY, PRIMARY], Kind.ABSENT: [ABSENT]}
    return settled in kept.get(told.kind, [PRIMARY, ABSENT])


@dataclass(slots=True)
class NamedReopening(Reopening):
    """A reopening whose servers and shards have names. `shards` are those of the document, and `strays` those that a
    server told of and nobody knows. `kept` has by shard on how many replicas each acknowledged write surely is."""

    numbering: Numbering = field(default_factory=Numbering)
    shards: tuple[int, ...] = ()
    kept: tuple[int, ...] = ()
    strays: dict[int, list[str]] = field(default_factory=dict)

    @classmethod
    def of(
        cls, reopening: Reopening, numbering: Numbering, shards: tuple[int, ...], kept: tuple[int, ...],
    ) -> NamedReopening:
        """Returns a reopening of the model with names."""
        members = (getattr(reopening, it.name) for it in fields(Reopening))
        return cls(*members, numbering=numbering, shards=shards, kept=kept)

    # Who inherits a shard.

    @property
    def servers(self) -> range:
        """All servers, those that the document leaves out too."""
        return range(len(self.document.rooms))

    @property
    def recorded_servers(self) -> int:
        """How many servers are recorded: none without a record, or if it is of a service that has lost all."""
        return len(self.record.document.rooms) if self.record else 0

    def recorded(self, shard: int, server: int) -> Cell:
        """Returns what is recorded of a shard and a server."""
        cells = self.record.cells if self.record else []
        row = cells[shard] if shard < len(cells) else []
        return row[server] if server < len(row) else ABSENT

    def told(self, shard: int, server: int) -> SlotOfLine | None:
        """Returns what a server has told of a shard, if it has its slots."""
        found = self.inventories.get(server)
        if not isinstance(found, Inventory):
            return None
        return found.slots[shard] if shard < len(found.slots) else ABSENT_SLOT

    def is_silent(self, server: int) -> bool:
        """Returns whether a server that is asked has not answered, and counts as it is recorded."""
        is_down = self.record is not None and server in self.record.permits
        is_asked = server in self.targets and server not in self.inventories
        return is_asked and is_down and server not in self.already_settled

    def standing(self, shard: int, server: int) -> Standing:
        """Returns how well a server may inherit a shard."""
        if self.is_silent(server):
            return standing_by(claim(self.recorded(shard, server), False))
        slot = self.told(shard, server)
        return standing_by(claim(slot.cell, slot.has_reached_cut), slot.view, slot.position) if slot else standing_by(0)

    def claim_of(self, shard: int, server: int) -> int:
        """Returns the claim of a server to a shard."""
        standing = self.standing(shard, server)
        return standing[3] if standing[1] > 0 else standing[2]

    def documented(self, shard: int, server: int) -> Cell:
        """Returns what the document has of a shard at a server that is Unknown."""
        is_unknown = isinstance(self.inventories.get(server), Unknown)
        return self.document.cells[shard][server] if is_unknown else ABSENT

    def has_lead(self, shard: int) -> bool:
        """Returns whether a server has a part in the shard's lead, as it is recorded or has told."""
        recorded = [self.recorded(shard, it) for it in self.servers]
        told = [slot.cell for it in self.servers if (slot := self.told(shard, it))]
        return any(it not in (ABSENT, SECONDARY) for it in recorded + told)

    def has_replica(self, shard: int) -> bool:
        """Returns whether a server has told that it has a replica of the shard, or is silent and recorded with one."""
        silent = [self.recorded(shard, it) for it in self.servers if self.is_silent(it)]
        told = [slot.cell for it in self.servers if (slot := self.told(shard, it))]
        return any(it in (PRIMARY, SECONDARY) for it in silent + told)

    def is_led(self, shard: int) -> bool:
        """Returns whether the shard is to have a primary: it has a lead, or else nobody has a replica, and the document
        names a primary. Secondaries without a lead do not show which of them has each write, so none is chosen."""
        return self.has_lead(shard) or (PRIMARY in self.document.cells[shard] and not self.has_replica(shard))

    def successor_of(self, shard: int) -> int | None:
        """Returns the server that is proposed as the shard's primary."""
        if not self.is_led(shard):
            return None
        best = max(self.servers, key=lambda it: (self.standing(shard, it), -it))
        if self.claim_of(shard, best) > 0:
            return best
        return next((it for it in self.servers if self.documented(shard, it) == PRIMARY), None)

    # What is proposed.

    def waits_for(self) -> list[int]:
        """Who has to answer the fence before anything can be confirmed: who is not carried over, or else who would be a
        shard's primary and is not recorded so."""
        awaited = [it for it in self.missing if not (self.is_silent(it) and it in self.document.servers)]
        if awaited:
            return awaited
        successors = {(it, self.successor_of(it)) for it in self.shards}
        return sorted({successor for it, successor in successors if successor in self.missing and self.recorded(it, successor) != PRIMARY})

    def proposed(self, shard: int, server: int, successor: int | None) -> Cell:
        """Returns the cell that is proposed for a server if the shard goes to this successor."""
        if server not in self.document.servers:
            return ABSENT
        if server == successor:
            return PRIMARY
        slot = self.told(shard, server)
        silent = self.recorded(shard, server) if self.is_silent(server) else ABSENT
        replicas = [silent, self.documented(shard, server)] + ([slot.cell] if slot else [])
        return SECONDARY if any(it in (PRIMARY, SECONDARY) for it in replicas) else ABSENT

    def propose(self, choice: int = 0) -> Proposal:
        """Returns what may be confirmed. Shards that the document leaves out are to be nowhere, and may be lost too."""
        cells = [(ABSENT,) * len(self.servers)] * len(self.document.loads)
        for shard in self.shards:
            successor = self.successor_of(shard)
            cells[shard] = tuple(self.proposed(shard, it, successor) for it in self.servers)
        lost = tuple(it for it in range(len(self.document.loads)) if self.is_named_lost(it))
        return Proposal(self.base, tuple(cells), lost, self.short_floors(cells), tuple(self.missing))

    def is_bare(self, survey: object, shard: int, successor: int | None) -> bool:
        """Returns whether no server is left that has all of a shard, of which there is or was to be one."""
        standings = [self.claim_of(shard, it) for it in self.servers]
        cells = [(self.recorded(shard, it), self.document.cells[shard][it]) for it in self.servers]
        has_been = any(it != (ABSENT, ABSENT) for it in cells)
        has_been = has_been or any(self.may_be_first(shard, it) for it in self.servers)
        return max(standings, default=0) < 2 and (has_been or max(standings, default=0) > 0)

    # What may be lost: a primary may have acknowledged writes alone, or with others that are gone, too.

    def has_no_slots(self, server: int) -> bool:
        """Returns whether a server has its slots no more: it is lost, or Unknown."""
        return server in self.lost or isinstance(self.inventories.get(server), Unknown)

    def may_have_served(self, shard: int, server: int) -> bool:
        """Returns whether a server may have served a shard, as it is recorded: it has a part in the shard's lead, or is
        a secondary of a shard without a lead, whose primary it may have become since."""
        cell = self.recorded(shard, server)
        if cell == SECONDARY:
            return all(self.recorded(shard, it) in (ABSENT, SECONDARY) for it in self.servers)
        return cell != ABSENT

    def may_have_served_any(self, server: int) -> bool:
        """Returns whether a server may have served any shard: a replaced reopening sent it a settle, or no server is
        recorded."""
        return server in self.already_settled or self.recorded_servers == 0

    def may_have_order(self, shard: int, server: int) -> bool:
        """Returns whether a server may have had an order for a shard: both are recorded."""
        return self.record is not None and shard < len(self.record.cells) and server < len(self.record.document.rooms)

    def may_be_first(self, shard: int, server: int) -> bool:
        """Returns whether a server that has its slots no more may have become the first primary of a shard: nobody is
        recorded with a part in its lead, and an order or a settle may have made the server so, or nothing is recorded."""
        if not self.has_no_slots(server) or any(self.recorded(shard, it) not in (ABSENT, SECONDARY) for it in self.servers):
            return False
        return self.may_have_served_any(server) or self.may_have_order(shard, server)

    def has_gone(self, shard: int, server: int) -> bool:
        """Returns whether a server that may have served a shard is lost or Unknown, or tells nothing of it."""
        has_served = self.may_have_served(shard, server) and self.claim_of(shard, server) == 0
        if has_served or self.may_be_first(shard, server):
            return True
        return self.has_no_slots(server) and self.may_have_served_any(server)

    def has_lost_settled(self) -> bool:
        """Returns whether a server to which a replaced reopening sent a settle has its slots no more."""
        return any(self.has_no_slots(it) for it in self.already_settled)

    def is_primary_still(self, shard: int, server: int) -> bool:
        """Returns whether a server is the shard's primary, and no other one can have followed it. One that has its
        slots no more may have, by a settle of a replaced reopening, unless this one was sent a settle too."""
        is_alone = server in self.already_settled or not self.has_lost_settled()
        return self.claim_of(shard, server) > 3 and is_alone

    def tells_whole(self, shard: int, server: int) -> bool:
        """Returns whether a server has told a whole copy of a shard: of another one it tells view 0 and position 0."""
        slot = self.told(shard, server)
        return slot is not None and claim(slot.cell, slot.has_reached_cut) >= 2 and (slot.view, slot.position) > (0, 0)

    def gone_members(self, shard: int) -> int:
        """Returns how many servers are recorded with something of a shard, and have told no whole copy of it."""
        members = (it for it in self.servers if self.recorded(shard, it) != ABSENT)
        return sum(not self.tells_whole(shard, it) for it in members)

    def may_lack_copies(self, shard: int) -> bool:
        """Returns whether an acknowledged write of a shard may be at none of those that are left: as many as surely had
        it are gone, or nobody has told a whole copy; or one that may have served is gone, and has answered, since others
        may have got writes after they told."""
        kept = self.kept[shard] if shard < len(self.kept) else 1
        is_untold = not any(self.tells_whole(shard, it) for it in self.servers)
        has_answered = any(self.has_gone(shard, it) and it in self.inventories for it in self.servers)
        return kept < 2 or kept <= self.gone_members(shard) or is_untold or has_answered

    def is_named_lost(self, shard: int) -> bool:
        """Returns whether the proposal names a shard as lost: no server is left that has all of it; or it has no
        primary that surely is still one, one that may have served it is gone, and with it may be all copies of a write."""
        if self.is_bare(None, shard, None):
            return True
        best = max((self.claim_of(shard, it) for it in self.servers), default=0)
        is_served = any(self.is_primary_still(shard, it) for it in self.servers)
        has_gone = any(self.has_gone(shard, it) for it in self.servers)
        return best >= 2 and not is_served and has_gone and self.may_lack_copies(shard)

    # What may be settled.

    def is_stranger(self, server: int) -> bool:
        """Returns whether a server is not recorded, and was sent no settle by a replaced reopening: what it has is from
        before it was given up, or of another service."""
        return 0 < self.recorded_servers <= server and server not in self.already_settled

    def has_to_be_empty(self, server: int) -> bool:
        """Returns whether a server may have nothing: the document leaves it out, or it is a stranger."""
        return server not in self.document.servers or self.is_stranger(server)

    def fault_of(self, cells: Cells) -> Refused | None:
        """The model's own test, which `fault` has in other words."""
        return None

    def fault(self, cells: Cells) -> Json | None:
        """Returns why cells may not be settled: of the placement, of the log, or of the first shard and server."""
        return next((it for part in (self.of_placement(cells), self.of_shards(cells)) for it in part), None)

    def of_placement(self, cells: Cells) -> Iterator[Json]:
        """Yields what is wrong with cells by themselves."""
        for shard, row in enumerate(cells):
            if sum(it == PRIMARY for it in row) > 1:
                yield words.reported(f"placement refused: 5 BadLead shard {self.numbering.shards[shard]}")
        for server in sorted(self.document.servers):
            load = sum(load for load, row in zip(self.document.loads, cells) if row[server] != ABSENT)
            if load > self.document.rooms[server]:
                yield words.reported(f"placement refused: 7 OverRoom server {self.numbering.servers[server]}")
        down = self.document.down | (self.document.servers & set(self.record.permits if self.record else ()))
        if len(down) > self.document.log:
            yield words.reported("log refused: 2 LogFull")

    def of_shards(self, cells: Cells) -> Iterator[Json]:
        """Yields what is wrong with each cell."""
        for shard, name in enumerate(self.numbering.shards):
            for server in self.servers:
                kind = self.of_cell(shard, server, cells[shard])
                if kind == "NoPrimary":
                    yield words.own(kind, shard=name)
                elif kind:
                    yield words.own(kind, shard=name, server=self.numbering.servers[server])
        for server, names in sorted(self.strays.items()):
            for name in names:
                yield words.own("StillThere", shard=name, server=self.numbering.servers[server])

    def is_kept(self, shard: int, told: Cell, settled: Cell) -> bool:
        """Returns whether a server that told a cell may be settled with another one. A secondary becomes the primary
        of a shard only if that has a lead."""
        is_chosen = told == SECONDARY and settled == PRIMARY
        return keeps(told, settled) and (not is_chosen or self.has_lead(shard))

    def of_cell(self, shard: int, server: int, row: tuple[Cell, ...]) -> str | None:
        """Returns what is wrong with a cell, in one word."""
        if self.is_silent(server) and row[server] != self.recorded(shard, server):
            return "CarriedOver"
        best = max(self.standing(shard, it) for it in self.servers)
        if row[server] == PRIMARY and self.standing(shard, server) < best:
            return "LowerChoice"
        slot = self.told(shard, server)
        if slot is None:
            return None
        if self.has_to_be_empty(server) and slot.cell != ABSENT:
            return "StillThere"
        if not self.is_kept(shard, slot.cell, row[server]):
            return "Primary" if slot.cell == PRIMARY else "Moved"
        return "NoPrimary" if slot.cell.kind in HANDED and primary_of(row) is None else None
