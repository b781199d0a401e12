"""A reopening as it is built: it ranks who is left by claims, views and positions, and names a shard by the number of
copies that were kept when it began."""
from __future__ import annotations

from dataclasses import dataclass
from typing import NamedTuple

from driving_model.cells import ABSENT, Cell, Kind, PRIMARY, SECONDARY
from driving_model.messages import Inventory, MAP
from driving_model.replies import Refused

from .copies import Told
from .messages import Unknown
from .reopening import Reopening, Survey

CLAIMS = {Kind.ABSENT: 0, Kind.SECONDARY: 2, Kind.FORWARDING: 3, Kind.PRIMARY: 4}
# What a server tells of a copy that is not whole.
NO_COPY = Told(0, 0)


class Standing(NamedTuple):
    """What a server has to say for itself as a shard's primary. A primary stays; then the later view counts, and then
    the longer copy, but in view 0 the claim comes first."""

    claim: int
    copy: Told

    def height(self) -> tuple:
        """Of two the greater one is above the other."""
        claim, (view, position) = self
        return min(claim, 1) + (claim > 3), view, *((claim, position) if view == 0 else (position, claim))


def claim_of(cell: Cell, has_reached_cut: bool) -> int:
    """The claim to a shard that a cell gives."""
    if cell.kind is Kind.PREPARED:
        return 3 if has_reached_cut else 1
    return CLAIMS[cell.kind]


@dataclass(slots=True)
class BuiltReopening(Reopening):
    """One reopening. `kept` are the copies that surely have each acknowledged write, by shard, as it began."""

    kept: tuple[int, ...] = ()

    # Who is there.

    def least(self, shard: int) -> int:
        """How many copies are kept of a shard."""
        return self.kept[shard] if shard < len(self.kept) else 1

    def members_of(self, shard: int) -> set[int]:
        """Who may have acknowledged writes of a shard (for the laws)."""
        if self.record is None:
            return set((self.targets | self.lost) - {MAP})
        rows = [self.recorded(shard), *(it.cells[shard] for it in self.replaced)]
        members = {it for row in rows for it, cell in enumerate(row) if cell != ABSENT}
        return members | {server for its, server in self.ordered if its == shard}

    def is_unknown(self, server: int) -> bool:
        """The server has told that it has no slots."""
        return isinstance(self.inventories.get(server), Unknown)

    def has_no_slots(self, server: int) -> bool:
        """The server has its slots no more."""
        return server in self.lost or self.is_unknown(server)

    def claim(self, shard: int, server: int) -> int:
        """The claim of a server: by what it told, or, if it is carried over, by what is recorded."""
        found = self.inventories.get(server)
        if isinstance(found, Inventory):
            return claim_of(found.slots[shard].cell, found.slots[shard].has_reached_cut)
        is_down = self.record is not None and server in self.record.permits and server in self.targets
        if found is None and is_down and server not in self.already_settled:
            return claim_of(self.recorded(shard)[server], False)
        return 0

    def standing(self, shard: int, server: int) -> Standing:
        """The standing of a server; of one that is carried over no copy is known."""
        found = self.inventories.get(server)
        told = found.slots[shard].copy if isinstance(found, Inventory) else None
        copy = told or NO_COPY
        return Standing(self.claim(shard, server), copy if self.rules.views_compared else Told(0, copy.position))

    # Who is waited for, and who gets the shard.

    def waits_for(self, lost: frozenset[int] = frozenset()) -> list[int]:
        """Who has to answer the fence before anything can be confirmed: who may not be carried over, or else who would
        be a shard's primary and is not recorded so."""
        silent = [it for it in self.missing if not self.may_be_carried(it)]
        if silent or not self.missing:
            return silent
        successors = {it: self.successor(self.survey(it)) for it in self.shards}
        return sorted({
            it for shard, it in successors.items() if it in self.missing and self.recorded(shard)[it] != PRIMARY
        })

    def successor(self, survey: Survey, choice: int = 0) -> int | None:
        """The server that is to be the shard's primary: one that nobody stands above, or if nobody has a claim one of
        the document."""
        if not survey.is_led:
            return None
        heights = {it: self.standing(survey.shard, it) for it in range(len(survey.row))}
        heights = {it: standing.height() for it, standing in heights.items() if standing.claim}
        best = [it for it, height in heights.items() if height == max(heights.values())]
        unknown = (it for it, cell in enumerate(survey.row) if cell == PRIMARY and self.is_unknown(it))
        return best[choice % len(best)] if best else next(unknown, None)

    def is_lower(self, survey: Survey, successor: int) -> bool:
        """Somebody stands above the successor."""
        own = self.standing(survey.shard, successor).height()
        return any(self.standing(survey.shard, it).height() > own for it in range(len(survey.row)))

    def fault_of_row(self, shard: int, row: tuple[Cell, ...]) -> Refused | None:
        """Why these cells of a shard may not be confirmed: beside all else a secondary stays one, or becomes primary,
        and a shard in a handover gets a primary."""
        for server, found in self.inventories.items():
            cell = found.slots[shard].cell if server != MAP and isinstance(found, Inventory) else ABSENT
            if cell == SECONDARY and row[server] not in (SECONDARY, PRIMARY) and server in self.document.servers:
                return Refused("Moved", shard=shard, server=server)
            if cell.is_in_handover and PRIMARY not in row:
                return Refused("NoPrimary", shard=shard)
        return super(BuiltReopening, self).fault_of_row(shard, row)

    # What may be lost.

    def leads(self, shard: int) -> set[int]:
        """Who is recorded as the shard's primary, or in a handover of it."""
        return {it for it, cell in enumerate(self.recorded(shard)) if cell not in (ABSENT, SECONDARY)}

    def is_primary_still(self, shard: int, server: int) -> bool:
        """The server is the shard's primary still, and nobody that a replaced reopening has settled may have been it
        since."""
        is_lost_settled = any(self.has_no_slots(it) for it in self.already_settled)
        return self.claim(shard, server) > 3 and (server in self.already_settled or not is_lost_settled)

    def may_be_first(self, shard: int, server: int) -> bool:
        """The server may have been the shard's first primary, and nobody has recorded that."""
        is_recorded = self.record is None or server in self.record.document.servers
        may_be = is_recorded or server in self.already_settled
        return may_be and self.has_no_slots(server) and not self.leads(shard)

    def has_gone(self, shard: int, server: int) -> bool:
        """A server that may have served the shard is lost or Unknown, or tells nothing of it."""
        leads = self.leads(shard)
        served = server in leads or (not leads and self.recorded(shard)[server] == SECONDARY)
        any_shard = server in self.already_settled or self.record is None
        return (
            (served and self.claim(shard, server) == 0) or (any_shard and self.has_no_slots(server))
            or self.may_be_first(shard, server)
        )

    def is_gone(self, survey: Survey, server: int) -> bool:
        """A replica is lost, has not answered, is Unknown, or tells no whole copy."""
        if server in self.lost:
            return True
        if server not in self.inventories:
            return self.rules.silent_gone
        if self.is_unknown(server):
            return self.rules.unknown_gone
        return not self.tells_whole(survey, server) and self.rules.part_gone

    @staticmethod
    def tells_whole(survey: Survey, server: int) -> bool:
        """The server has told a whole copy."""
        return survey.copies.get(server, NO_COPY) != NO_COPY

    def may_lack_copies(self, survey: Survey, gone: set[int]) -> bool:
        """An acknowledged write may be at none of those that are left: as many as surely had it are gone; nobody tells
        a whole copy; or one of those that may have served is gone, and has answered, since others may have got writes
        after they told."""
        shard, kept = survey.shard, self.least(survey.shard)
        members = {it for it, cell in enumerate(self.recorded(shard)) if cell != ABSENT}
        is_late = any(it in self.inventories for it in gone) and self.rules.server_named
        is_told = any(self.tells_whole(survey, it) for it in survey.copies)
        is_few = kept <= sum(self.is_gone(survey, it) for it in members)
        return kept < 2 or is_late or is_few or (not is_told and self.rules.part_gone)

    def is_perhaps_lost(self, survey: Survey, shard: int) -> bool:
        """No primary is left that surely still is one, and one that may have served is gone, and with it may be all
        copies of a write."""
        everyone = range(len(survey.row))
        gone = {it for it in everyone if self.has_gone(shard, it)}
        if not gone or any(self.is_primary_still(shard, it) for it in everyone):
            return False
        return self.rules.loss_named and self.may_lack_copies(survey, gone)

    def is_bare(self, survey: Survey, shard: int, successor: int | None) -> bool:
        """No server is left that has all of the shard, as far as its claim says, and one has or had something."""
        everyone = range(len(survey.row))
        if any(self.claim(shard, it) > 1 for it in everyone):
            return False
        known = zip(self.recorded(shard), self.document.cells[shard], survey.row)
        return any({*it} != {ABSENT} for it in known) or any(self.may_be_first(shard, it) for it in everyone)

    # What is kept.

    def kept_of(self, shard: int, row: tuple[Cell, ...], wanted: int) -> int:
        """How many copies surely have each acknowledged write from now on."""
        return 1 if self.rules.kept_begins_anew else self.least(shard)
