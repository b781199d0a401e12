"""A reopening under way: what servers have answered, what may be confirmed, and who has settled."""
from __future__ import annotations

from dataclasses import dataclass, field

from .cells import ABSENT, Cell, Kind, PRIMARY, SECONDARY
from .commands import Cells, Document
from .messages import BASE_STEP, Found, Inventory, MAP, Message, Settle, SettleMap, SlotFound, SlotTold, Unknown
from .record import Record, primary_of
from .replies import Proposal, Refused
from .rules import Rules

# How a survivor ranks for a shard that has no primary, and then by its position.
FULL, COPY, PART, NOBODY = 3, 2, 1, -1


@dataclass(slots=True)
class Survey:
    """What is known of a shard's cells: of servers that answered, of those carried over, and of the document. The shard
    is led if it has a primary or is in a handover by any of them, or by the record."""

    row: list[Cell]
    standing: list[tuple[int, int]]
    sure: set[int] = field(default_factory=set)
    silent: set[int] = field(default_factory=set)
    is_led: bool = False

    def primary(self) -> int | None:
        """The server that has told, or is recorded, as primary."""
        firm = (it for it, cell in enumerate(self.row) if cell.kind is Kind.PRIMARY)
        return next((it for it in firm if it in self.sure or it in self.silent), None)

    def parties(self) -> list[int]:
        """The survivors of a handover."""
        return [it for it, cell in enumerate(self.row) if cell.is_in_handover and it in self.sure]

    def secondaries(self) -> list[int]:
        """The survivors that are secondaries."""
        return [it for it, cell in enumerate(self.row) if cell.kind is Kind.SECONDARY and it in self.sure]

    def best(self) -> tuple[int, int]:
        """The greatest standing of a survivor."""
        return max((self.standing[it] for it in self.sure), default=(NOBODY, NOBODY))


@dataclass(slots=True)
class Reopening:
    """One reopening, from its fences to the last answer to a settle."""

    epoch: int
    journal: int
    document: Document
    lost: frozenset[int]
    record: Record | None
    already_settled: frozenset[int]
    named_before: frozenset[int]
    rules: Rules
    inventories: dict[int, Found] = field(default_factory=dict)
    settles: tuple[Message, ...] = ()
    settled: set[int] = field(default_factory=set)
    carried: tuple[int, ...] = ()
    cells: Cells = ()

    @property
    def base(self) -> int:
        """The base of the epoch that it opens."""
        return self.epoch * BASE_STEP

    @property
    def targets(self) -> frozenset[int]:
        """Who is fenced: each server of the record, of the document and of those that were replaced which is not lost,
        and the map's owner."""
        recorded = self.record.document.servers if self.record else frozenset()
        return ((recorded | self.document.servers | self.named_before) - self.lost) | {MAP}

    @property
    def missing(self) -> list[int]:
        """Who has not answered the fence."""
        return sorted(self.targets - set(self.inventories))

    def may_be_carried(self, server: int) -> bool:
        """The silent server may be carried over: recorded down, and sent a settle by no replaced reopening."""
        if self.record is None or server not in self.record.permits or server not in self.document.servers:
            return False
        was_settled = self.rules.carried_unsettled and server in self.already_settled
        return server in self.record.document.servers and not was_settled

    def waits_for(self) -> list[int]:
        """Who has to answer the fence before anything can be confirmed: who may not be carried over, or else who would
        be a shard's primary and is not recorded so."""
        silent = [it for it in self.missing if not self.may_be_carried(it)]
        if silent or not self.missing or self.record is None:
            return silent
        successors = {it: self.successor(self.survey(it), 0) for it in range(len(self.document.loads))}
        return sorted({
            successor for shard, successor in successors.items()
            if successor in self.missing and self.record.cells[shard][successor] != PRIMARY
        })

    def standing_of(self, found: SlotFound) -> tuple[int, int]:
        """The rank of a survivor's copy, and its position."""
        kind = found.cell.kind
        if not self.rules.survivor_rank:
            return 0, found.position
        if kind is Kind.FORWARDING or (kind is Kind.PREPARED and found.has_reached_cut):
            return FULL, found.position
        return (COPY if kind is Kind.SECONDARY else PART), found.position

    def survey(self, shard: int) -> Survey:
        """Gathers what is known of a shard."""
        width = len(self.document.rooms)
        survey = Survey([ABSENT] * width, [(NOBODY, NOBODY)] * width)
        for server in sorted(self.targets - {MAP}):
            found = self.inventories.get(server)
            if found is None:
                self.add_silent(survey, shard, server)
            elif isinstance(found, Unknown):
                survey.row[server] = self.document.cells[shard][server]
            else:
                slot = found.slots[shard]
                survey.row[server] = slot.cell
                survey.standing[server] = self.standing_of(slot)
                survey.sure |= {server} if slot.cell != ABSENT else set()
        recorded = self.record.cells[shard] if self.record else ()
        known = (*survey.row, *recorded, *self.document.cells[shard])
        survey.is_led = any(it not in (ABSENT, SECONDARY) for it in known)
        return survey

    def add_silent(self, survey: Survey, shard: int, server: int) -> None:
        """Adds a server that has not answered, as it is recorded."""
        cell = self.record.cells[shard][server] if self.record else ABSENT
        survey.row[server] = cell
        survey.silent.add(server)
        if self.rules.carried_copy and cell != ABSENT:
            survey.sure.add(server)
            if cell.kind is Kind.SECONDARY:
                survey.standing[server] = (COPY, NOBODY)

    def successor(self, survey: Survey, choice: int) -> int | None:
        """The server that is to be the shard's primary."""
        primary = survey.primary()
        if primary is not None:
            return primary
        parties, secondaries = survey.parties(), survey.secondaries()
        if parties and not self.rules.survivor_position:
            return parties[choice % len(parties)]
        if parties:
            best = max(survey.standing[it] for it in parties + secondaries)
            return next(it for it in parties + secondaries if survey.standing[it] == best)
        documented = primary_of(survey.row)
        if secondaries and survey.is_led and (documented is None or self.rules.survivor_position):
            return max(secondaries, key=lambda it: survey.standing[it])
        return documented

    def settled_row(self, survey: Survey, successor: int | None) -> tuple[Cell, ...]:
        """The cells of a shard if it goes to this successor: parties of handovers that are not the successor lose it."""
        row = [SECONDARY if cell in (SECONDARY, PRIMARY) else ABSENT for cell in survey.row]
        if successor is not None:
            row[successor] = PRIMARY
        return tuple(cell if it in self.document.servers else ABSENT for it, cell in enumerate(row))

    def propose(self, choice: int = 0) -> Proposal:
        """What may be confirmed. `choice` picks among parties if their positions are not compared."""
        cells, lost = [], []
        for shard in range(len(self.document.loads)):
            survey = self.survey(shard)
            successor = self.successor(survey, choice)
            cells.append(self.settled_row(survey, successor))
            part = successor is not None and self.rules.survivor_rank and survey.standing[successor][0] == PART
            part = part and survey.row[successor].kind is Kind.PREPARED
            if self.is_bare(survey, shard, successor) or part or self.is_perhaps_lost(survey, shard):
                lost.append(shard)
        return Proposal(self.base, tuple(cells), tuple(lost), self.short_floors(cells), tuple(self.missing))

    def is_bare(self, survey: Survey, shard: int, successor: int | None) -> bool:
        """The shard had a replica, and gets no primary, or one that has it by the document alone."""
        if successor is None:
            return any(it != ABSENT for it in (self.record.cells if self.record else self.document.cells)[shard])
        return successor not in survey.sure and successor not in survey.silent

    def may_have_served(self, shard: int) -> set[int]:
        """Who is recorded so that it may have served a shard: who has a part in its lead, or, if nobody has, its
        secondaries, which may have become its primary since."""
        row = self.record.cells[shard] if self.record else ()
        led = {it for it, cell in enumerate(row) if cell not in (ABSENT, SECONDARY)}
        return led or {it for it, cell in enumerate(row) if cell == SECONDARY}

    def is_perhaps_lost(self, survey: Survey, shard: int) -> bool:
        """The shard has survivors and no primary, and a server that may have served it is lost or Unknown, or tells
        nothing of it: that one may have acknowledged writes alone. So may one to which a replaced reopening has sent a
        settle, and each server if nothing is recorded."""
        if survey.primary() is not None or not survey.sure:
            return False
        blank = {it for it, found in self.inventories.items() if isinstance(found, Unknown)} | self.lost
        any_shard = self.already_settled if self.record else blank
        served = self.may_have_served(shard)
        return bool(blank & any_shard or (served & (self.lost | set(self.inventories))) - survey.sure)

    def short_floors(self, cells: list[tuple[Cell, ...]]) -> tuple[tuple[int, int], ...]:
        """The shards with fewer live replicas than the document's floor."""
        down = set(self.record.permits if self.record else ()) | self.document.down
        live = [sum(cell != ABSENT for it, cell in enumerate(row) if it not in down) for row in cells]
        return tuple((shard, count) for shard, count in enumerate(live) if count < self.document.floor(shard))

    def fault_of(self, cells: Cells) -> Refused | None:
        """Why these cells may not be confirmed."""
        for shard, row in enumerate(cells):
            fault = self.fault_of_row(shard, row)
            if fault:
                return fault
        for server in sorted(self.document.servers):
            load = sum(load for load, row in zip(self.document.loads, cells) if row[server] != ABSENT)
            if load > self.document.rooms[server]:
                return Refused("OverRoom", server=server)
        down = self.document.down | (self.document.servers & set(self.record.permits if self.record else ()))
        return Refused("LogFull") if len(down) > self.document.log else None

    def fault_of_row(self, shard: int, row: tuple[Cell, ...]) -> Refused | None:
        """Why these cells of a shard may not be confirmed."""
        if sum(it == PRIMARY for it in row) > 1 or any(it.is_in_handover for it in row):
            return Refused("BadLead", shard=shard)
        survey = self.survey(shard)
        told = next((it for it, cell in enumerate(survey.row) if cell == PRIMARY and it in survey.sure), None)
        if self.rules.primary_stays and told is not None and row[told] != PRIMARY:
            return Refused("Primary", shard=shard, server=told)
        successor = primary_of(row)
        if self.rules.survivor_position and told is None and successor is not None and self.is_lower(survey, successor):
            return Refused("LowerChoice", shard=shard, server=successor)
        for server in self.missing:
            if self.record is None or row[server] != self.record.cells[shard][server]:
                return Refused("CarriedOver", shard=shard, server=server)
        return self.fault_of_strangers(shard, row, survey)

    def fault_of_strangers(self, shard: int, row: tuple[Cell, ...], survey: Survey) -> Refused | None:
        """A server that the document leaves out would get a cell, or has one."""
        for server in sorted(set(range(len(row))) - self.document.servers):
            if row[server] != ABSENT:
                return Refused("UnknownServer", shard=shard, server=server)
            if server in survey.sure and self.rules.leaver_is_empty:
                return Refused("StillThere", shard=shard, server=server)
        return None

    def is_lower(self, survey: Survey, successor: int) -> bool:
        """Another survivor ranks above the successor, or is as good and a party of the handover, which the successor is not."""
        best = survey.best()
        if best >= (0, 0) and survey.standing[successor] < best:
            return True
        parties = (it for it in survey.parties() if survey.standing[it] == best)
        return not survey.row[successor].is_in_handover and any(parties)

    def settle(self, cells: Cells) -> None:
        """Confirms the cells: everyone who answered the fence is sent what it has from now on."""
        self.carried, self.cells = tuple(self.missing), cells
        loads = self.document.loads
        settles: list[Message] = []
        for server, found in sorted(self.inventories.items()):
            if server == MAP:
                settles.append(SettleMap(self.base, self.journal, tuple(primary_of(row) for row in cells)))
                continue
            nonce = found.nonce if isinstance(found, Unknown) and self.rules.settle_nonce else None
            slots = tuple(SlotTold(row[server], load) for row, load in zip(cells, loads))
            settles.append(Settle(server, self.base, self.journal, slots, nonce, self.given_up(found, slots)))
        self.settles = tuple(settles)
        assert isinstance(self.inventories[MAP], Inventory)

    def given_up(self, found: Found, slots: tuple[SlotTold, ...]) -> frozenset[int]:
        """The shards of which a server has told that it has something, and of which it has nothing from now on."""
        told = found.slots if isinstance(found, Inventory) else ()
        pairs = enumerate(zip(told, slots))
        return frozenset(it for it, (old, new) in pairs if old.cell != ABSENT and new.cell == ABSENT)

    @property
    def unsettled(self) -> list[int]:
        """Who has not answered its settle."""
        return sorted(set(self.inventories) - self.settled)
