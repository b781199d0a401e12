"""A reopening over data: whose copy is the greatest, what may be lost, and how many copies are asked for from then
on."""
from __future__ import annotations

from dataclasses import dataclass, field, fields

from driving_model import reopening as driving
from driving_model.cells import ABSENT, Cell, Kind, PRIMARY, SECONDARY
from driving_model.commands import Cells
from driving_model.messages import Found, Inventory, MAP, Settle, SettleMap
from driving_model.record import primary_of
from driving_model.replies import Proposal, Refused

from .commands import Document
from .copies import NONE, Told
from .messages import SlotFound, SlotTold, Terms, Unknown
from .record import Record, wanted_of
from .rules import Rules


@dataclass(slots=True)
class Survey:
    """What is known of a shard: cells of servers that answered, of those carried over, and of the document; copies that
    were told, whole or in doubt. `members` may have acknowledged writes; those of them that are `gone` are lost, or
    tell no whole copy. The shard is led if it has a primary or is in a handover by any of them, or by the record."""

    row: list[Cell]
    sure: set[int] = field(default_factory=set)
    silent: set[int] = field(default_factory=set)
    copies: dict[int, Told] = field(default_factory=dict)
    doubted: dict[int, Told] = field(default_factory=dict)
    members: set[int] = field(default_factory=set)
    gone: set[int] = field(default_factory=set)
    is_led: bool = False
    shard: int = 0

    def primary(self) -> int | None:
        """The server that has told, or is recorded, as primary."""
        firm = (it for it, cell in enumerate(self.row) if cell.kind is Kind.PRIMARY)
        return next((it for it in firm if it in self.sure or it in self.silent), None)


@dataclass(frozen=True, slots=True)
class Replaced:
    """What a replaced reopening has settled: cells, numbers of copies, and by shard who was gone."""

    cells: Cells
    copies: tuple[int, ...]
    gone: tuple[frozenset[int], ...]


@dataclass(slots=True)
class Reopening(driving.Reopening):
    """One reopening, from its fences to the last answer to a settle. `ordered` were sent orders that bring a replica;
    `idle` had stopped to serve a shard before its fences were sent; `perhaps` are the shards that were named as
    lost."""

    document: Document
    record: Record | None
    rules: Rules
    ordered: frozenset[tuple[int, int]] = frozenset()
    replaced: tuple[Replaced, ...] = ()
    idle: tuple[frozenset[int], ...] = ()
    copies: tuple[int, ...] = ()
    wanted: tuple[int, ...] = ()
    perhaps: frozenset[int] = frozenset()

    @classmethod
    def over(
        cls, reopening: driving.Reopening, ordered: frozenset[tuple[int, int]], replaced: tuple[Replaced, ...],
        idle: tuple[frozenset[int], ...],
    ) -> Reopening:
        """A reopening that compares copies."""
        members = {it.name: getattr(reopening, it.name) for it in fields(driving.Reopening)}
        return cls(**members, ordered=ordered, replaced=replaced, idle=idle)

    def as_replaced(self) -> Replaced:
        """What stays of it when another one replaces it."""
        return Replaced(self.cells, self.copies, tuple(map(self.gone, self.shards)))

    @property
    def shards(self) -> range:
        """The shards, by their numbers."""
        return range(len(self.document.loads))

    def is_above(self, found: Found) -> bool:
        """Some copy that is told, whole or in doubt, is of a view at or above this reopening."""
        if isinstance(found, Inventory):
            told = [copy for it in found.slots for copy in (it.copy, it.doubted)]
        else:
            told = [] if self.rules.is_small else [*found.copies, *found.doubted]
        return any(it is not None and it.view >= self.base for it in told)

    # Who may have acknowledged writes.

    def least(self, shard: int) -> int:
        """How many copies each acknowledged write of a shard has, or had, at least."""
        if self.record is None:
            return 1
        before = [it.copies[shard] for it in self.replaced] if self.rules.replaced_counted else []
        return min([self.record.copies[shard], *before])

    def recorded(self, shard: int) -> list[Cell]:
        """The cells of a shard as they are recorded."""
        return list(self.record.cells[shard]) if self.record else [ABSENT] * len(self.document.rooms)

    def firm(self, shard: int) -> set[int]:
        """The members that count as gone even if they tell that they have nothing: those that are recorded with
        something of the shard, and, in the full form, those that were gone when a replaced reopening was confirmed."""
        is_asked = self.rules.replaced_counted and not self.rules.is_small
        before = [it.gone[shard] for it in self.replaced] if is_asked else []
        return {it for it, cell in enumerate(self.recorded(shard)) if cell != ABSENT}.union(*before)

    def members_of(self, shard: int) -> set[int]:
        """Who may have acknowledged writes of a shard: whoever is recorded with something of it, was sent an order that
        brings it, or was settled with it by a reopening that was replaced. Without a record all."""
        if self.record is None:
            return set((self.targets | self.lost) - {MAP})
        rows = [self.recorded(shard)]
        rows += [it.cells[shard] for it in self.replaced] if self.rules.replaced_counted else []
        members = {it for row in rows for it, cell in enumerate(row) if cell != ABSENT}
        if self.rules.ordered_counted:
            members |= {server for its, server in self.ordered if its == shard}
        return members

    def gone(self, shard: int) -> frozenset[int]:
        """The members that are lost, or tell no whole copy."""
        return frozenset(self.survey(shard).gone)

    # What is known.

    def survey(self, shard: int) -> Survey:
        """Gathers what is known of a shard."""
        survey = Survey([ABSENT] * len(self.document.rooms), members=self.members_of(shard), shard=shard)
        for server in sorted(self.targets - {MAP}):
            found = self.inventories.get(server)
            if found is None:
                survey.row[server] = self.recorded(shard)[server]
                survey.silent.add(server)
            elif isinstance(found, Unknown):
                survey.row[server] = self.document.cells[shard][server]
                if self.rules.unknown_data_counts:
                    self.add_copies(survey, server, found.copies[shard], found.doubted[shard])
            else:
                self.add_slot(survey, shard, server, found.slots[shard])
        survey.gone = {it for it in survey.members if self.is_gone(survey, it)}
        survey.is_led = self.is_led(survey, shard)
        return survey

    def is_led(self, survey: Survey, shard: int) -> bool:
        """The shard gets a primary: it has a lead. In the small form the document's counts, as today, only where nobody
        holds a replica."""
        known = [*survey.row, *self.recorded(shard), *self.document.cells[shard]]
        if self.rules.is_small:
            held = [survey.row[it] for it in survey.sure | survey.silent]
            is_held = any(it in (PRIMARY, SECONDARY) for it in held)
            known = [*self.recorded(shard), *held, *(() if is_held else self.document.cells[shard])]
        return any(it not in (ABSENT, SECONDARY) for it in known)

    def is_gone(self, survey: Survey, server: int) -> bool:
        """The member is lost, or tells no whole copy; in the small form also if it tells nothing."""
        if self.rules.is_small and server not in self.lost:
            if server in survey.silent:
                return self.rules.silent_gone
            if isinstance(self.inventories.get(server), Unknown):
                return self.rules.unknown_gone
        return server in self.lost or (server in self.inventories and server not in survey.copies)

    def add_slot(self, survey: Survey, shard: int, server: int, slot: SlotFound) -> None:
        """Adds what a server has told of its slot."""
        survey.row[server] = slot.cell
        if slot.cell == ABSENT:
            if server not in self.firm(shard):
                survey.members.discard(server)
            return
        survey.sure.add(server)
        self.add_copies(survey, server, slot.copy, slot.doubted)

    @staticmethod
    def add_copies(survey: Survey, server: int, copy: Told | None, doubted: Told | None) -> None:
        """Adds the copy that a server has told."""
        if copy:
            survey.copies[server] = copy
        elif doubted:
            survey.doubted[server] = doubted

    def waits_for(self, lost: frozenset[int] = frozenset()) -> list[int]:
        """Who has to answer the fence before anything can be confirmed: who may not be carried over, and, for a shard
        without a primary that is not named as lost, each member as long as nobody else need have all acknowledged
        writes."""
        silent = [it for it in self.missing if not self.may_be_carried(it)]
        if silent or not self.missing:
            return silent
        return sorted(set().union(*(self.awaited(it) for it in set(self.shards) - lost)))

    def awaited(self, shard: int) -> set[int]:
        """The silent members of a shard without a primary of which one may alone have all acknowledged writes."""
        survey = self.survey(shard)
        away = survey.members & survey.silent
        is_open = self.record is not None and survey.primary() is None and self.rules.members_awaited
        return away if is_open and len(survey.gone | away) >= self.least(shard) else set()

    # Whether others may have got writes since they told.

    def may_have_served(self, shard: int) -> set[int]:
        """Who may have served the shard since the last opening."""
        if self.record is None:
            return self.members_of(shard)
        rows = [self.recorded(shard), *(it.cells[shard] for it in self.replaced)]
        led = {it for row in rows for it, cell in enumerate(row) if cell not in (ABSENT, SECONDARY)}
        return led | {server for its, server in self.ordered if its == shard}

    def asks_again(self, shard: int) -> bool:
        """A server that may have served the shard tells no copy, and nobody knows whether it served until now: another
        reopening has to ask the others again."""
        survey = self.survey(shard)
        if not self.rules.asked_after or survey.primary() is not None:
            return False
        gone = self.told_none(survey, shard)
        return bool(gone - (self.idle[shard] if self.idle else frozenset()) - self.lost)

    def idle_now(self, shard: int) -> frozenset[int]:
        """Who serves the shard no more, until another settlement is confirmed."""
        found = {it: inventory for it, inventory in self.inventories.items() if it != MAP}
        now = {
            it for it, inventory in found.items()
            if isinstance(inventory, Unknown) or inventory.slots[shard].cell != PRIMARY
        }
        return frozenset(now) | (self.idle[shard] if self.idle else frozenset())

    # Whose copy is the greatest.

    def worth(self, survey: Survey, server: int) -> tuple:
        """How good a server's copy is: a whole one is better than one in doubt, then the greater one, then a
        party's."""
        told = survey.copies.get(server)
        view, position = told or survey.doubted.get(server, NONE)
        is_party = survey.row[server].is_in_handover
        role = (3 if is_party else 2 if survey.row[server] == SECONDARY else 1,) if not self.rules.position_wins else ()
        seen = (view, position) if self.rules.views_compared else (0 if view >= 0 else -1, position)
        return (told is not None, *role, *seen, is_party)

    def successor(self, survey: Survey, choice: int = 0) -> int | None:
        """The server that is to be the shard's primary: the one that is, or who has told the greatest copy."""
        primary = survey.primary()
        if primary is not None:
            return primary
        doubted = survey.doubted if self.rules.doubt_kept else {}
        able = sorted(it for it in survey.copies or doubted if it in self.document.servers)
        if able and survey.is_led:
            best = max(self.worth(survey, it) for it in able)
            bests = [it for it in able if self.worth(survey, it) == best]
            return bests[choice % len(bests)]
        return primary_of(survey.row) if survey.is_led or not self.rules.is_small else None

    def keeps(self, survey: Survey) -> set[int]:
        """The servers from which a settlement takes no copy."""
        whole = set(survey.copies) if self.rules.copies_kept else set()
        return (whole | (set(survey.doubted) if self.rules.doubt_kept else set())) & survey.members

    def settled_row(self, survey: Survey, successor: int | None) -> tuple[Cell, ...]:
        """The cells of a shard if it goes to this successor: whoever has a copy keeps it."""
        row = [SECONDARY if cell in (SECONDARY, PRIMARY) else ABSENT for cell in survey.row]
        row = [SECONDARY if it in self.keeps(survey) else cell for it, cell in enumerate(row)]
        if successor is not None:
            row[successor] = PRIMARY
        return tuple(cell if it in self.document.servers else ABSENT for it, cell in enumerate(row))

    # What is proposed, and what may be lost.

    def propose(self, choice: int = 0) -> Proposal:
        """What may be confirmed, with the shards that may lack writes."""
        cells, lost = [], []
        for shard in self.shards:
            survey = self.survey(shard)
            successor = self.successor(survey, choice)
            cells.append(self.settled_row(survey, successor))
            if self.is_bare(survey, shard, successor) or self.is_perhaps_lost(survey, shard):
                lost.append(shard)
        return Proposal(self.base, tuple(cells), tuple(lost), self.short_floors(cells), tuple(self.missing))

    def is_perhaps_lost(self, survey: Survey, shard: int) -> bool:
        """So many of those that may have acknowledged writes are gone that all that had one may be among them. In the
        small form only if one that may have served is gone; and also if such a one has answered, since others may have
        got writes after they told."""
        if survey.primary() is not None:
            return False
        if self.rules.is_small:
            served = self.served_and_gone(survey, shard)
            if not served or (served - self.lost and self.rules.server_named):
                return bool(served)
        return self.rules.loss_named and len(survey.gone) >= self.least(shard)

    def served_and_gone(self, survey: Survey, shard: int) -> frozenset[int]:
        """Who may have served the shard, and is lost, or tells no whole copy: those that are recorded with a part in
        its lead, or if nobody is, as secondaries; and of those that are lost or Unknown also whom a replaced settlement
        may have made the primary, or an order where nobody has such a part. Without a record each that is lost or
        Unknown."""
        found = self.inventories
        blank = self.lost | {it for it in found if isinstance(found[it], Unknown)}
        if self.record is None:
            return frozenset(blank - set(survey.copies))
        recorded = self.recorded(shard)
        served = {it for it, cell in enumerate(recorded) if cell not in (ABSENT, SECONDARY)}
        made = {it for row in self.replaced for it, cell in enumerate(row.cells[shard]) if cell == PRIMARY}
        if not served:
            served = {it for it, cell in enumerate(recorded) if cell == SECONDARY}
            made |= {it for its, it in self.ordered if its == shard}
        return frozenset((served & (self.lost | set(found)) | made & blank) - set(survey.copies))

    def told_none(self, survey: Survey, shard: int) -> frozenset[int]:
        """Who may have served the shard, and has told no copy of it."""
        return frozenset(it for it in self.may_have_served(shard) if it in self.inventories and it not in survey.copies)

    def is_bare(self, survey: Survey, shard: int, successor: int | None) -> bool:
        """The shard had a replica, and no copy is left that is known, or it gets a primary by the document alone."""
        if successor is None:
            had = any(it != ABSENT for it in (self.record.cells if self.record else self.document.cells)[shard])
            is_there = survey.copies or survey.doubted or any(survey.row[it] != ABSENT for it in survey.silent)
            return had and not is_there
        return successor not in survey.copies and successor not in survey.doubted and successor != survey.primary()

    # What may be confirmed.

    def fault_of_row(self, shard: int, row: tuple[Cell, ...]) -> Refused | None:
        """Why these cells of a shard may not be confirmed."""
        if sum(it == PRIMARY for it in row) > 1 or any(it.is_in_handover for it in row):
            return Refused("BadLead", shard=shard)
        survey = self.survey(shard)
        told = next((it for it, cell in enumerate(survey.row) if cell == PRIMARY and it in survey.sure), None)
        if self.rules.primary_stays and told is not None and row[told] != PRIMARY:
            return Refused("Primary", shard=shard, server=told)
        successor = primary_of(row)
        if self.rules.is_small and successor is not None and not survey.is_led:
            return Refused("Moved", shard=shard, server=successor)
        if survey.primary() is None and successor is not None and self.is_lower(survey, successor):
            return Refused("LowerChoice", shard=shard, server=successor)
        for server in sorted(self.keeps(survey)):
            if row[server] == ABSENT and server in self.document.servers:
                return Refused("Moved", shard=shard, server=server)
        for server in self.missing:
            if row[server] != self.recorded(shard)[server]:
                return Refused("CarriedOver", shard=shard, server=server)
        return self.fault_of_strangers(shard, row, survey)

    def fault_of_strangers(self, shard: int, row: tuple[Cell, ...], survey: Survey) -> Refused | None:
        """A server that the document leaves out would get a cell, or has one."""
        for server in sorted(set(range(len(row))) - self.document.servers):
            if row[server] != ABSENT:
                return Refused("UnknownServer", shard=shard, server=server)
            if (server in survey.sure or server in self.keeps(survey)) and self.rules.leaver_is_empty:
                return Refused("StillThere", shard=shard, server=server)
        return None

    def is_lower(self, survey: Survey, successor: int) -> bool:
        """Somebody has told a better copy than the successor."""
        others = (*survey.copies, *(survey.doubted if self.rules.doubt_kept else ()))
        return any(self.worth(survey, it) > self.worth(survey, successor) for it in others)

    # How many copies are asked for, and what is settled.

    def floor_of(self, shard: int, row: tuple[Cell, ...]) -> int:
        """The shard's floor with these cells: of a shard with fewer live replicas it is as low as these are."""
        down = self.document.down.union(self.record.permits if self.record else ())
        live = sum(cell != ABSENT for it, cell in enumerate(row) if it not in down)
        return min(self.document.floor(shard), live)

    def kept_of(self, shard: int, row: tuple[Cell, ...], wanted: int) -> int:
        """In the small form: how many copies surely have each acknowledged write from now on."""
        survey = self.survey(shard)
        went = survey.members - {it for it, cell in enumerate(row) if cell != ABSENT} if self.rules.goers_lower else ()
        kept = self.least(shard) - len(went)
        return max(1, min(wanted, kept) if self.rules.kept_below_wanted else kept)

    def copies_of(self, shard: int, row: tuple[Cell, ...]) -> int:
        """How many copies an acknowledged write has from now on. A primary that stays asks for as many as before, less
        the replicas that go; a new one for as many as were told exactly at its view and position."""
        survey, wanted, successor = self.survey(shard), self.document.wanted(shard), primary_of(row)
        if successor is not None and successor == survey.primary():
            left = {it for it, cell in enumerate(row) if cell != ABSENT}
            went = survey.members - left if self.rules.copies_left else set()
            return max(1, min(wanted, self.least(shard) - len(went)))
        there = {server: it for server, it in survey.copies.items() if row[server] != ABSENT}
        best = survey.copies.get(successor) if successor is not None else max(there.values(), default=None)
        down = self.document.down.union(self.record.permits if self.record else ()) if self.rules.down_uncounted else ()
        told = [it for server, it in there.items() if server == successor or server not in down]
        if not self.rules.copies_at_successor:
            return max(1, min(wanted, len(told)))
        return max(1, min(wanted, sum(it == best for it in told)))

    def confirm(self, cells: Cells, lost: frozenset[int], chosen: tuple[int | None, ...]) -> None:
        """Confirms the cells: everyone who answered the fence is sent what it has from now on."""
        rows = list(enumerate(cells))
        self.wanted = tuple(wanted_of(self.document, it, self.floor_of(it, row), self.rules) for it, row in rows)
        if self.rules.is_small:
            self.copies = tuple(self.kept_of(it, row, self.wanted[it]) for it, row in rows)
        else:
            most = [self.copies_of(it, row) for it, row in rows]
            wishes = (chosen[it] if it < len(chosen) else None for it in self.shards)
            self.copies = tuple(min(it, wish or it) for it, wish in zip(most, wishes))
        self.perhaps = lost
        self.carried, self.cells = tuple(self.missing), cells
        settles: list[Settle | SettleMap] = []
        for server, found in sorted(self.inventories.items()):
            if server == MAP:
                settles.append(SettleMap(self.base, self.journal, tuple(primary_of(row) for row in cells)))
                continue
            nonce = found.nonce if isinstance(found, Unknown) and self.rules.settle_nonce else None
            slots = tuple(self.slot_told(shard, row, server) for shard, row in enumerate(cells))
            settles.append(Settle(server, self.base, self.journal, slots, nonce))
        self.settles = tuple(settles)

    def slot_told(self, shard: int, row: tuple[Cell, ...], server: int) -> SlotTold:
        """What a server has of a shard from now on; a primary that it was not before begins a view."""
        successor = primary_of(row)
        is_chosen = successor == server and self.survey(shard).primary() != server
        replicas = frozenset(it for it, cell in enumerate(row) if cell != ABSENT)
        copies = self.wanted if self.rules.is_small else self.copies
        terms = Terms(copies[shard], self.wanted[shard], self.base, successor, replicas)
        return SlotTold(row[server], self.document.loads[shard], terms, self.base if is_chosen else None)
