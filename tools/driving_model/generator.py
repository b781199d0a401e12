"""Random documents, and random plans over the placement as it stands."""
from __future__ import annotations

import random
from dataclasses import replace

from .cells import ABSENT, Cell, GONE, Kind, Lead, PRIMARY, SECONDARY, Stage
from .commands import Begin, Document
from .controller import Controller
from .decisions import opening_fault
from .messages import LONGEST_LOG
from .plans import (
    CellRight, Crown, CrownRight, Hold, Instruction, Plan, RoomRight, SpareRight, Stream,
    add, change, drop, handover, prepare_add, publish, signal, unlist, wait,
)


def random_document(dice: random.Random) -> Document:
    """Three or four servers and up to three shards, each with a primary."""
    width, height = dice.choice([3, 3, 4, 4]), dice.choice([1, 1, 2, 2, 3])
    loads = tuple(dice.choice([2, 3, 4]) for _ in range(height))
    rooms = tuple(dice.choice([7, 9, 12]) for _ in range(width))
    wants = [dice.choice([1, 2, 2]) for _ in range(height)]
    caps = tuple(min(want, dice.choice([0, 1, 1])) for want in wants)
    cells, used = [], [0] * width
    for shard, load in enumerate(loads):
        servers = [it for it in range(width) if used[it] + load <= rooms[it]]
        dice.shuffle(servers)
        row = [ABSENT] * width
        for place, server in enumerate(servers[:wants[shard]]):
            row[server] = SECONDARY if place else PRIMARY
            used[server] += load
        wants[shard] = max(caps[shard], min(wants[shard], len(servers)))
        cells.append(tuple(row))
    log = dice.choice([9, 14, 30, LONGEST_LOG, LONGEST_LOG, LONGEST_LOG])
    servers = frozenset(range(width))
    limit = dice.choice([1, 1, 2])
    document = Document(servers, rooms, loads, tuple(wants), caps, limit, tuple(cells), log=log)
    down = replace(document, down=frozenset({dice.randrange(width)}))
    return down if dice.random() < 0.15 and opening_fault(down) is None else document


class PlanMaker:
    """Makes plans: handovers (there and back, given up, over two streams), secondaries moved, roles changed."""

    def __init__(self, controller: Controller, dice: random.Random, only_handovers: bool) -> None:
        self.record, self.dice, self.only_handovers = controller.record, dice, only_handovers
        self.held = self.record.held()
        self.servers = [it for it in sorted(self.record.document.servers) if it not in self.record.permits]
        self.streams: list[Stream] = []
        self.signals: list[Hold] = []

    def make(self, name: str) -> Begin | None:
        """A plan for one shard or two whose crowns nobody holds."""
        shards = [it for it in self.record.shards if CrownRight(it) not in self.held]
        self.dice.shuffle(shards)
        for shard in shards[:self.dice.choice([1, 1, 2])]:
            if self.add_streams(shard, shards):
                break
        self.dice.shuffle(self.streams)
        return Begin(name, Plan(tuple(self.streams), tuple(self.signals))) if self.streams else None

    def free(self, shard: int, cell: Cell) -> list[int]:
        """The servers that have this cell, the right to which is free."""
        row = self.record.cells[shard]
        return [it for it in self.servers if row[it] == cell and CellRight(shard, it) not in self.held]

    def add(self, declares: Hold, code: tuple[Instruction, ...]) -> None:
        """Adds a stream."""
        self.streams.append(Stream(declares, code))

    def add_streams(self, shard: int, shards: list[int]) -> bool:
        """Adds what is to be done to a shard. Returns whether the plan is to have no more."""
        lead = self.record.lead(shard)
        absent, secondaries = self.free(shard, ABSENT), self.free(shard, SECONDARY)
        crown: Hold = {CrownRight(shard): self.record.crown(shard)}
        if lead == GONE:
            self.put_primary(shard, crown, absent, secondaries)
            return False
        kinds = ["hand", "there"] if self.only_handovers else (
            ["hand", "hand", "there", "second", "cancel", "swap", "crown", "crown", "room", "remove"]
        )
        kind, owner = self.dice.choice(kinds), lead.owner
        if kind == "second" and absent:
            self.move_secondary(shard, absent[0], secondaries)
        elif kind == "remove" and self.record.free_spare(shard, self.held) > 0:
            self.add(crown | {SpareRight(shard): 1}, (unlist(shard), drop(shard, owner)))
        elif kind == "swap" and secondaries:
            self.swap(shard, owner, secondaries[0], crown)
        elif absent:
            return self.add_handover(kind, shard, owner, self.dice.choice(absent), crown, shards)
        return False

    def put_primary(self, shard: int, crown: Hold, absent: list[int], secondaries: list[int]) -> None:
        """A shard without a primary gets one: a secondary, or a new one."""
        if secondaries:
            code = (change(shard, secondaries[0], Kind.PRIMARY), publish(shard))
            self.add(crown | {CellRight(shard, secondaries[0]): SECONDARY}, code)
        elif absent:
            rights: Hold = {CellRight(shard, absent[0]): ABSENT, RoomRight(absent[0]): self.load(shard)}
            self.add(crown | rights, (add(shard, absent[0], Kind.PRIMARY), publish(shard)))

    def move_secondary(self, shard: int, server: int, secondaries: list[int]) -> None:
        """A secondary is added, and one is dropped if there is one."""
        declares: Hold = {CellRight(shard, server): ABSENT, RoomRight(server): self.load(shard)}
        code: tuple[Instruction, ...] = (add(shard, server, Kind.SECONDARY),)
        if secondaries:
            declares[CellRight(shard, secondaries[0])] = SECONDARY
            code += (drop(shard, secondaries[0]),)
        self.add(declares, code)

    def swap(self, shard: int, owner: int, secondary: int, crown: Hold) -> None:
        """The primary and a secondary change their roles."""
        changes = (change(shard, owner, Kind.SECONDARY), change(shard, secondary, Kind.PRIMARY))
        self.add(crown | {CellRight(shard, secondary): SECONDARY}, (unlist(shard), *changes, publish(shard)))

    def load(self, shard: int) -> int:
        """The load of one of the shard's replicas."""
        return self.record.document.loads[shard]

    def add_handover(self, kind: str, shard: int, owner: int, new: int, crown: Hold, shards: list[int]) -> bool:
        """A handover of one of several kinds."""
        is_listed = self.record.listed[shard] is not None
        declares = crown | {CellRight(shard, new): ABSENT, RoomRight(new): self.load(shard)}
        code = handover(shard, owner, new, is_listed)
        if kind == "room" and self.pay_by_signal(shard, new, declares, code, shards):
            return True
        if kind == "crown":
            number = len(self.signals)
            lead = Lead(Stage.HANDING, owner, new)
            self.signals.append({CrownRight(shard): Crown(lead, self.record.listed[shard])})
            self.add(declares, code[:2] + (signal(number),))
            self.add({}, (wait(number),) + code[2:])
            return False
        if kind == "there":
            code += handover(shard, new, owner, is_listed)
        elif kind == "cancel":
            code = (prepare_add(shard, new, owner), drop(shard, new)) + (code if self.dice.random() < 0.5 else ())
        self.add(declares, code)
        return False

    def pay_by_signal(
        self, shard: int, new: int, declares: Hold, code: tuple[Instruction, ...], shards: list[int]
    ) -> bool:
        """The room of the new owner comes from a secondary of another shard that moves away, by a signal."""
        choices = [
            (other, target) for other in shards if other != shard and self.load(other) >= self.load(shard)
            and new in self.free(other, SECONDARY) for target in self.free(other, ABSENT) if target != new
        ]
        if not choices:
            return False
        other, target = self.dice.choice(choices)
        number = len(self.signals)
        self.signals.append({RoomRight(new): self.load(shard)})
        waiting = {key: value for key, value in declares.items() if key != RoomRight(new)}
        self.add(waiting, (wait(number),) + code)
        leaving: Hold = {
            CellRight(other, target): ABSENT, CellRight(other, new): SECONDARY, RoomRight(target): self.load(other),
        }
        self.add(leaving, (add(other, target, Kind.SECONDARY), drop(other, new), signal(number)))
        return True
