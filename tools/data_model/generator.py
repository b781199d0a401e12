"""Random documents with numbers of copies, and random plans as in `driving_model`."""
from __future__ import annotations

import random
from dataclasses import fields, replace

from driving_model import commands as driving
from driving_model import generator
from driving_model.cells import ABSENT, PRIMARY, SECONDARY
from driving_model.decisions import opening_fault
from driving_model.messages import LONGEST_LOG
from driving_model.plans import CellRight, Hold

from .commands import Document


def random_document(
    dice: random.Random, least_copies: int = 1, most_shards: int = 3, is_small: bool = False
) -> Document:
    """Three to five servers and up to three shards, each with a primary. Some shard asks for so many copies at least."""
    width, height = dice.choice([3, 3, 4, 4, 5]), min(most_shards, dice.choice([1, 1, 2, 2, 3]))
    loads = tuple(dice.choice([2, 3, 4]) for _ in range(height))
    rooms = tuple(dice.choice([7, 9, 12]) for _ in range(width))
    wants = [dice.choice([1, 2, 2, 3, 3, 4]) for _ in range(height)]
    caps = tuple(min(want, dice.choice([0, 1, 1])) for want in wants)
    cells = random_cells(dice, loads, rooms, wants)
    wants = [max(cap, sum(it != ABSENT for it in row)) for cap, row in zip(caps, cells)]
    copies = tuple(dice.choice([None, None, min(2, want), max(1, want)]) for want in wants)
    if is_small:
        copies = tuple(dice.choice([None, 2, 2, 3]) for _ in wants)
    log = dice.choice([9, 14, 30, LONGEST_LOG, LONGEST_LOG, LONGEST_LOG])
    document = Document(
        frozenset(range(width)), rooms, loads, tuple(wants), caps, dice.choice([1, 1, 2]), cells, log=log, copies=copies
    )
    if max(most_wanted(document, it, is_small) for it in range(height)) < least_copies:
        return random_document(dice, least_copies, most_shards, is_small)
    down = replace(document, down=frozenset({dice.randrange(width)}))
    return down if dice.random() < 0.15 and opening_fault(plain(down)) is None else document


def most_wanted(document: Document, shard: int, is_small: bool) -> int:
    """How many copies are asked for; in the small form how many may be, while all replicas are there."""
    return document.floor(shard) if is_small else document.wanted(shard)


def random_cells(
    dice: random.Random, loads: tuple[int, ...], rooms: tuple[int, ...], wants: list[int]
) -> driving.Cells:
    """Each shard's primary and as many secondaries as find room."""
    cells, used = [], [0] * len(rooms)
    for load, want in zip(loads, wants):
        servers = [it for it in range(len(rooms)) if used[it] + load <= rooms[it]]
        dice.shuffle(servers)
        row = [ABSENT] * len(rooms)
        for place, server in enumerate(servers[:want]):
            row[server] = SECONDARY if place else PRIMARY
            used[server] += load
        cells.append(tuple(row))
    return tuple(cells)


def plain(document: Document) -> driving.Document:
    """A document without numbers of copies."""
    return driving.Document(*(getattr(document, it.name) for it in fields(driving.Document)))


class PlanMaker(generator.PlanMaker):
    """Makes plans, in which nobody is added as a primary beside a replica."""

    def put_primary(self, shard: int, crown: Hold, absent: list[int], secondaries: list[int]) -> None:
        """A shard without a primary gets one: a secondary, or a new one if nobody has a replica, nor a plan brings
        one."""
        is_held = any(isinstance(it, CellRight) and it.shard == shard for it in self.held)
        if secondaries or (not is_held and not self.record.replicas(shard)):
            super().put_primary(shard, crown, absent, secondaries)
