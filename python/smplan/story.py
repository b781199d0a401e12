"""What a plan does, round by round: in each round every stream that can makes its next instruction.

A plan that passes the check comes to one end, whatever the schedule is; the rounds are the schedule in which all streams are equally fast.
"""
from dataclasses import dataclass
from typing import Dict, List, Optional, Sequence, Set, Tuple

from .model import Document, Parcel, Plan, Spot
from .placement import Placement
from .rights import Walk, loads_of, walk


@dataclass(frozen=True)
class Change:
    """What becomes of one shard at one server: the state before and after, none where there is no replica."""

    shard: str
    server: str
    before: Optional[str]
    after: Optional[str]


@dataclass(frozen=True)
class Listing:
    """What becomes of a shard's entry in the published map."""

    shard: str
    before: Optional[str]
    after: Optional[str]


def rounds_of(plan: Plan) -> List[List[Spot]]:
    """Returns the instructions that are made in each round. Streams that wait for each other stop."""
    positions, posted, rounds = [0] * len(plan.streams), set(), []  # type: List[int], Set[int], List[List[Spot]]
    while True:
        spots = []
        for number, stream in enumerate(plan.streams):
            position = positions[number]
            if position < len(stream.code) and (stream.code[position].do != "wait" or stream.code[position].signal in posted):
                spots.append(Spot(number, position))
        if not spots:
            return rounds
        for spot in spots:
            positions[spot.stream] += 1
            if plan.at(spot).do == "signal":
                posted.add(plan.at(spot).signal)
        rounds.append(spots)


class Story:
    """A plan, the document that it is of, if there is one, and what the plan does in it.

    With a document, `before` and `after` are the placements at its ends, and `loads` the load of each server that the plan touches, before the first round and
    after each.
    """

    def __init__(self, plan: Plan, document: Optional[Document]) -> None:
        self.plan = plan
        self.document = document
        self.rounds = rounds_of(plan)
        self.round_of: Dict[Spot, int] = {spot: number for number, spots in enumerate(self.rounds) for spot in spots}
        loads = loads_of(document.shards) if document else {}
        self.walks: List[Walk] = [walk(plan, it, loads) for it in plan.streams]
        if document:
            self.before = Placement(document)
            self.after, self.loads = followed(plan, self.before, self.rounds, self.servers_touched())

    def hold_before(self, spot: Spot) -> Optional[Parcel]:
        """Returns what a stream holds before an instruction, if the shards' loads are known and it comes that far."""
        holds = self.walks[spot.stream].holds
        return holds[spot.position] if self.document and spot.position < len(holds) else None

    def changes(self) -> List[Change]:
        """Returns what becomes of the replicas, by shard."""
        found = []
        for shard, cells in self.before.cells.items():
            after = self.after.cells[shard]
            for server in self.before.document.servers:
                if cells.get(server) != after.get(server):
                    found.append(Change(shard, server, cells.get(server), after.get(server)))
        return found

    def listings(self) -> List[Listing]:
        """Returns what becomes of the published map."""
        return [
            Listing(shard, before, self.after.listed[shard]) for shard, before in self.before.listed.items() if before != self.after.listed[shard]
        ]

    def servers_touched(self) -> List[str]:
        named = {name for stream in self.plan.streams for it in stream.code for name in it.servers}
        order = list(self.document.servers) if self.document else sorted(named)
        return [name for name in order if name in named]

    def shards_touched(self) -> List[str]:
        named = {it.shard for stream in self.plan.streams for it in stream.code if it.shard}
        order = list(self.document.shards) if self.document else sorted(named)
        return [name for name in order if name in named]


def followed(plan: Plan, before: Placement, rounds: List[List[Spot]], servers: List[str]) -> Tuple[Placement, List[Dict[str, int]]]:
    """Returns the placement after all rounds, and the loads of these servers before the first round and after each."""
    placement = before.copy()
    rows = [{name: before.loads[name] for name in servers}]
    for spots in rounds:
        for spot in spots:
            placement.make(plan.at(spot))
        rows.append({name: placement.loads[name] for name in servers})
    return placement, rows


def servers_of(stories: Sequence[Story]) -> List[str]:
    """Returns the servers that plans touch, in the document's order."""
    touched = {name for it in stories for name in it.servers_touched()}
    return [name for name in stories[0].before.document.servers if name in touched]


def led(server: str, placements: Sequence[Placement]) -> List[int]:
    """Returns how many shards a server leads in each of the placements, once if that stays."""
    return list(dict.fromkeys(list(it.replicas[server].values()).count("primary") for it in placements))
