"""Why no plan is made for moves or for a server to empty (docs/MODEL.md, "Plans from moves"), with the numbers behind it."""
from typing import Dict, List, Set, Tuple

from .limits import MOST_SIGNALS, MOST_STREAMS
from .model import Document, Move
from .placement import Finding, Placement

Key = Tuple[str, ...]


def needed_rights(placement: Placement, move: Move) -> Set[Key]:
    """Returns the keys of the rights that a move needs beside room."""
    is_primary = placement.cells[move.shard].get(move.source) == "primary"
    return {(move.shard, move.target), ("crown", move.shard, "") if is_primary else (move.shard, move.source)}


def is_replica(state: object) -> bool:
    return state in ("primary", "secondary")


def not_there(placement: Placement, moves: List[Move]) -> List[Finding]:
    found = []
    for number, move in enumerate(moves):
        if not is_replica(placement.cells[move.shard].get(move.source)):
            has = ", ".join(f"{server} ({state})" for server, state in placement.cells[move.shard].items())
            found.append(Finding(f"no plan: 2 NotThere shard {move.shard} server {move.source}",
                                 f"move {number}: {move.source} has no replica of {move.shard}", [f"replicas of {move.shard}: {has or 'none'}"]))
    return found


def held(placement: Placement, moves: List[Move]) -> List[Finding]:
    found = []
    before: Dict[str, List[int]] = {}
    for number, move in enumerate(moves):
        line, state = f"no plan: 3 Held shard {move.shard} server {move.target}", placement.cells[move.shard].get(move.target)
        earlier = [it for it in before.get(move.shard, []) if needed_rights(placement, moves[it]) & needed_rights(placement, move)]
        before.setdefault(move.shard, []).append(number)
        if state:
            found.append(Finding(line, f"move {number}: {move.target} has a {state} of {move.shard} already", ["move it to another server"]))
        elif earlier:
            found.append(Finding(line, f"move {number} needs a right to {move.shard} that move {earlier[0]} needs",
                                 [f"move {earlier[0]} takes {moves[earlier[0]].shard} from {moves[earlier[0]].source} to {moves[earlier[0]].target}",
                                  "move each replica once, and the second time by a second plan"]))
    return found


def server_down(placement: Placement, moves: List[Move]) -> List[Finding]:
    found = []
    for number, move in enumerate(moves):
        down = [it for it in (move.source, move.target) if it in placement.down]
        if down:
            found.append(Finding(f"no plan: 4 ServerDown server {down[0]}", f"move {number} of {move.shard} names {down[0]}, which is down",
                                 ["a plan of yours may promote or add replicas without it ('smplan-tools repair' makes one)"]))
    return found


class Rooms:
    """The room that is left of each server while moves are placed."""

    def __init__(self, placement: Placement) -> None:
        self.loads = {name: shard.load for name, shard in placement.document.shards.items()}
        self.left: Dict[str, int] = {name: placement.free(name) for name in placement.document.servers}

    def fits(self, move: Move) -> bool:
        return self.loads[move.shard] <= self.left[move.target]

    def place(self, move: Move) -> None:
        self.left[move.target] -= self.loads[move.shard]
        self.left[move.source] += self.loads[move.shard]


def placed(placement: Placement, moves: List[Move]) -> Tuple[List[int], Rooms]:
    """Returns the moves in the order in which the rule places them, and the room that is left then."""
    rooms, order, left = Rooms(placement), [], list(range(len(moves)))  # type: Rooms, List[int], List[int]
    while True:
        fitting = next((it for it in left if rooms.fits(moves[it])), None)
        if fitting is None:
            return order, rooms
        rooms.place(moves[fitting])
        order.append(fitting)
        left.remove(fitting)


def no_room(placement: Placement, moves: List[Move]) -> List[Finding]:
    order, rooms = placed(placement, moves)
    left = [it for it in range(len(moves)) if it not in set(order)]
    if not left:
        return []
    first = moves[left[0]]
    details = [f"placed before: {', '.join(f'move {it} ({moves[it].shard} to {moves[it].target})' for it in order) or 'none'}"]
    for it in left[:20]:
        move = moves[it]
        details.append(f"move {it}: {move.shard} to {move.target} needs {rooms.loads[move.shard]}, and {rooms.left[move.target]} is left")
    details.append("make room first, or list the moves in an order in which each finds room")
    return [Finding(f"no plan: 5 NoRoom server {first.target}",
                    f"none of the {len(left)} moves that are left fits; the first, move {left[0]}, takes {first.shard} to {first.target}", details)]


def regions_after(placement: Placement, shard: str, moves: List[Move]) -> Set[str]:
    """Returns the regions of a shard's replicas after these moves of it."""
    servers = set(placement.cells[shard])
    for move in moves:
        servers.discard(move.source)
        servers.add(move.target)
    return {placement.document.servers[it].region for it in servers}


def spread(placement: Placement, moves: List[Move]) -> List[Finding]:
    found = []
    by_shard: Dict[str, List[Move]] = {}
    for move in moves:
        by_shard.setdefault(move.shard, []).append(move)
    for name, shard in placement.document.shards.items():
        regions = regions_after(placement, name, by_shard.get(name, []))
        if name in by_shard and len(regions) < shard.spread:
            found.append(Finding(f"no plan: 7 Spread shard {name}",
                                 f"after the moves {name} would lie in {len(regions)} of {shard.spread} regions: {', '.join(sorted(regions)) or 'none'}",
                                 ["choose a server in another region, or lower 'spread'"]))
    return found


def overlap(start: int, length: int, other: int, other_length: int) -> int:
    return max(0, min(start + length, other + other_length) - max(start, other))


def signal_count(placement: Placement, order: List[Move]) -> int:
    """Returns how many signals the plan of placed moves would have: one for each room that a move of another stream frees."""
    loads = {name: shard.load for name, shard in placement.document.shards.items()}
    taken: Dict[str, int] = {}
    freed: Dict[str, int] = {}
    stretches: Dict[str, List[Tuple[int, int, int]]] = {}
    count = 0
    for number, move in enumerate(order):
        start, load = taken.get(move.target, 0), loads[move.shard]
        for source, begin, length in stretches.get(move.target, []):
            count += overlap(start, load, begin, length) > 0 and source % MOST_STREAMS != number % MOST_STREAMS
        taken[move.target] = start + load
        begin = placement.free(move.source) + freed.get(move.source, 0)
        stretches.setdefault(move.source, []).append((number, begin, load))
        freed[move.source] = freed.get(move.source, 0) + load
    return count


def too_many(placement: Placement, moves: List[Move]) -> List[Finding]:
    order, _ = placed(placement, moves)
    count = signal_count(placement, [moves[it] for it in order])
    if count <= MOST_SIGNALS:
        return []
    return [Finding("no plan: 8 TooMany", f"the plan would have {count} signals, and {MOST_SIGNALS} are the most", ["make two lists of moves, one after the other"])]


def move_findings(placement: Placement, moves: List[Move]) -> List[Finding]:
    """Returns why no plan is made for moves, in the order in which the rule looks."""
    alone = [*not_there(placement, moves), *held(placement, moves), *server_down(placement, moves)]
    if alone:
        return alone
    return [*no_room(placement, moves), *spread(placement, moves), *too_many(placement, moves)]


# ---- a server to empty

def why_not_to(placement: Placement, shard: str, drained: str, server: str, left: Dict[str, int]) -> str:
    """Returns why a server may not take a shard from the one that is emptied, or nothing if it may."""
    document = placement.document
    row = document.shards[shard]
    if server in placement.down:
        return "it is down"
    if server in placement.cells[shard]:
        return f"it has a {placement.cells[shard][server]} already"
    if row.load > left[server]:
        return f"the load is {row.load}, and {left[server]} of its room is left"
    regions = regions_after(placement, shard, [Move(shard, drained, server)])
    if len(regions) < row.spread:
        return f"the replicas would lie in {len(regions)} of {row.spread} regions: {', '.join(sorted(regions))}"
    return ""


def drain_findings(placement: Placement, drained: str) -> List[Finding]:
    """Returns why no plan is made that empties a server."""
    document: Document = placement.document
    if drained in placement.down:
        return [Finding(f"no plan: 4 ServerDown server {drained}", f"{drained} is to be emptied, and it is down",
                        ["a server that is down makes no calls; 'smplan-tools repair' plans for a server that was lost"])]
    left = {name: placement.free(name) for name in document.servers}
    found = []
    for shard in placement.shards_at(drained):
        reasons = {it: why_not_to(placement, shard, drained, it, left) for it in document.servers if it != drained}
        takers = [it for it, why in reasons.items() if not why]
        if takers:
            target = max(takers, key=lambda it: left[it])
            left[target] -= document.shards[shard].load
        else:
            details = [f"{server}: {why}" for server, why in reasons.items()] or ["there is no other server"]
            found.append(Finding(f"no plan: 6 NoPlace shard {shard}", f"no server may take {shard} (load {document.shards[shard].load}) from {drained}", details))
    return found
