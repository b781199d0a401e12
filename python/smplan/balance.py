"""Lists of moves that level load, by a search over single moves and exchanges from the fullest server; and changes of roles that level primaries.

In integers alone; the lowest number wins ties. A list is an order in which each move finds room. Nothing is proved of it.
"""
from __future__ import annotations

from dataclasses import dataclass
from fractions import Fraction
from heapq import heapify, heappop, heappush
from typing import AbstractSet, Dict, List, Optional, Sequence, Set, Tuple

from .blocks import role_change_fault
from .draft import PARTS, Draft
from .fleet import Fleet, primary_of
from .limits import MOST_MOVES
from .targets import Hear, Wanted, ignore

# How many of the emptiest servers are looked at for a move of a replica, and for an exchange.
NEAREST, EXCHANGED = 4, 32

# What a move costs beside its load, in mean loads: each is tried.
PRICES = (Fraction(0), Fraction(1, 4), Fraction(1), Fraction(4), Fraction(1000))


@dataclass(frozen=True, order=True)
class Move:
    """A replica of a shard goes from a server to another one."""

    shard: int
    source: int
    target: int


@dataclass(frozen=True)
class Budget:
    """How many moves, and how much load at most."""

    moves: int = MOST_MOVES
    load: Optional[int] = None

    def allows(self, moves: int, load: int) -> bool:
        return moves <= self.moves and (self.load is None or load <= self.load)


class Level(Draft):
    """A placement that is being levelled. Of the open servers the emptiest comes first, by the share of its room."""

    def __init__(self, fleet: Fleet, closed: AbstractSet[int], price: int) -> None:
        super().__init__(fleet, closed)
        self.price = price
        self.moves: List[Move] = []
        self.load = 0

    def rank(self, server: int) -> int:
        return self.share(server)

    def may(self, shard: int, source: int, target: int, gone: int = 0) -> bool:
        """Whether a replica may go to a server from which a load is gone then."""
        return self.is_new(shard, target) and self.free(target) + gone >= self.fleet.load[shard] and self.keeps_spread(shard, source, target)

    def fall(self, load: int, source: int, target: int) -> int:
        """By how much the sum of load * load / room falls if a load moves, for each unit of it."""
        room = self.fleet.room
        return (2 * self.used[source] - load) * PARTS // room[source] - (2 * self.used[target] + load) * PARTS // room[target]

    def most_fall(self, load: int, source: int) -> int:
        """What `fall` is at most, once twice the rank of the target is taken off."""
        return (2 * self.used[source] - load) * PARTS // self.fleet.room[source]

    def best_move(self, source: int) -> List[Move]:
        """The move from a server with the greatest fall for what it costs; none if none falls."""
        best, found = 0, None
        for shard in self.movable(source):
            load, seen = self.fleet.load[shard], 0
            most = self.most_fall(load, source)
            for rank, target in self.ranked:
                if target == source or seen == NEAREST or (most - 2 * rank) * load <= best * (load + self.price):
                    break
                if self.may(shard, source, target):
                    seen += 1
                    value = self.fall(load, source, target) * load // max(1, load + self.price)
                    if value > best:
                        best, found = value, Move(shard, source, target)
        return [found] if found else []

    def best_exchange(self, source: int) -> List[Move]:
        """The exchange with one of the emptiest servers that has the greatest fall for what it costs; none if none falls."""
        best, found = 0, []  # type: int, List[Move]
        load, mine = self.fleet.load, self.movable(source)
        greatest, most = max((load[it] for it in mine), default=0), self.most_fall(0, source)
        for rank, target in self.ranked[:EXCHANGED]:
            if target == source or (most - 2 * rank) * greatest <= best * (greatest + 2 * self.price):
                break
            theirs = self.movable(target)
            for shard in mine:
                for other in theirs:
                    less = load[shard] - load[other]
                    if less <= 0:
                        continue
                    value = self.fall(less, source, target) * less // max(1, load[shard] + load[other] + 2 * self.price)
                    if value > best and self.may(shard, source, target) and self.may(other, target, source, load[shard]):
                        best, found = value, [Move(shard, source, target), Move(other, target, source)]
        return found

    def make(self, moves: Sequence[Move], budget: Budget) -> bool:
        """Makes moves as far as the budget allows. Tells whether it made any."""
        load = sum(self.fleet.load[it.shard] for it in moves)
        if not moves or not budget.allows(len(self.moves) + len(moves), self.load + load):
            return False
        for it in moves:
            self.move(it.shard, it.source, it.target)
        self.moves += moves
        self.load += load
        return True

    def run(self, top: Fraction, budget: Budget) -> List[int]:
        """Moves until no open server is above `top`, a share of its room, or nothing helps. Returns the servers that stay above."""
        stuck: Set[int] = set()
        while True:
            fullest = next((server for _, server in reversed(self.ranked) if server not in stuck), None)
            if fullest is None or not self.is_above(fullest, top):
                return [it for it in sorted(stuck) if self.is_above(it, top)]
            if not self.make(self.best_move(fullest), budget) and not self.make(self.best_exchange(fullest), budget):
                stuck.add(fullest)

    def is_above(self, server: int, top: Fraction) -> bool:
        return self.used[server] * top.denominator > top.numerator * self.fleet.room[server]


class Thinning:
    """A list of moves by which no server is above `top`, and what may be left out of it or be done with a smaller replica. Each move finds room in its
    turn throughout."""

    def __init__(self, fleet: Fleet, moves: Sequence[Move], top: Fraction) -> None:
        self.fleet, self.top = fleet, top
        self.moves: List[Optional[Move]] = list(moves)
        self.turns: Dict[int, List[int]] = {}
        self.turns_of_shard: Dict[int, List[int]] = {}
        self.used = list(fleet.used)
        for turn, it in enumerate(moves):
            self.enter(turn, it)

    def enter(self, turn: int, move: Move) -> None:
        """Puts a move into the list, at its turn."""
        self.moves[turn] = move
        for server in (move.source, move.target):
            self.turns[server] = sorted([*self.turns.get(server, []), turn])
        self.turns_of_shard[move.shard] = sorted([*self.turns_of_shard.get(move.shard, []), turn])
        self.used[move.source] -= self.fleet.load[move.shard]
        self.used[move.target] += self.fleet.load[move.shard]

    def leave(self, turn: int) -> Move:
        """Takes a move out of the list, and returns it."""
        move = self.moves[turn]
        assert move is not None
        self.moves[turn] = None
        for server in (move.source, move.target):
            self.turns[server].remove(turn)
        self.turns_of_shard[move.shard].remove(turn)
        self.used[move.source] += self.fleet.load[move.shard]
        self.used[move.target] -= self.fleet.load[move.shard]
        return move

    def finds_room(self, server: int) -> bool:
        """Whether each move to a server finds room in its turn."""
        used = self.fleet.used[server]
        for turn in self.turns[server]:
            it = self.moves[turn]
            if it is not None:
                used += self.fleet.load[it.shard] * (1 if it.target == server else -1)
                if it.target == server and used > self.fleet.room[server]:
                    return False
        return True

    def keeps_spread(self, shard: int) -> bool:
        """Whether a shard lies in enough regions after its moves."""
        fleet, cells = self.fleet, set(self.fleet.cells[shard])
        for turn in self.turns_of_shard.get(shard, []):
            it = self.moves[turn]
            if it is not None:
                cells = cells - {it.source} | {it.target}
        return fleet.regions(cells) >= min(fleet.spread[shard], fleet.regions(fleet.cells[shard]))

    def is_good(self, *moves: Move) -> bool:
        """Whether the list is as it is to be after changes of these moves."""
        servers = {it for move in moves for it in (move.source, move.target)}
        top, room = self.top, self.fleet.room
        return (
            all(self.used[it] * top.denominator <= top.numerator * room[it] for it in servers)
            and all(self.finds_room(it) for it in servers)
            and all(self.keeps_spread(it.shard) for it in moves)
        )

    def greatest_first(self) -> List[int]:
        """The turns of the list's moves, by load."""
        loads = [(-self.fleet.load[it.shard], it, turn) for turn, it in enumerate(self.moves) if it is not None]
        return [turn for _, _, turn in sorted(loads)]

    def leave_out(self) -> None:
        """Leaves out moves that are not needed, those of the greatest loads first."""
        for turn in self.greatest_first():
            move = self.leave(turn)
            if not self.is_good(move):
                self.enter(turn, move)

    def exchange(self) -> None:
        """Moves a smaller replica of the same server where that does as well."""
        for turn in self.greatest_first():
            move = self.leave(turn)
            for shard in self.smaller(move):
                other = Move(shard, move.source, move.target)
                self.enter(turn, other)
                if self.is_good(move, other):
                    break
                self.leave(turn)
            else:
                self.enter(turn, move)

    def smaller(self, move: Move) -> List[int]:
        """The shards of lesser load whose replicas may go instead, and are enough, the least first. (The move is out of the list.)"""
        fleet, source = self.fleet, move.source
        need = self.used[source] - self.top.numerator * fleet.room[source] // self.top.denominator
        may = (it for it in fleet.at[source] if need <= fleet.load[it] < fleet.load[move.shard] and move.target not in fleet.cells[it])
        return sorted((it for it in may if fleet.can_copy(it) and self.is_apart(it, move)), key=lambda it: (fleet.load[it], it))

    def is_apart(self, shard: int, move: Move) -> bool:
        """Whether no move of a shard leaves the same server, or comes to the same one."""
        moves = (self.moves[turn] for turn in self.turns_of_shard.get(shard, []))
        return all(it is None or (it.source != move.source and it.target != move.target) for it in moves)


@dataclass(frozen=True)
class Balance:
    """Moves after which no open server is above `top`, and the servers that stay above it. `least` is what any list copies that brings all below it."""

    top: Fraction
    mean: Fraction
    most: Fraction
    most_after: Fraction
    moves: List[Move]
    load: int
    stuck: List[int]
    least: int

    def rank(self) -> Tuple[Fraction, int, int]:
        """The less the better: how full the fullest stays if some stay above the top, the load, the moves."""
        return self.most_after if self.stuck else Fraction(0), self.load, len(self.moves)


def balanced(fleet: Fleet, closed: AbstractSet[int], over: Fraction, budget: Budget, price: int) -> Balance:
    """The moves that are found if each costs a price beside its load."""
    level = Level(fleet, closed, price)
    servers = [it for _, it in level.ranked]
    rooms = sum(fleet.room[it] for it in servers)
    mean = Fraction(sum(fleet.used[it] for it in servers), max(1, rooms))
    top = mean * (1 + over)
    least = sum(max(0, -((top.numerator * fleet.room[it]) // top.denominator - fleet.used[it])) for it in servers)
    stuck = level.run(top, budget)
    moves, used = level.moves, level.used
    if not stuck:
        thinning = Thinning(fleet, level.moves, top)
        thinning.leave_out()
        thinning.exchange()
        moves, used = [it for it in thinning.moves if it is not None], thinning.used
    most, most_after = (max((Fraction(it[server], fleet.room[server]) for server in servers), default=Fraction(0)) for it in (fleet.used, used))
    return Balance(top, mean, most, most_after, moves, sum(fleet.load[it.shard] for it in moves), stuck, least)


def balance(fleet: Fleet, closed: AbstractSet[int] = frozenset(), over: Fraction = Fraction(1, 10), budget: Budget = Budget(), hear: Hear = ignore) -> Balance:
    """Moves after which no open server has more than the mean share of its room and `over` of that: of several lists the one that copies least."""
    mean, found = sum(fleet.used) // max(1, sum(len(it) for it in fleet.cells)), []
    for price in PRICES:
        found.append(balanced(fleet, closed, over, budget, int(price * mean)))
        hear(f"{len(found)} of {len(PRICES)} lists of moves are made")
    return min(found, key=Balance.rank)


def after_moves(fleet: Fleet, moves: Sequence[Move]) -> Wanted:
    """The placement after a list of moves."""
    target = fleet.target()
    for it in moves:
        target.move(it.shard, it.source, it.target)
    return Wanted(target)


# ---- primaries

class Primaries:
    """Who leads which shards, while changes of roles level how many each server leads. Each change is a shortest chain from a server with too many to one
    with two fewer, so in the end none leads more than need be."""

    def __init__(self, fleet: Fleet, closed: AbstractSet[int]) -> None:
        self.fleet = fleet
        self.may_lead = [not down and it not in closed for it, down in enumerate(fleet.is_down)]
        self.primary = [primary_of(it) for it in fleet.cells]
        self.led: List[Set[int]] = [set() for _ in fleet.servers]
        for shard, server in enumerate(self.primary):
            if server is not None:
                self.led[server].add(shard)
        self.heap: List[Tuple[int, int]] = []
        self.is_free = [role_change_fault(fleet, it) is None for it in range(len(fleet.shards))]

    def counts(self) -> List[int]:
        """How many shards each server leads."""
        return [len(it) for it in self.led]

    def level(self) -> None:
        """Changes roles until no chain helps."""
        done: Set[int] = set()
        self.heap = [(-len(led), it) for it, led in enumerate(self.led)]
        heapify(self.heap)
        while self.heap and self.heap[0][0] < -1:
            count, fullest = heappop(self.heap)
            if fullest not in done and -count == len(self.led[fullest]):
                done |= self.relieve(fullest)
                heappush(self.heap, (-len(self.led[fullest]), fullest))

    def relieve(self, fullest: int) -> Set[int]:
        """Changes roles along one chain from a server. Returns the servers that no chain helps, if there is none."""
        came: Dict[int, Tuple[int, int]] = {}
        queue = [fullest]
        for server in queue:
            if len(self.led[server]) <= len(self.led[fullest]) - 2:
                self.change(came, server, fullest)
                heappush(self.heap, (-len(self.led[server]), server))
                return set()
            for shard in sorted(it for it in self.led[server] if self.is_free[it]):
                for other in sorted(self.fleet.cells[shard]):
                    if self.may_lead[other] and other != fullest and other not in came:
                        came[other] = (server, shard)
                        queue.append(other)
        return set(queue)

    def change(self, came: Dict[int, Tuple[int, int]], server: int, first: int) -> None:
        """Changes the roles of a chain that ends at a server."""
        while server != first:
            before, shard = came[server]
            self.led[before].remove(shard)
            self.led[server].add(shard)
            self.primary[shard] = server
            server = before


def level_primaries(fleet: Fleet, closed: AbstractSet[int] = frozenset()) -> Wanted:
    """As few primaries at any server as changes of roles allow."""
    primaries = Primaries(fleet, closed)
    primaries.level()
    target = fleet.target()
    for shard, server in enumerate(primaries.primary):
        if server is not None and server != primary_of(fleet.cells[shard]):
            target.promote(shard, server)
    return Wanted(target)
