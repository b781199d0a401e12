"""Placements at random, for bench/plans and compare-cbc."""
import functools
import itertools
import math
import random

from smplan.fleet import SECONDARY, Fleet
from smplan.model import document_of

SERVERS, SHARDS, REPLICAS = 1024, 4096, 3


def document(rooms, regions, loads, holders):
    """A document of servers v0, v1, .., in turn in the regions, and shards s0, s1, .. that are to lie in two of them."""
    servers = [{"name": f"v{it}", "region": f"r{it % regions}", "room": room} for it, room in enumerate(rooms)]
    shards = []
    for number, (load, mine) in enumerate(zip(loads, holders)):
        cells = [{"server": f"v{it}", "state": "secondary" if at else "primary"} for at, it in enumerate(mine)]
        shards.append({"name": f"s{number}", "load": load, "want": len(mine), "cap": 1, "spread": min(2, len(mine)), "listed": f"v{mine[0]}", "cells": cells})
    return Fleet(document_of({"limit": 1, "servers": servers, "shards": shards}))


def some_holders(dice, weights, replicas, regions, load, free):
    """Servers with room in two regions, drawn by their weights (summed up), or else among those with the most room; none if the dice find none."""
    def is_good(servers):
        return len(servers) == replicas and len({it % regions for it in servers}) >= min(replicas, 2) and all(free[it] >= load for it in servers)
    count, tries = len(free), 200
    drawn = (list(dict.fromkeys(dice.choices(range(count), cum_weights=weights, k=3 * replicas)))[:replicas] for _ in range(tries))
    found = next(filter(is_good, drawn), None)
    if found is None:
        roomy = sorted(range(count), key=lambda it: -free[it])[:max(replicas + 2, 8)]
        found = next(filter(is_good, (dice.sample(roomy, replicas) for _ in range(tries))), None)
    return found


@functools.lru_cache(maxsize=2)
def scattered(servers, regions, shards, replicas, use, seed, loads=(5, 20), rooms=(1,), is_uneven=True):
    """A placement whose loads are `use` of all rooms, at random; none if the dice find none."""
    dice = random.Random(seed)
    sizes = [dice.randint(*loads) for _ in range(shards)]
    parts = [dice.choice(rooms) for _ in range(servers)]
    rooms = [math.ceil(it * sum(sizes) * replicas / use / sum(parts)) for it in parts]
    weights = list(itertools.accumulate(dice.random() ** 2 + .05 if is_uneven else 1 for _ in range(servers)))
    free, holders = list(rooms), {}
    for shard in sorted(range(shards), key=lambda it: -sizes[it]):
        found = some_holders(dice, weights, replicas, regions, sizes[shard], free)
        if found is None:
            return None
        holders[shard] = found
        for it in found:
            free[it] -= sizes[shard]
    return document(rooms, regions, sizes, [holders[it] for it in range(shards)])


def drifted(seed, mean, drift=0.0, new=0, has_tail=False, rooms=(1,), regions=16):
    """A placement that was level, whose loads then drifted, or that gets new servers; with all in two regions at least."""
    dice = random.Random(seed)
    sizes = [min(3000, max(1, int(100 * (dice.paretovariate(1.5) if has_tail else dice.uniform(.3, 1.7))))) for _ in range(SHARDS)]
    parts, used, holders = [dice.choice(rooms) for _ in range(SERVERS)], [0] * SERVERS, []
    for size in sizes:
        mine = []
        while len(mine) < REPLICAS:
            here = {it % regions for it in mine}
            may = [it for it in dice.sample(range(SERVERS - new), 6) if it not in mine and (len(mine) != 1 or it % regions not in here)]
            mine.append(min(may, key=lambda it: used[it] / parts[it]))
            used[mine[-1]] += size
        holders.append(mine)
    sizes = [max(1, int(it * math.exp(dice.gauss(0, drift)))) for it in sizes]
    used = [0] * SERVERS
    for size, mine in zip(sizes, holders):
        for it in mine:
            used[it] += size
    unit = sum(used) / mean / sum(parts)
    unit *= max(1, max(used[it] / (parts[it] * unit) for it in range(SERVERS)))
    return document([int(it * unit) + 1 for it in parts], regions, sizes, holders)


def exchanged(fleet, count, seed):
    """A placement that so many exchanges of secondaries lead to, of which only the end has to fit. No replica is exchanged twice, and none returns."""
    dice, target, used, moved = random.Random(seed), fleet.target(), list(fleet.used), set()
    tries = 0
    while len(moved) < 2 * count and tries < 200 * count:
        tries += 1
        shard, other = dice.sample(range(len(fleet.shards)), 2)
        source, there = dice.choice(sorted(target.cells[shard])), dice.choice(sorted(target.cells[other]))
        less = fleet.load[shard] - fleet.load[other]
        fits = used[source] - less <= fleet.room[source] and used[there] + less <= fleet.room[there]
        if fits and source != there and may_go(fleet, target, moved, shard, source, there) and may_go(fleet, target, moved, other, there, source):
            target.move(shard, source, there)
            target.move(other, there, source)
            used[source] -= less
            used[there] += less
            moved |= {(shard, there), (other, source)}
    return target


def may_go(fleet, target, moved, shard, source, there):
    """Whether a secondary may go to a server that never had any of its shard, and leaves it in its spread."""
    cells = target.cells[shard]
    is_new = there not in cells and there not in fleet.cells[shard] and (shard, source) not in moved
    return is_new and cells[source] == SECONDARY and fleet.regions([*(it for it in cells if it != source), there]) >= fleet.spread[shard]
