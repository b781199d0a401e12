"""Moves replicas at random while a cluster is used, a few plans at a time, and drains a server."""
from __future__ import annotations

import asyncio
import random
from collections import Counter
from pathlib import Path
from typing import Any

from smplan.control import Line

from .operator import NoLeader, Operator
from .plans import abrupt_stream, move_stream, plan_of, swap_stream

# How many primaries are handed over at once, and one more by a drain: few, since clients that never rest use these shards, and each handover is
# to meet many requests. These clients come to a shard this many seconds before its handover begins, so that it is in use when it moves.
HANDOVERS = 2
BEFORE = 0.3


def is_handover(stream: Line) -> bool:
    """Whether a stream moves a primary to another server."""
    words = [it["do"] for it in stream["code"]]
    return words[0] == "prepare_add" or ("unlist" in words and words[-1] == "drop")


class Mover:
    """Makes plans, begins them and waits until they have ended."""

    def __init__(self, operator: Operator, seed: int, swaps: float = 0.2, is_abrupt: bool = False) -> None:
        self.operator, self.dice, self.swaps, self.is_abrupt = operator, random.Random(f"moves {seed}"), swaps, is_abrupt
        self.busy: set[str] = set()
        # Those of them whose primary stays, or has been handed over by now: clients need not use them.
        self.passed: set[str] = set()
        self.avoided: set[str] = set()
        self.counts: Counter[str] = Counter()
        self.numbers = 0
        self.stopped = asyncio.Event()

    async def run(self, workers: int = 3, moves: int = 4) -> None:
        """Moves until it is stopped; plans that are under way then are waited for."""
        await asyncio.gather(*(self.work(moves) for _ in range(workers)))

    async def work(self, moves: int) -> None:
        """One plan after another."""
        while not self.stopped.is_set():
            chosen = self.choose(await self.state(), moves)
            try:
                ended = bool(chosen) and await self.begin(chosen)
            except NoLeader:
                ended = False
            if not ended:
                await asyncio.sleep(0.3)

    @property
    def handed_over(self) -> set[str]:
        """The shards whose primary is being handed over, and what the story has clients use."""
        return self.busy - self.passed

    async def tell_moves(self, path: Path) -> None:
        """Names the shards that are handed over in a file, for clients that use these, again and again: all that are moved if none is."""
        told = None
        while True:
            names = self.handed_over or self.busy
            if told != names:
                told = set(names)
                part = path.with_suffix(".part")
                part.write_text("".join(f"{it}\n" for it in sorted(told)))
                part.replace(path)
            await asyncio.sleep(0.05)

    async def state(self) -> Line:
        """What is recorded, nothing if no epoch is in force."""
        state = (await self.operator.ask({"do": "state"})).get("state", {})
        return state if state.get("is") == "open" else {}

    def rooms(self, state: Line) -> dict[str, int]:
        """How much room there is at the servers to which replicas may go."""
        return {
            it["server"]: it["room"] - it["load"] - it["held"] for it in state.get("servers", [])
            if it["permit"] is None and it["server"] not in self.avoided
        }

    def choose(self, state: Line, most: int) -> dict[str, Line]:
        """Chooses streams for shards that may be moved, up to a greatest number."""
        rooms = self.rooms(state)
        shards = [it for it in state.get("shards", []) if it["shard"] not in self.busy]
        self.dice.shuffle(shards)
        chosen: dict[str, Line] = {}
        for shard in shards:
            stream = self.stream_of(shard, rooms, self.has_room_for_handover(chosen, HANDOVERS)) if len(chosen) < most else None
            if stream is not None:
                chosen[shard["shard"]] = stream
        return chosen

    def has_room_for_handover(self, chosen: dict[str, Line], most: int) -> bool:
        """Whether one primary more may be handed over beside those that are, or are chosen."""
        return len(self.handed_over) + sum(map(is_handover, chosen.values())) < most

    def stream_of(self, shard: Line, rooms: dict[str, int], may_hand_over: bool = True) -> Line | None:
        """Chooses where a replica of a shard goes, or that its primary and a secondary change roles."""
        has = {it["server"]: it["state"] for it in shard["cells"]}
        if any(it not in ("primary", "secondary") for it in has.values()) or "primary" not in has.values():
            return None
        staying = [it for it in has if it in rooms]
        free = [it for it, room in rooms.items() if it not in has and room >= shard["load"]]
        primary = next((it for it in staying if has[it] == "primary"), None)
        secondaries = [it for it in staying if has[it] == "secondary"]
        if primary is not None and secondaries and self.dice.random() < self.swaps:
            return swap_stream(shard, primary, self.dice.choice(secondaries))
        sources = [it for it in staying if it != primary or may_hand_over]
        if not sources or not free:
            return None
        target = self.dice.choice(free)
        rooms[target] -= shard["load"]
        return self.move(shard, self.dice.choice(sources), target)

    def move(self, shard: Line, source: str, target: str) -> Line:
        """A stream that moves a replica, a primary by a handover unless moves are abrupt."""
        is_primary = any(it["server"] == source and it["state"] == "primary" for it in shard["cells"])
        return (abrupt_stream if is_primary and self.is_abrupt else move_stream)(shard, source, target)

    async def begin(self, streams: dict[str, Line]) -> bool:
        """Begins a plan of streams, each for a shard, and waits until it has ended; tells whether it did."""
        shards = set(streams)
        self.busy |= shards
        self.passed |= {shard for shard, stream in streams.items() if not is_handover(stream)}
        try:
            if shards - self.passed:
                await asyncio.sleep(BEFORE)
            return await self.begin_and_wait(streams)
        finally:
            self.busy -= shards
            self.passed -= shards

    async def begin_and_wait(self, streams: dict[str, Line]) -> bool:
        """Begins a plan, and waits until it has ended; tells whether it did."""
        self.numbers += 1
        name = f"moves-{self.numbers}"
        begun = await self.operator.do({"do": "begin", "plan": plan_of(list(streams.values())), "name": name})
        if "begun" not in begun:
            self.counts["plans not begun"] += 1
            return False
        self.counts["plans begun"] += 1
        if not await self.wait(name, begun["begun"], list(streams)):
            self.counts["plans broken off"] += 1
            return False
        self.counts["plans"] += 1
        self.counts["moves"] += len(streams)
        return True

    async def wait(self, name: str, begun: dict[str, Any], shards: list[str]) -> bool:
        """Waits until a plan has ended, and notes which of its shards are moved by then; false if a reopening has broken it off."""
        while True:
            told = (await self.operator.ask({"do": "state", "plan": begun["plan"]})).get("state", {}).get("plan", {})
            if told.get("name") == name:
                self.passed |= {shard for shard, stream in zip(shards, told.get("streams", [])) if stream["is"] == "done"}
            if told.get("name") == name and told["is"] != "running":
                return told["is"] == "ended"
            if told.get("name") != name and (await self.state()).get("epoch", begun["epoch"]) != begun["epoch"]:
                return False
            await asyncio.sleep(0.25)

    async def empty(self, server: str, seconds: float = 30.0) -> bool:
        """Empties a server, while nothing else is moved to it; tells whether it is empty in time. A plan that has not ended by then is waited for no longer."""
        self.avoided.add(server)
        try:
            async with asyncio.timeout(seconds):
                while True:
                    state = await self.state()
                    held = [it for it in state.get("shards", []) if any(cell["server"] == server for cell in it["cells"])]
                    if state and not held:
                        self.counts["drains"] += 1
                        return True
                    await self.empty_some(state, server, held)
                    await asyncio.sleep(0.1)
        except TimeoutError:
            return False

    async def empty_some(self, state: Line, server: str, held: list[Line]) -> None:
        """Moves replicas away from a server, as many as are not moved otherwise."""
        rooms = self.rooms(state)
        chosen: dict[str, Line] = {}
        for shard in held:
            has = {it["server"]: it["state"] for it in shard["cells"]}
            free = [it for it, room in rooms.items() if it not in has and room >= shard["load"]]
            if shard["shard"] in self.busy or not free or not set(has.values()) <= {"primary", "secondary"}:
                continue
            if has[server] == "primary" and not self.has_room_for_handover(chosen, HANDOVERS + 1):
                continue
            target = max(free, key=lambda it: rooms[it])
            rooms[target] -= shard["load"]
            chosen[shard["shard"]] = self.move(shard, server, target)
        if chosen:
            await self.begin(chosen)
