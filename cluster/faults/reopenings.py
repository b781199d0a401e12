"""Openings and reopenings, and what an operator does when one has left a shard without a primary."""
from __future__ import annotations

import asyncio
import time
from typing import Any

from cluster.controllers.etcd import Etcd, end_of
from cluster.controllers.journal import PREFIX
from cluster.launch.plans import add_stream, plan_of, promote_stream

from smplan.control import Line

from .story import Story


# After so many seconds the operator confirms what controllers do not confirm by themselves.
CONFIRMING = 2.0


class NotOpened(Exception):
    """The service was not opened, so that there is nothing to move."""


class ReopeningStory(Story):
    """The openings and reopenings of a story."""

    async def begin_reopening(self, line: Line) -> int | None:
        """Begins a reopening, and returns its base; none if it is refused."""
        reply = await self.operator.reopen(line)
        if "fence" in reply:
            return reply["fence"][0]["base"]
        self.refusal = reply
        self.tell(f"reopening refused: {reply}")
        return None

    async def open(self, journal: str) -> None:
        """Begins a journal over the servers, which have nothing yet; raises NotOpened if that is refused, or does not come to its end."""
        if not await self.reopen(self.document, [], "the first opening", journal=journal, epoch=1):
            raise NotOpened(f"the first opening was refused: {self.refusal}" if self.refusal else "the first opening did not come to its end")

    async def reopen(self, document: Line, lost: list[str], why: str, replaces: bool = False, **more: Any) -> bool:
        """Reopens, until the opening is in force; tells whether it is. If it `replaces`, it begins again in place of the first one while that is
        under way."""
        line = {"do": "reopen", "document": document, "lost": lost, "why": why}
        base = await self.begin_reopening({**line, **more})
        if base is not None and replaces:
            await asyncio.sleep(self.dice.uniform(0.0, 0.4))
            base = await self.begin_reopening(line) or base
        if base is None:
            return False
        if self.cluster.lease and self.off.intersection(lost):
            await self.operator.tell_off(sorted(self.off.intersection(lost)))
        begun = time.monotonic()
        while time.monotonic() - begun < self.operator.patience:
            state = (await self.operator.ask({"do": "state"})).get("state", {})
            if time.monotonic() - begun > self.rest_before(state):
                await self.confirm(state)
            if state.get("is") == "open" and state.get("fence") == base:
                self.counts["reopenings"] += 1
                self.tell(f"reopened within {time.monotonic() - begun:.1f} s")
                await self.promote(state)
                await self.refill()
                return True
            await asyncio.sleep(0.1)
        self.tell("the reopening does not come to its end")
        return False

    def rest_before(self, state: Line) -> float:
        """After how many seconds the operator confirms what is proposed: servers that stay as they are recorded, since they are down, and have not told
        what they have, are waited for if they are up by now. With a lease controllers wait themselves for those that are given up."""
        reopening = state.get("reopening") or {}
        waiting = reopening["waiting"] if reopening.get("is") == "confirm" else []
        if any(self.cluster.processes[it].is_running for it in waiting):
            return self.operator.patience / 4
        is_waited_for = self.cluster.lease > 0 and not waiting
        return 0.0 if is_waited_for or (waiting and not reopening["proposal"]["lost"]) else CONFIRMING

    async def confirm(self, state: Line) -> None:
        """Confirms what a reopening proposes, if it waits for that: a controller leaves some of it to the operator."""
        reopening = state.get("reopening") or {}
        if reopening.get("is") == "confirm":
            told = {"still down": reopening["waiting"], "lost": reopening["proposal"]["lost"]}
            reply = await self.operator.do({"do": "confirm", "base": reopening["base"], "lost": told["lost"]})
            if "settle" in reply:
                self.tell("confirmed by hand" + "".join(f"; {what}: {', '.join(names)}" for what, names in told.items() if names))
                self.counts["reopenings confirmed by hand"] += 1

    async def wait_until_fenced(self, server: str | None, seconds: float = 8.0) -> bool:
        """Waits until a server, or the map's owner, has told what it has in a reopening."""
        until = time.monotonic() + seconds
        while time.monotonic() < until:
            told = (await self.operator.ask({"do": "state"})).get("state", {}).get("reopening")
            if told is not None and server not in told["waiting"]:
                return True
            await asyncio.sleep(0.05)
        return False

    async def open_anew(self) -> None:
        """A planted bug: the journal is deleted, and a new one of the same name is opened over what is there."""
        state = await self.state()
        if not state or "new-journal-without-reopening" not in self.cluster.bugs:
            return
        for name in self.cluster.shape.controller_names:
            await self.cluster.processes[name].kill()
        etcd = Etcd([("127.0.0.1", port) for _, port in self.cluster.members])
        await etcd.delete(PREFIX, end_of(PREFIX))
        await etcd.close()
        await self.cluster.processes.start(*self.cluster.shape.controller_names)
        document = without(state, self.document, self.lost)
        told = await self.operator.do({"do": "open", "document": document, "journal": state["journal"], "epoch": state["epoch"]})
        self.tell(f"a new journal is opened without a reopening: {'opened' if 'opened' in told else told}")

    # Shards without a primary.

    async def promote(self, state: Line) -> None:
        """Makes the secondary with the greatest copy the primary of each shard that a reopening left without one, each by a plan of its own, once all
        have told theirs. A shard whose replicas change roles has none for a moment either: then the plan is refused, as a cell is another one by then,
        or taken, and the shard is looked at again."""
        promoted: set[str] = set()
        until = time.monotonic() + self.operator.patience / 6
        while (bare := without_primary(state, promoted)) and time.monotonic() < until:
            copies = await self.copies()
            for shard in bare:
                if any((shard["shard"], it["server"]) not in copies for it in shard["cells"] if it["server"] not in self.lost):
                    continue
                plan = plan_of([promote_stream(shard, greatest(shard, copies))])
                reply = await self.operator.do({"do": "begin", "plan": plan, "name": self.name("promote")})
                self.tell(f"{shard['shard']} has no primary: {'promoted' if 'begun' in reply else reply}")
                if "begun" in reply:
                    promoted.add(shard["shard"])
            await asyncio.sleep(0.3)
            state = await self.state()
        self.counts["secondaries promoted"] += len(promoted)

    # Shards that lack replicas.

    async def refill(self) -> None:
        """Begins to add secondaries to shards that a loss has left with fewer replicas than they are to have, each by a plan of its own."""
        state = await self.state()
        rooms = self.mover.rooms(state)
        for shard in lacking(state, self.document):
            has = {it["server"] for it in shard["cells"]}
            free = [it for it, room in rooms.items() if it not in has and room >= shard["load"]]
            if free and shard["shard"] not in self.mover.busy and any(it["state"] == "primary" for it in shard["cells"]):
                target = max(free, key=lambda it: rooms[it])
                rooms[target] -= shard["load"]
                reply = await self.operator.do({"do": "begin", "plan": plan_of([add_stream(shard, target)]), "name": self.name("refill")})
                self.counts["replicas added after a loss"] += "begun" in reply

    async def wait_until_whole(self, seconds: float = 15.0) -> bool:
        """Waits until each shard has as many replicas as it is to have, and tells whether it has: the loss of one more server may take the last one
        otherwise."""
        until = time.monotonic() + seconds
        while time.monotonic() < until:
            state = await self.state()
            if state and not lacking(state, self.document):
                return True
            await self.refill()
            await asyncio.sleep(1.0)
        return False

    async def copies(self) -> dict[tuple[str, str], tuple[int, int]]:
        """Returns the view and the last write of each replica, by shard and server, as the servers tell them."""
        found = {}
        for name in sorted(self.alive):
            for slot in (await self.tell_server(name, audit={})).get("audit", {}).get("slots", []):
                found[slot["shard"], name] = (slot["view"], slot["position"])
        return found


def without_primary(state: Line, promoted: set[str]) -> list[Line]:
    """Returns the shards that have replicas, and all of them secondaries, but for those that were promoted. (The old owner of a handover is no
    primary either, and serves its shard.)"""
    return [it for it in state.get("shards", [])
            if it["cells"] and it["shard"] not in promoted and all(cell["state"] == "secondary" for cell in it["cells"])]


def lacking(state: Line, document: Line) -> list[Line]:
    """Returns the shards that have fewer replicas than they are to have. (The two of a handover are one.)"""
    wants = {it["name"]: it["want"] for it in document["shards"]}
    return [it for it in state.get("shards", []) if replicas_of(it) < wants[it["shard"]]]


def replicas_of(shard: Line) -> int:
    """Returns how many replicas a shard has."""
    states = [it["state"] for it in shard["cells"]]
    return states.count("secondary") + ("primary" in states or "forwarding" in states)


def greatest(shard: Line, copies: dict[tuple[str, str], tuple[int, int]]) -> str:
    """Returns the server whose replica is the greatest: another one would lack writes that were executed."""
    return max(sorted(it["server"] for it in shard["cells"]), key=lambda name: copies.get((shard["shard"], name), (-1, -1)))


def without(state: Line, document: Line, lost: set[str], emptied: frozenset[str] = frozenset()) -> Line:
    """The document of a reopening without servers that are lost. Its cells count for servers alone that have forgotten theirs: those that are
    recorded, but for servers that have lost their data as well."""
    recorded = {it["shard"]: it["cells"] for it in state.get("shards", [])}
    shards = []
    for shard in document["shards"]:
        cells = [
            {"server": it["server"], "state": it["state"]} for it in recorded.get(shard["name"], shard["cells"])
            if it["server"] not in lost | emptied and it["state"] in ("primary", "secondary")
        ]
        listed = next((it["server"] for it in cells if it["state"] == "primary"), None)
        shards.append({**shard, "cells": cells, "listed": listed})
    return {**document, "servers": [it for it in document["servers"] if it["name"] not in lost], "shards": shards}
