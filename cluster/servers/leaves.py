"""Leave: who drops a shard asks another server that has all that counts. That one counts it no more from then on."""
from __future__ import annotations

import time
from typing import TYPE_CHECKING

from smplan.agent import Answer, Cell, ToldCopy

from ..wire import Failed, Message
from . import agent, limits
from .shard import Shard

if TYPE_CHECKING:
    from .server import Server
    from .work import Work


class Leaves:
    """The leaves that a server asks for and gives. Each question has a number, and is over at a crash, at a fence, and once it is given up."""

    def __init__(self, server: "Server") -> None:
        self.server, self.store = server, server.store
        self.last = 0

    def number(self) -> int:
        """The number of a question or of a connection: higher than all before, over starts too, and with a new disk. (All servers are on one machine.)"""
        self.last = max(self.last + 1, time.monotonic_ns())
        return self.last

    # -- who asks

    async def take(self, shard: Shard, work: "Work") -> None:
        """Gets leave to drop a shard; raises Failed if nobody gives it in time. (Requests wait for a primary that drops it.)"""
        deadline = time.monotonic() + (limits.HOLDING if shard.slot.cell == Cell.PRIMARY else limits.COPYING)
        while shard.work is work and (why := await self.ask(shard, work)):
            if not await shard.look_again(deadline):
                raise Failed("GivenUp", why)

    async def ask(self, shard: Shard, work: "Work") -> str:
        """Asks the primary once, or the others if there is none or this server is it. Why there is no leave; nothing if there is, or nobody else to ask."""
        name, told = self.server.name, work.told
        others, primary = sorted(set(told.get("replicas") or ()) - {name}), told.get("primary")
        if not others:
            return ""
        is_beside = primary in (None, name)
        if is_beside and not shard.has_copy:
            return "it has lost its copy"
        if is_beside and self.server.cluster.copies > 1 and shard.slot.cell != Cell.PRIMARY and shard.copy.view > self.store.opened:
            return "nobody leads it, and this copy may have writes of a primary since the last reopening"
        question = shard.question = self.number()
        asked = {"shard": shard.name, "from": name, "question": question, "beside": is_beside, "chain": shard.chain, **shard.copy._asdict()}
        why = await self.asked(shard, asked, others if is_beside else [primary])
        if not why and (shard.work is not work or shard.question != question):
            why = "the question is over"
        shard.has_leave = not why
        return why

    async def asked(self, shard: Shard, asked: Message, givers: list[str]) -> str:
        """Asks one server after the other until the primary gives leave, or as many as are to have each write; returns why they do not, if so."""
        said, needed = [], self.server.cluster.copies if asked["beside"] else 1
        for giver in givers:
            try:
                await self.server.peer(giver).ask(limits.LEAVING, leave=asked, **self.server.hearsay.told())
                needed -= 1
            except Failed as failed:
                said.append(f"no leave from {giver}: {failed}")
            if not needed:
                return ""
        return "; ".join(said) or "too few others are named"

    def end(self, shard: Shard) -> None:
        """The question, or the leave, is over. Who was not counted for it is counted on a new connection."""
        if shard.question:
            shard.question, shard.has_leave = 0, False
            if shard.following is not None:
                self.server.stop_following(shard)
                self.server.start_following(shard)

    # -- who is asked

    async def give(self, asked: Message, heard: Message | None) -> Message:
        """Answers who asks for leave, and counts it no more until it connects anew behind its question; raises Failed if it gets none."""
        shard = self.store.shards.get(asked["shard"])
        if shard is None:
            raise Failed("Later", "it does not serve the shard")
        why = self.refusal(shard, asked, heard)
        if why:
            raise Failed("Later", why)
        shard.left[asked["from"]] = asked["question"]
        self.server.sources.count_anew(shard)
        await self.store.save([], "leave", shard=shard.name, to=asked["from"], question=asked["question"])
        return {"leave": True}

    def refusal(self, shard: Shard, asked: Message, heard: Message | None) -> str:
        """Why this server gives no leave, nothing if it does: it serves and has all that counts, or nobody serves, and it has all that the other one has."""
        base, cell = self.store.base, shard.slot.cell
        if not base.known or base.fenced or heard != self.server.hearsay.told()["heard"]:
            return "it knows of another reopening"
        if not self.stays(shard, asked["from"]):
            return "it leaves, too"
        if not (cell == Cell.PRIMARY or (cell == Cell.PREPARED and shard.has_reached_cut) or (cell == Cell.SECONDARY and asked["beside"])):
            return "it does not serve the shard"
        if not self.has_all(shard, ToldCopy(asked["view"], asked["position"]), asked["chain"]):
            return "it lacks writes"
        return "" if cell == Cell.SECONDARY or self.server.sources.have(shard, shard.lead.acknowledged, asked["from"]) else "too few others have all"

    def has_all(self, shard: Shard, theirs: ToldCopy, chain: str) -> bool:
        """Whether this server's copy is not less than another one; if nobody serves, that one is a beginning of it."""
        if not shard.has_copy or agent.compare(theirs, shard.copy) == Answer.GREATER:
            return False
        is_same = theirs != shard.copy or chain == shard.chain
        return shard.slot.cell != Cell.SECONDARY or (shard.resumes(theirs) and is_same)

    def stays(self, shard: Shard, name: str) -> bool:
        """Whether this server keeps the shard. Of two that ask each other the one with the higher number does, and asks anew."""
        servers = self.server.cluster.servers
        if shard.question and not shard.has_leave and servers[self.server.name].number > servers[name].number:
            shard.question = self.number()
            return True
        return not shard.question
