"""What a server tells the controllers of the copies of its shards: a reopening counts by it, and names fewer shards as lost."""
from __future__ import annotations

import asyncio
from typing import TYPE_CHECKING

from smplan.agent import Cell

from ..wire import Channel, Failed, Message
from . import limits
from .shard import Shard, hexadecimal

if TYPE_CHECKING:
    from .server import Server


class Copied:
    """How many servers have each acknowledged write of the shards that this one leads, told under each reopening, and again while a controller knows of fewer."""

    def __init__(self, server: "Server") -> None:
        self.server, self.store = server, server.store
        self.channels = [Channel(it) for it in server.cluster.controllers.values()]

    async def tell(self) -> None:
        """Tells of each shard that it leads, as soon as enough servers have all that was here when it began to."""
        while self.server.cluster.copies > 1:
            await asyncio.sleep(limits.COPIED)
            await asyncio.gather(*(self.tell_one(it) for it in list(self.store.shards.values()) if self.is_to_tell(it)))

    def is_to_tell(self, shard: Shard) -> bool:
        """Whether a shard is led here, is not told yet, and enough servers have it."""
        base, is_led = self.store.base, shard.slot.cell == Cell.PRIMARY
        return bool(base.known) and not base.fenced and is_led and shard.lead.told != self.store.opened and self.has_enough(shard)

    def has_enough(self, shard: Shard) -> bool:
        """Whether enough servers have all that was here when this one began to lead."""
        return shard.lead.noted <= shard.lead.enough

    async def tell_one(self, shard: Shard) -> None:
        """Tells of one shard. Whoever leads answers once it is known."""
        lead, fence = shard.lead, self.store.opened
        line: Message = {"journal": hexadecimal(self.store.base.journal), "fence": fence, "shard": shard.name, "copies": self.server.cluster.copies}
        for channel in self.channels:
            try:
                await channel.ask(limits.STEP, copied=line)
                self.store.note("copied", shard=shard.name, fence=fence)
            except Failed as why:
                if why.kind != "Refused":  # (more than the shard wants: a reopening decides that)
                    continue
            lead.told = fence
            return
