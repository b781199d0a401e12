"""Carries what a controller sends: orders, restores, fences and settles to servers over the wire, publications to the map in etcd."""
from __future__ import annotations

from smplan.control import DONE, Line

from cluster.wire import Channel, Cluster, Failed

from .map_owner import MapOwner


# How the wire names what a session calls otherwise.
WIRE_NAMES = {"cell": "state", "party": "other"}
SESSION_NAMES = {there: here for here, there in WIRE_NAMES.items()}
TOLD = ("shard", "cell", "party", "handover", "last", "load", "cut", "position", "view", "reached")


def to_wire(message: Line) -> Line:
    """Returns a restore or a settle as the wire has it."""
    return {**message, "slots": [{WIRE_NAMES.get(name, name): it for name, it in slot.items()} for slot in message["slots"]]}


def from_wire(slot: Line) -> Line:
    """Returns what a server tells of a slot as a session reads it."""
    told = {SESSION_NAMES.get(name, name): it for name, it in slot.items()}
    return {name: told[name] for name in TOLD if told.get(name) is not None}


class Fleet:
    """The servers of a cluster and the owner of its map, as `smplan.control` wants them."""

    def __init__(self, cluster: Cluster, owner: MapOwner, timeout: float = 1.5) -> None:
        self.channels = {name: Channel(entry.control) for name, entry in cluster.servers.items()}
        self.owner, self.timeout = owner, timeout

    async def ask(self, server: str, **request: Line) -> Line:
        """Sends a server a request, and returns its reply, or `said` and why there is none."""
        channel = self.channels.get(server)
        if channel is None:
            return {"said": "no such server"}
        try:
            return await channel.ask(self.timeout, **request)
        except Failed as failed:
            return {"said": str(failed)}

    async def order(self, order: Line) -> str:
        """Sends an order. Returns DONE if the server names this very order, and otherwise what it said."""
        reply = await self.ask(order["server"], order=order)
        told = reply.get("answered")
        if "any-reply-counts" in self.owner.bugs:
            return DONE
        if told is None:
            return reply.get("said", "no answer")
        await self.owner.name_prepared(order)
        return DONE if all(told[it] == order[it] for it in ("plan", "stream", "number")) else "another order was answered"

    async def publish(self, publication: Line) -> str:
        """Writes an entry of the map."""
        return await self.owner.publish(publication)

    async def restore(self, restore: Line) -> str:
        """Sends slots to a server that asked. It asks again if they do not come, so one try is enough."""
        await self.ask(restore["server"], restore=to_wire(restore))
        return DONE

    async def fence(self, fence: Line) -> Line | None:
        """Sends a fence, and returns what the server tells of its slots."""
        if fence.get("server") is None:
            return await self.owner.fence(fence)
        reply = await self.ask(fence["server"], fence=fence)
        told = reply.get("fenced")
        if told is None or told["base"] != fence["base"]:
            return None
        return {"unknown": told["unknown"]} if "unknown" in told else {"slots": [from_wire(it) for it in told["slots"]]}

    async def settle(self, settle: Line) -> str:
        """Sends a settle."""
        if settle.get("server") is None:
            return await self.owner.settle(settle)
        reply = await self.ask(settle["server"], settle=to_wire(settle))
        told = reply.get("settled")
        return DONE if told is not None and told["base"] == settle["base"] else reply.get("said", "no answer")

    async def notice(self, notice: Line) -> str:
        """Tells a server of the last reopening."""
        reply = await self.ask(notice["server"], notice={"journal": notice["journal"], "fence": notice["fence"]})
        return DONE if "noticed" in reply else reply.get("said", "no answer")

    async def slots(self, server: str) -> Line | None:
        """Asks a server for all its slots; none if it does not answer, or has none."""
        told = (await self.ask(server, audit={})).get("audit", {})
        if not told.get("known") or told["fenced"]:
            return None
        return {"slots": [from_wire(it) for it in told["slots"]], "lacks": [it for it in told["slots"] if "lacks" in it]}

    async def base(self, server: str) -> int | None:
        """Asks a server for the number of its base."""
        told = (await self.ask(server, audit={})).get("audit", {})
        return told["base"] if told.get("known") and not told["fenced"] else None

    def close(self) -> None:
        """Ends all connections."""
        for channel in self.channels.values():
            channel.close()
