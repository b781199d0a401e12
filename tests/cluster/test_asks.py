"""A server that has lost its slots asks for them until it has them, also when a late fence of the opening in force has come
to it: no settle follows that fence.
"""
from __future__ import annotations

from scripted import JOURNAL, PATIENCE, Scripted, ServersTest, until

CELLS = {"s": {"a": "primary", "c": "secondary"}}


async def nonce_of(it: Scripted, server: str, other_than: str | None) -> str:
    """The nonce under which a server asks, once it is another one than this."""
    await until(lambda: it.asked.get(server, other_than) != other_than)
    return it.asked[server]


async def asks_behind_a_fence() -> dict[str, bool]:
    """What is found of a server that a late fence has come to."""
    it = Scripted("ac")
    try:
        await it.start()
        await it.open(CELLS)
        it.kill("c")
        it.asked.clear()
        await it.start("c", loses_slots=True)
        first = await nonce_of(it, "c", None)
        told = (await it.channels["c"].ask(PATIENCE, fence={"server": "c", "base": it.base, "journal": JOURNAL}))["fenced"]
        nonce = await nonce_of(it, "c", first)
        restore = {"server": "c", "nonce": nonce, "journal": JOURNAL, "fence": it.base, "base": it.number, "slots": it.slots("c", CELLS)}
        await it.channels["c"].ask(PATIENCE, restore=restore)
        audit = (await it.channels["c"].ask(PATIENCE, audit={}))["audit"]
        return {"it asks on": int(nonce, 16) == int(told["unknown"], 16), "it is restored": audit["known"] and not audit["fenced"]}
    finally:
        it.close()


class AsksTest(ServersTest):
    """A server that has lost its slots."""

    def test_an_unknown_server_that_a_late_fence_has_come_to(self):
        self.finds(asks_behind_a_fence)
