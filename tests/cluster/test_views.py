"""The views of copies: what a reopening or a change of roles begins, and a handover does not. A secondary that had more than the one which a reopening
made the primary has a lesser copy from then on, however long it is, until it has copied the other one's list."""
from __future__ import annotations

import asyncio

from scripted import PATIENCE, Scripted, ServersTest
from test_leaves import said
from test_losses import SWAPPED, has, lost_alone, push, told

from smplan.agent import ToldCopy

# So many seconds a secondary needs at most to find whom it has to follow.
FOLLOWING = 2.0


async def copy_of(it: Scripted, server: str) -> ToldCopy:
    """The copy of the shard as a server tells it."""
    slot = await told(it, server)
    return ToldCopy(slot["view"], slot["position"])


async def alike(it: Scripted, one: str, other: str) -> bool:
    """Waits until two servers tell the same; false if they do not come to that."""
    async with asyncio.timeout(PATIENCE):
        while await copy_of(it, one) != await copy_of(it, other):
            await asyncio.sleep(0.05)
    return True


async def fork(it: Scripted) -> tuple[ToldCopy, ToldCopy]:
    """What the former primary tells that had more, while it has not followed the new one yet, and what that one tells."""
    await lost_alone(it)
    for settle in sorted(it.settles(await it.fence(), SWAPPED), key=lambda settle: settle["server"]):
        await it.channels[settle["server"]].ask(PATIENCE, settle=settle)
        if settle["server"] == "a":
            it.kill("a")
    await push(it, "c", "four")
    it.kill("c")
    await it.start("a")
    one = await copy_of(it, "a")
    await it.start("c")
    return one, await copy_of(it, "c")


async def views() -> dict[str, bool]:
    """What is found of the views of lists."""
    it = Scripted("abc")
    try:
        found, former, new = {}, *await fork(it)
        found["a list that went on elsewhere is longer, and less"] = new.position < former.position and former < new
        found["the reopening began a view"] = new.view == it.base
        found["who follows takes it over"] = await alike(it, "a", "c")
        await it.move("s", "c", "b", ["a", "c"])
        await push(it, "b", "five")
        found["a handover begins none"] = await copy_of(it, "b") == (new.view, new.position + 1) and await alike(it, "a", "b")
        roles = {"primary": "b", "replicas": ["a", "b"]}
        await it.send(it.order("b", "change", "s", **{"from": "primary"}, to="secondary", **roles))
        await it.send(it.order("a", "change", "s", **{"from": "secondary"}, to="primary", **roles))
        found["a change of roles begins one"] = await copy_of(it, "a") == (it.number, new.position + 1)
        await push(it, "a", "six")
        found["the former primary takes that over"] = await alike(it, "b", "a")
        it.kill("b")
        await it.start("b")
        found["it is stored"] = await alike(it, "b", "a")
        for order in it.handover("s", "a", "c", ["a", "b"])[:2]:
            await it.send(order)
        for settle in it.settles(await it.fence(), {"s": {"c": "primary", "b": "secondary"}}):
            if settle["server"] == "c":  # (which b follows by then)
                await asyncio.sleep(FOLLOWING)
            await it.channels[settle["server"]].ask(PATIENCE, settle=settle)
        found["a new owner that a reopening makes the primary begins one"] = (await copy_of(it, "c")).view == it.base
        found["who follows it already is told so"] = await alike(it, "b", "c")
        return found
    finally:
        it.close()


async def promoted() -> dict[str, bool]:
    """A secondary that becomes primary, of which another one has more, as nobody leads."""
    it = Scripted("ac")
    try:
        await lost_alone(it)
        await it.settle(await it.fence(), {"s": {"a": "secondary", "c": "secondary"}})
        it.kill("a")
        order = it.order("c", "change", "s", **{"from": "secondary"}, to="primary", primary=None, replicas=["a", "c"])
        found = {"it waits for one that does not answer": await said(it, order) != "answered"}
        await it.start("a")
        await it.send(order)
        found["it has what the other one had more"] = (await told(it, "c"))["position"] == 3
        await push(it, "c", "four")
        found["who had more follows it"] = await alike(it, "a", "c")
        return found
    finally:
        it.close()


class ViewsTest(ServersTest):
    """Lists that go on elsewhere."""

    def test_who_becomes_primary_takes_what_others_have_more(self):
        self.finds(promoted)

    def test_views_of_lists(self):
        self.finds(views)
