"""Servers that crash, and servers that are restarted under a permit, with or without their slots."""
from __future__ import annotations

import asyncio
import time
from collections.abc import Awaitable, Callable

from cluster.wire import Address, Channel

from .story import Story


class ServerStory(Story):
    """What happens to the servers of a story."""

    # Crashes.

    async def crash_server(self) -> None:
        """Kills a server without leave, each second time while an order is at work there, and starts it again with its slots."""
        async with self.restarting:
            name = self.dice.choice(self.alive)
            if self.dice.random() < 0.5:
                await self.crash(name)
                return
            async with self.slowed(f"peer {name} "):
                await self.wait_for_work([name])
                await self.crash(name)

    async def crash(self, name: str) -> None:
        """Kills a server as it is, and starts it again."""
        self.tell(f"kill -9 {name}, without leave")
        await self.cluster.processes[name].kill()
        self.counts["servers killed without leave"] += 1
        await asyncio.sleep(self.dice.uniform(0.2, 1.0))
        await self.cluster.processes[name].start()

    async def wait_for_work(self, names: list[str], seconds: float = 3.0) -> None:
        """Waits until an order is at work at one of these servers, for some seconds at most."""
        channels = [Channel(Address("127.0.0.1", self.cluster.ports[it].control)) for it in names]
        until = time.monotonic() + seconds
        while time.monotonic() < until:
            told = await asyncio.gather(*(it.ask(1.0, status={}) for it in channels), return_exceptions=True)
            if any(isinstance(it, dict) and it["status"]["work"] for it in told):
                break
            await asyncio.sleep(0.02)
        for channel in channels:
            channel.close()

    # Restarts under a permit.

    async def forget(self) -> None:
        """Restarts a server, which loses its slots: each time another one, as who is restarted without leave does not get them back."""
        server = self.dice.choice([it for it in self.alive if it not in self.forgetful] or self.alive)
        self.forgetful.add(server)
        await self.restart_server(True, server)

    async def restart_server(self, lose_slots: bool | None = None, server: str | None = None, started: Callable[[str], Awaitable[None]] | None = None) -> bool:
        """Asks for leave to restart a server, kills it, starts it again with or without its slots, does what is named once it has `started`, and tells that it
        is up."""
        async with self.restarting:
            name = server if server in self.alive else self.dice.choice(self.alive)
            permit = await self.approved(name, self.name("rollout"))
            if permit is None:
                return False
            lose = self.dice.random() < 0.5 if lose_slots is None else lose_slots
            self.tell(f"restart {name} under permit {permit}{', which loses its slots' if lose else ''}")
            self.note_permit(name, True)
            await self.cluster.processes[name].kill()
            await asyncio.sleep(self.dice.uniform(0.2, 0.8))
            await self.cluster.processes[name].start(*(["--lose-slots"] if lose else []))
            if started is not None:
                await started(name)
            if not await self.is_up(name, permit):
                return False
            for _ in range(self.dice.randint(0, 1)):
                await self.operator.restarted(permit)
            self.note_permit(name, False)
            self.counts["restarts"] += 1
            return True

    async def is_up(self, name: str, permit: int) -> bool:
        """Ends a restart, and tells whether the server is up. The end is refused as long as the server has no slots: a plan that names it would keep it
        from being restored. A restart that nobody approved has no end."""
        if not permit:
            return True
        until = time.monotonic() + self.operator.patience
        while time.monotonic() < until:
            reply = await self.operator.restarted(permit)
            if "refused" not in reply and "fault" not in reply:
                return True
            await asyncio.sleep(0.2)
        self.tell(f"the restart of {name} does not come to its end: {reply}")
        self.counts["restarts without an end"] += 1
        return False

    def note_permit(self, name: str, is_down: bool) -> None:
        """Notes that a server goes down under its permit, or is up again."""
        self.permits.append({"server": name, "t": time.monotonic_ns(), "kind": "permit", "down": is_down})

    async def approved(self, name: str, by: str) -> int | None:
        """Asks for leave until it is given, while no new plan names the server; None if it is not given."""
        if "restart-without-approval" in self.cluster.bugs:
            return 0
        is_avoided = name in self.mover.avoided
        self.mover.avoided.add(name)
        try:
            reply, until = {}, time.monotonic() + self.operator.patience / 6
            while time.monotonic() < until:
                reply = await self.operator.do({"do": "approve", "server": name, "by": by})
                if "approved" in reply:
                    return reply["approved"]["permit"]
                await asyncio.sleep(0.3)
            self.tell(f"{name} may not be restarted: {reply}")
            self.counts["restarts denied"] += 1
            return None
        finally:
            if not is_avoided:
                self.mover.avoided.discard(name)

    # A server that forgets twice.

    async def forget_twice(self) -> None:
        """Restarts a server twice, without its slots, while copies of messages to it come late. Those about the first restore come once it has lost its slots again."""
        server = self.dice.choice(self.alive)
        self.mover.avoided.add(server)
        await self.copy_late(server, True)
        await self.cluster.tell_proxies(links=self.links_with(server), copies=True)
        await self.restart_server(True, server)
        await asyncio.sleep(self.dice.uniform(0.2, 0.8))
        await self.restart_server(True, server, self.hear_late)
        await self.release_copies(server)
        self.mover.avoided.discard(server)
        await asyncio.sleep(2.0)
        await self.copy_late(server, False)

    async def hear_late(self, name: str) -> None:
        """Has the copies that were kept come to a server, and each second time the fence of the last reopening once more, for which nobody settles it."""
        await self.release_copies(name)
        state = await self.state()
        if state and self.dice.random() < 0.5:
            await self.tell_server(name, fence={"server": name, "journal": state["journal"], "base": state["fence"]})

    async def release_copies(self, name: str) -> None:
        """Has the copies that were kept on links to a server come now."""
        await self.cluster.tell_proxies(links=self.links_with(name), copies=False)

    def links_with(self, name: str) -> list[str]:
        """The links on which a server and controllers speak, about its slots too."""
        return [*self.orders_to(name), f"ask {name} "]

    async def copy_late(self, name: str, is_late: bool) -> None:
        """Has a copy of each message to a server come late, or as many as usual."""
        links = self.links_with(name)
        usual = self.cluster.proxies.rates.get("order", {"repeat": 0.0, "rare": 0.0})
        await self.cluster.tell_proxies(links=links, rates={"repeat": 1.0, "rare": 1.0, "longest": 0.8} if is_late else usual)
