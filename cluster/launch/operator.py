"""An operator: sends lines to whichever controller leads, again and again until one replies."""
from __future__ import annotations

import asyncio
import json
from collections.abc import Awaitable, Callable, Mapping
from typing import Any

from smplan.control import Line

from cluster.controllers.etcd import exchange

Connection = tuple[asyncio.StreamReader, asyncio.StreamWriter]
LONGEST_REPLY = 64 << 20

class NoLeader(Exception):
    """No controller took a line in time."""


class Operator:
    """Speaks with the controllers' HTTP ports. All its lines may be sent again: they have names, or say the same twice."""

    def __init__(self, pages: Mapping[str, int], patience: float = 90.0) -> None:
        self.pages, self.patience = dict(pages), patience
        # The connections at rest.
        self.idle: dict[str, list[Connection]] = {name: [] for name in pages}
        self.leader = next(iter(pages))

    async def post(self, name: str, path: str, line: Line | None, timeout: float = 2.5) -> Any:
        """Asks one controller; None if it does not answer, or does not lead."""
        connection, idle = None, self.idle[name]
        try:
            async with asyncio.timeout(timeout):
                connection = idle.pop() if idle else await asyncio.open_connection("127.0.0.1", self.pages[name], limit=LONGEST_REPLY)
                status, text = await exchange(*connection, path, line)
        except (OSError, EOFError, ValueError, TimeoutError):
            self.close(name, connection)
            return None
        except BaseException:
            self.close(name, connection)
            raise
        idle.append(connection)
        return json.loads(text) if status == 200 else None

    def close(self, name: str, failed: Connection | None = None) -> None:
        """Ends the connections to a controller: those at rest, and the one that failed."""
        idle, self.idle[name] = self.idle[name], []
        for _, writer in idle + ([failed] if failed else []):
            writer.close()

    async def do(self, line: Line, timeout: float = 2.5, path: str = "/do") -> Line:
        """Has the leader store and feed a line, and returns the reply. It goes to the next controller if none comes within the timeout."""
        async def post() -> Line | None:
            asked = self.leader
            reply = await self.post(asked, path, line, timeout)
            if reply is None:
                self.turn(asked)
            return reply
        return await self.until_answered(post, line.get("do", path))

    async def until_answered(self, post: Callable[[], Awaitable[Line | None]], what: str) -> Line:
        """Posts a line again and again until there is a reply."""
        try:
            async with asyncio.timeout(self.patience):
                while (reply := await post()) is None:
                    await asyncio.sleep(0.05)
                return reply
        except TimeoutError:
            raise NoLeader(f"no controller took the line {what} within {self.patience:g} s") from None

    async def restarted(self, permit: int) -> Line:
        """Has the leader ask the server that has this permit for its base, for which it waits 5 s, and end the restart."""
        return await self.do({"permit": permit}, 7.5, "/restarted")

    async def reopen(self, line: Line) -> Line:
        """Has a reopening begun. Each further `reopen` begins it anew, so this one goes to who leads, and waits long for the reply."""
        async def post() -> Line | None:
            leader = await self.find_leader()
            return None if leader is None else await self.post(leader, "/do", line, self.patience / 4)
        return await self.until_answered(post, "reopen")

    async def tell_off(self, servers: list[str]) -> None:
        """Tells the leader that servers are off."""
        await self.do({"servers": servers}, path="/off")

    async def ask(self, line: Line) -> Line:
        """Asks the controller that led last, or any that answers."""
        for _ in range(2 * len(self.pages)):
            asked = self.leader
            reply = await self.post(asked, "/ask", line)
            if reply is not None:
                return reply
            self.turn(asked)
        return {}

    def turn(self, asked: str) -> None:
        """Speaks with the controller behind the one that was asked from now on, unless another one was found meanwhile."""
        names = list(self.pages)
        if self.leader == asked:
            self.leader = names[(names.index(asked) + 1) % len(names)]

    async def find_leader(self) -> str | None:
        """Asks controllers whether they lead, and speaks with the one that does from now on; none if nobody does."""
        for name in dict.fromkeys([self.leader, *self.pages]):
            told = await self.post(name, "/leads", None)
            if told is not None and told["leads"]:
                self.leader = name
                return name
        return None

    async def state(self) -> Line:
        """What the leader's page shows, nothing if nobody leads."""
        leader = await self.find_leader()
        return (await self.post(leader, "/state", None) if leader is not None else None) or {}
