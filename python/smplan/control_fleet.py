"""The servers of a fleet over HTTP, as a controller calls them: six routes that take the session's lines as they are (docs/CONTROLLER.md)."""
from __future__ import annotations

import asyncio
import http.client
import json
import threading
from concurrent.futures import ThreadPoolExecutor
from dataclasses import dataclass
from pathlib import Path
from typing import Any, Dict, List, Optional, Protocol
from urllib.parse import urlsplit

from .control import DONE, Line
from .control_http import fault_of
from .failure import Failure

# How many messages are under way to one server at once, so that one that does not answer keeps no others waiting.
MOST_TO_ONE = 16
MOST_TO_ALL = 256


@dataclass(frozen=True)
class ServerEntry:
    """A server as the fleet's file names it."""

    name: str
    number: int
    url: str


@dataclass(frozen=True)
class FleetFile:
    """The fleet's file: `{"servers":{"a":{"number":1,"url":"http://10.0.0.1:9300"}},"map":{"file":"map.json","then":"COMMAND"}}`."""

    servers: Dict[str, ServerEntry]
    map_file: Path
    then: Optional[str]

    @staticmethod
    def read(path: str) -> "FleetFile":
        """Reads the file, or fails with what is wrong in it."""
        try:
            return FleetFile.of(json.loads(Path(path).read_text(encoding="utf-8")), path)
        except OSError as why:
            raise Failure(f"{path}: {why.strerror}") from None
        except ValueError as why:
            raise Failure(f"{path} is no JSON: {why}") from None

    @staticmethod
    def of(told: Any, path: str) -> "FleetFile":
        """Reads what the file says."""
        try:
            servers = {name: ServerEntry(name, int(it["number"]), str(it["url"]).rstrip("/")) for name, it in told["servers"].items()}
            fleet = FleetFile(servers, Path(told["map"]["file"]), told["map"].get("then"))
        except (ValueError, LookupError, TypeError, AttributeError) as why:
            raise Failure(f"{path} is no file of a fleet (docs/CONTROLLER.md shows one): {type(why).__name__} {why}") from None
        numbers = [it.number for it in servers.values()]
        if len(set(numbers)) < len(numbers) or min(numbers, default=1) < 1:
            raise Failure(f"{path}: each server has a number of its own, from 1, and keeps it for ever")
        for it in servers.values():
            if urlsplit(it.url).scheme not in ("http", "https") or not urlsplit(it.url).hostname:
                raise Failure(f"{path}: {it.name} has no URL as http://HOST:PORT: {it.url}")
        return fleet

    def told(self) -> Line:
        """What servers may want to know of each other."""
        return {"servers": {it.name: {"number": it.number, "url": it.url} for it in self.servers.values()}}


class Link:
    """The connections to one server. Calls block, and are made in threads."""

    def __init__(self, url: str, timeout: float, token: Optional[str]) -> None:
        self.url, self.timeout = urlsplit(url), timeout
        self.fields = {"Content-Type": "application/json", **({"Authorization": f"Bearer {token}"} if token else {})}
        self.idle: List[http.client.HTTPConnection] = []
        self.lock = threading.Lock()
        self.gate = asyncio.Semaphore(MOST_TO_ONE)

    def connection(self) -> http.client.HTTPConnection:
        """A new connection."""
        kind = http.client.HTTPSConnection if self.url.scheme == "https" else http.client.HTTPConnection
        return kind(self.url.hostname or "", self.url.port, timeout=self.timeout)

    def call(self, method: str, path: str, line: Optional[Line]) -> Line:
        """Asks once, or twice if a connection that was at rest had ended, and returns the answer, or `said` and why there is none."""
        with self.lock:
            rested = self.idle.pop() if self.idle else None
        try:
            if rested is not None:
                try:
                    return self.exchange(rested, method, path, line)
                except (http.client.RemoteDisconnected, ConnectionError, BrokenPipeError):
                    rested.close()
            return self.exchange(self.connection(), method, path, line)
        except (OSError, http.client.HTTPException, ValueError) as why:
            return {"said": f"{type(why).__name__} {why}".strip()}

    def exchange(self, connection: http.client.HTTPConnection, method: str, path: str, line: Optional[Line]) -> Line:
        """Sends a line, and reads the answer."""
        try:
            connection.request(method, self.url.path + path, None if line is None else json.dumps(line).encode(), self.fields)
            answer = connection.getresponse()
            text = answer.read()
        except BaseException:
            connection.close()
            raise
        with self.lock:
            self.idle.append(connection)
        if answer.status != 200:
            return {"said": f"{answer.status} {fault_of(text) or answer.reason}"}
        told = json.loads(text)
        return told if isinstance(told, dict) else {"said": "the answer is no JSON object"}

    def close(self) -> None:
        """Closes the connections at rest."""
        with self.lock:
            idle, self.idle = self.idle, []
        for it in idle:
            it.close()


class MapOwner(Protocol):
    """Who shows the published map."""

    async def publish(self, publication: Line) -> str:
        """Shows an entry if it is newer."""

    async def fence(self, fence: Line) -> Optional[Line]:
        """Takes a fence."""

    async def settle(self, settle: Line) -> str:
        """Takes all entries once."""


class HttpFleet:
    """The servers of a fleet and the owner of its map, as `smplan.control` wants them."""

    def __init__(self, file: FleetFile, owner: MapOwner, timeout: float, token: Optional[str] = None) -> None:
        self.owner, self.timeout, self.token = owner, timeout, token
        self.links: Dict[str, Link] = {}
        self.pool = ThreadPoolExecutor(MOST_TO_ALL, "to-server")
        self.take(file)

    def take(self, file: FleetFile) -> None:
        """Takes the servers of a file; those that are the same keep their connections."""
        self.file = file
        links = {it.name: self.links.get(it.name) for it in file.servers.values()}
        before, self.links = self.links, {}
        for name, link in links.items():
            entry = file.servers[name]
            self.links[name] = link if link is not None and link.url == urlsplit(entry.url) else Link(entry.url, self.timeout, self.token)
        for name, link in before.items():
            if self.links.get(name) is not link:
                link.close()

    async def call(self, server: str, method: str, path: str, line: Optional[Line] = None) -> Line:
        """Asks a server, and returns its answer, or `said` and why there is none."""
        link = self.links.get(server)
        if link is None:
            return {"said": "the fleet's file names no such server"}
        async with link.gate:
            return await asyncio.get_running_loop().run_in_executor(self.pool, link.call, method, path, line)

    async def tell(self, path: str, message: Line) -> str:
        """Sends a message to its server, and returns DONE, or what the server said else."""
        told = await self.call(message["server"], "POST", path, message)
        return DONE if told.get("done") is True else str(told.get("said", "no answer"))

    async def order(self, order: Line) -> str:
        """Sends an order."""
        return await self.tell("/order", order)

    async def publish(self, publication: Line) -> str:
        """Shows an entry of the map."""
        return await self.owner.publish(publication)

    async def restore(self, restore: Line) -> str:
        """Sends a server the slots that it asked for. It asks again if they do not come, so one try is enough."""
        await self.tell("/restore", restore)
        return DONE

    async def fence(self, fence: Line) -> Optional[Line]:
        """Sends a fence, and returns what the server tells of its slots."""
        if fence.get("server") is None:
            return await self.owner.fence(fence)
        told: Dict[str, Any] = await self.call(fence["server"], "POST", "/fence", fence)
        if isinstance(told.get("unknown"), str):
            return {"unknown": told["unknown"]}
        return {"slots": told["slots"]} if isinstance(told.get("slots"), list) else None

    async def settle(self, settle: Line) -> str:
        """Sends a settle."""
        return await self.owner.settle(settle) if settle.get("server") is None else await self.tell("/settle", settle)

    async def notice(self, notice: Line) -> str:
        """Tells a server of the last reopening."""
        return await self.tell("/notice", notice)

    async def base(self, server: str) -> Optional[int]:
        """Asks a server for the number of its base; none if it is Unknown or fenced, or does not answer."""
        base = (await self.call(server, "GET", "/base")).get("base")
        return base if isinstance(base, int) and not isinstance(base, bool) else None

    def close(self) -> None:
        """Ends all connections."""
        for link in self.links.values():
            link.close()
        self.pool.shutdown(wait=False)
