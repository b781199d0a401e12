"""What the processes of the cluster say to one another: JSON lines over TCP, and the file that tells each process
where the others are. WIRE.md tells it by example.

A request is one JSON object in one line, with an `id` that the reply echoes; replies may come in another order than the
requests. A reply has one member beside `id`: what came of it, or `failed`.
"""
from __future__ import annotations

import asyncio
import itertools
import json
from dataclasses import dataclass, field
from pathlib import Path
from typing import Any, Awaitable, Callable

# The longest line: a shard's copy is one.
LONGEST_LINE = 64 << 20

Message = dict[str, Any]
Handler = Callable[[Message], Awaitable[Message]]


class Failed(Exception):
    """A request that was answered `failed`; `kind` is one word."""

    def __init__(self, kind: str, why: str = "") -> None:
        super().__init__(f"{kind}: {why}" if why else kind)
        self.kind, self.why = kind, why

    def message(self) -> Message:
        """The member of the reply."""
        return {"failed": {"kind": self.kind, "why": self.why}}


@dataclass(frozen=True)
class Address:
    """Where a process listens, or a proxy before it."""

    host: str
    port: int

    @staticmethod
    def of(text: str) -> "Address":
        """Reads `host:port`."""
        host, port = text.rsplit(":", 1)
        return Address(host, int(port))


@dataclass(frozen=True)
class ServerEntry:
    """A server as another process sees it. `number` is its own for ever: slots name the other party of a handover by
    it."""

    name: str
    number: int
    control: Address
    clients: Address
    peers: Address


@dataclass(frozen=True)
class Cluster:
    """Where everybody is, as one process sees it: with proxies between, each process has a file of its own."""

    servers: dict[str, ServerEntry] = field(default_factory=dict)
    controllers: dict[str, Address] = field(default_factory=dict)
    etcd: tuple[str, ...] = ()
    map_prefix: str = "/map/"
    map_file: str | None = None
    # For how many seconds a server serves without a controller's answer; 0: for ever.
    lease: float = 0.0
    # How many servers are to have each write before it is acknowledged.
    copies: int = 1

    def name_of(self, number: int) -> str:
        """The server with this number."""
        return next(it.name for it in self.servers.values() if it.number == number)

    @staticmethod
    def read(path: str | Path) -> "Cluster":
        """Reads the file."""
        told = json.loads(Path(path).read_text())
        servers = {
            name: ServerEntry(name, it["number"], *(Address.of(it[port]) for port in ("control", "clients", "peers")))
            for name, it in told["servers"].items()
        }
        controllers = {name: Address.of(it) for name, it in told.get("controllers", {}).items()}
        copies = told.get("copies", 1)
        if type(copies) is not int or copies < 1:  # (true is an int, too)
            raise ValueError(f"{path}: copies: a write is at one server at least")
        return Cluster(servers, controllers, tuple(told.get("etcd", ())), told.get("map_prefix", "/map/"), told.get("map_file"), told.get("lease", 0.0), copies)


# Writes JSON as short as it goes.
text_of = json.JSONEncoder(separators=(",", ":")).encode


def line_of(message: Message) -> bytes:
    """A message as a line."""
    return text_of(message).encode() + b"\n"


async def read_message(reader: asyncio.StreamReader) -> Message | None:
    """Reads a line, None at the end. A line that is no object ends the connection as well."""
    try:
        line = await reader.readline()
        message = json.loads(line) if line.endswith(b"\n") else None
    except (OSError, ValueError):
        return None
    return message if isinstance(message, dict) else None


async def open_lines(address: Address) -> tuple[asyncio.StreamReader, asyncio.StreamWriter]:
    """Connects for lines."""
    return await asyncio.open_connection(address.host, address.port, limit=LONGEST_LINE)


async def listen(address: Address, handle: Handler) -> asyncio.Server:
    """Answers requests, each in a task of its own, by what `handle` makes of it; it may raise Failed."""
    async def answer(message: Message, writer: asyncio.StreamWriter) -> None:
        try:
            reply = await handle(message)
        except Failed as failed:
            reply = failed.message()
        if "id" in message:
            reply = {"id": message["id"], **reply}
        if not writer.is_closing():
            writer.write(line_of(reply))

    async def serve(reader: asyncio.StreamReader, writer: asyncio.StreamWriter) -> None:
        tasks: set[asyncio.Task[None]] = set()
        try:
            while (message := await read_message(reader)) is not None:
                task = asyncio.create_task(answer(message, writer))
                tasks.add(task)
                task.add_done_callback(tasks.discard)
        except asyncio.CancelledError:
            pass
        finally:
            writer.close()

    return await asyncio.start_server(serve, address.host, address.port, limit=LONGEST_LINE)


class Channel:
    """A connection for requests to one address, made anew when it breaks. What waits for a reply then fails with
    `Lost`."""

    def __init__(self, address: Address, hear: Callable[[Message], None] = lambda reply: None) -> None:
        self.address, self.hear = address, hear
        self.numbers = itertools.count(1)
        self.waiting: dict[int, asyncio.Future[Message]] = {}
        self.writer: asyncio.StreamWriter | None = None
        self.reading: asyncio.Task[None] | None = None
        self.connecting = asyncio.Lock()

    async def ask(self, timeout: float, **request: Any) -> Message:
        """Sends a request and returns the reply; raises Failed, also as `Lost` and `Late`."""
        number = next(self.numbers)
        future: asyncio.Future[Message] = asyncio.get_running_loop().create_future()
        future.add_done_callback(lambda done: done.cancelled() or done.exception())
        self.waiting[number] = future
        try:
            async with asyncio.timeout(timeout):
                async with self.connecting:
                    await self.connect()
                assert self.writer is not None
                self.writer.write(line_of({"id": number, **request}))
                reply = await future
        except TimeoutError as error:
            raise Failed("Late", f"{self.address.host}:{self.address.port}") from error
        except OSError as error:
            raise Failed("Lost", str(error)) from error
        finally:
            self.waiting.pop(number, None)
        if "failed" in reply:
            raise Failed(reply["failed"]["kind"], reply["failed"].get("why", ""))
        return reply

    async def connect(self) -> None:
        """Connects unless it is connected."""
        if self.writer is not None and not self.writer.is_closing():
            return
        reader, self.writer = await open_lines(self.address)
        self.reading = asyncio.create_task(self.read(reader, self.writer))

    async def read(self, reader: asyncio.StreamReader, writer: asyncio.StreamWriter) -> None:
        """Gives each reply to who waits for it."""
        while (reply := await read_message(reader)) is not None:
            self.hear(reply)
            future = self.waiting.get(reply.get("id"))
            if future is not None and not future.done():
                future.set_result(reply)
        writer.close()
        if self.writer is writer:
            self.writer = None
            for future in list(self.waiting.values()):
                if not future.done():
                    future.set_exception(Failed("Lost", "the connection ended"))

    def close(self) -> None:
        """Ends the connection."""
        if self.writer is not None:
            self.writer.close()
        if self.reading is not None:
            self.reading.cancel()
