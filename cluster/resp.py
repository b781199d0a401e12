"""RESP, the protocol of Redis, as far as the cluster speaks it: as a client of a redis-server, and as what clients
speak to the cluster's servers."""
from __future__ import annotations

import asyncio
from collections import deque
from typing import Union

Part = Union[bytes, str, int]
Reply = Union[bytes, int, str, None, list, "ErrorReply"]


class ErrorReply(Exception):
    """A reply that is an error; its text begins with the word that says what kind."""

    @property
    def kind(self) -> str:
        """The first word."""
        return str(self).split(" ", 1)[0]


def encode_part(part: Part) -> bytes:
    """A bulk string."""
    data = part if isinstance(part, bytes) else str(part).encode()
    return b"$%d\r\n%s\r\n" % (len(data), data)


def encode_command(parts: tuple[Part, ...]) -> bytes:
    """A command, as a list of bulk strings."""
    return b"*%d\r\n" % len(parts) + b"".join(map(encode_part, parts))


def encode_reply(reply: Reply) -> bytes:
    """A reply to a client."""
    if reply is None:
        return b"$-1\r\n"
    if isinstance(reply, ErrorReply):
        return b"-%s\r\n" % str(reply).replace("\r", " ").replace("\n", " ").encode()
    if isinstance(reply, int):
        return b":%d\r\n" % reply
    if isinstance(reply, str):
        return b"+%s\r\n" % reply.encode()
    if isinstance(reply, list):
        return b"*%d\r\n" % len(reply) + b"".join(map(encode_reply, reply))
    return encode_part(reply)


class Parser:
    """Takes replies, or commands, out of bytes as they come. A line of any other kind is a command as somebody types it."""

    def __init__(self) -> None:
        # What is not complete, and how many bytes it has at least when it is.
        self.rest: list[bytes] = []
        self.size = self.needed = 0
        # The lists that have begun, each with how many parts it will have.
        self.lists: list[tuple[list[Reply], int]] = []

    def feed(self, data: bytes) -> list[Reply]:
        """Returns what is complete with these bytes. Raises ValueError if they are none of the protocol."""
        self.rest.append(data)
        self.size += len(data)
        if self.size < self.needed:
            return []
        data, at, complete, needed = b"".join(self.rest), 0, [], 0
        while (end := data.find(b"\r\n", at)) >= 0:
            kind, text, at_next = data[at:at + 1], data[at + 1:end], end + 2
            value: Reply = None
            if kind == b"$":
                size = int(text)
                if size >= 0:
                    if len(data) < at_next + size + 2:
                        needed = at_next + size + 2 - at
                        break
                    value, at_next = data[at_next:at_next + size], at_next + size + 2
            elif kind == b"*":
                if int(text) > 0:
                    self.lists.append(([], int(text)))
                    at = at_next
                    continue
                value = [] if int(text) == 0 else None
            else:
                value = value_of_line(kind, text)
            at = at_next
            self.put(value, complete)
        self.rest, self.size, self.needed = [data[at:]] if at < len(data) else [], len(data) - at, needed
        return complete

    def put(self, value: Reply, complete: list[Reply]) -> None:
        """Makes a value a part of the list that has begun last, and what is complete with it a part of the next one, or complete as a whole."""
        while self.lists:
            parts, count = self.lists[-1]
            parts.append(value)
            if len(parts) < count:
                return
            self.lists.pop()
            value = parts
        complete.append(value)


def value_of_line(kind: bytes, text: bytes) -> Reply:
    """The value of a reply that is one line."""
    if kind == b"+":
        return text
    if kind == b"-":
        return ErrorReply(text.decode())
    return int(text) if kind == b":" else (kind + text).split()


class Redis(asyncio.Protocol):
    """A connection to a redis-server. Commands of several tasks go out one behind the other, those of one moment together; a transaction goes out
    as a whole."""

    def __init__(self) -> None:
        self.transport: asyncio.Transport | None = None
        self.parser = Parser()
        # Who waits for each reply; nobody does for what a transaction replies before its end.
        self.waiting: deque[asyncio.Future[Reply] | None] = deque()
        self.unsent: list[bytes] = []

    @staticmethod
    async def open(path: str) -> "Redis":
        """Connects by a unix socket."""
        return (await asyncio.get_running_loop().create_unix_connection(Redis, path))[1]

    @staticmethod
    async def open_port(host: str, port: int) -> "Redis":
        """Connects by TCP: to a server of the cluster, too."""
        return (await asyncio.get_running_loop().create_connection(Redis, host, port))[1]

    @property
    def is_closed(self) -> bool:
        """Whether the connection has ended."""
        return self.transport is None or self.transport.is_closing()

    def connection_made(self, transport: asyncio.BaseTransport) -> None:
        """Begins."""
        self.transport = transport  # type: ignore[assignment]

    def connection_lost(self, error: Exception | None) -> None:
        """Ends."""
        self.close()

    def data_received(self, data: bytes) -> None:
        """Gives each reply to who waits for it."""
        try:
            for reply in self.parser.feed(data):
                future = self.waiting.popleft()
                if future is not None and not future.done():
                    future.set_result(reply)
        except (IndexError, ValueError):
            self.close()

    def write(self, data: bytes) -> None:
        """Sends bytes, together with what else is sent in this moment."""
        if not self.unsent:
            asyncio.get_running_loop().call_soon(self.flush)
        self.unsent.append(data)

    def flush(self) -> None:
        """Sends what is unsent."""
        data, self.unsent = b"".join(self.unsent), []
        if self.transport is not None and not self.transport.is_closing():
            self.transport.write(data)

    def future(self) -> "asyncio.Future[Reply]":
        """A reply to come, whose error may pass unseen."""
        future: asyncio.Future[Reply] = asyncio.get_running_loop().create_future()
        future.add_done_callback(lambda done: done.cancelled() or done.exception())
        if self.is_closed:
            future.set_exception(ConnectionError("the connection is closed"))
        return future

    def send(self, *parts: Part) -> "asyncio.Future[Reply]":
        """Sends a command; its reply comes later."""
        future = self.future()
        if not future.done():
            self.waiting.append(future)
            self.write(encode_command(parts))
        return future

    async def call(self, *parts: Part) -> Reply:
        """Sends a command and returns its reply; an error is raised."""
        reply = await self.send(*parts)
        if isinstance(reply, ErrorReply):
            raise reply
        return reply

    async def transaction(self, commands: list[tuple[Part, ...]]) -> list[Reply]:
        """Runs commands as one MULTI. Raises if any of them failed."""
        future = self.future()
        if not future.done():
            self.waiting += [None] * (len(commands) + 1)
            self.waiting.append(future)
            self.write(b"".join(map(encode_command, [("MULTI",), *commands, ("EXEC",)])))
        replies = await future
        if isinstance(replies, ErrorReply):
            raise replies
        failed = next((it for it in replies if isinstance(it, ErrorReply)), None)
        if failed is not None:
            raise failed
        return replies

    def close(self) -> None:
        """Ends the connection; who waits gets a ConnectionError."""
        if self.transport is not None:
            self.transport.close()
        while self.waiting:
            future = self.waiting.popleft()
            if future is not None and not future.done():
                future.set_exception(ConnectionError("the connection ended"))
