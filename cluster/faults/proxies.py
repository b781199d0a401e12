"""Proxies that lose, repeat, delay and reorder what goes through them: lines by themselves, HTTP requests and answers, and streams of bytes."""
from __future__ import annotations

import asyncio
from collections.abc import Awaitable, Callable
from dataclasses import dataclass

from .dice import Dice

Reader, Writer = asyncio.StreamReader, asyncio.StreamWriter
LONGEST_LINE = 64 << 20
# What is seldom sent, and its answers.
RARE = (b'"fence"', b'"fenced"', b'"settle"', b'"settled"', b'"restore"', b'"restored"')
Relay = Callable[[Reader, Writer, Reader, Writer, "Link"], Awaitable[None]]


@dataclass
class Link:
    """A way through a proxy. Nothing gets through if it is cut, and nothing comes back if it is mute. If it is a hole nothing comes through either
    way, and its connections stand. A message that has all texts of `held` does not get through (a line) or waits (a request of HTTP). If there are
    `copies`, each message that is seldom sent is kept among them, to come again, and each order if there are `orders`."""

    name: str
    dice: Dice
    host: str
    port: int
    is_cut: bool = False
    is_mute: bool = False
    is_hole: bool = False
    held: tuple[bytes, ...] = ()
    copies: list[bytes] | None = None
    orders: list[bytes] | None = None

    def holds(self, message: bytes) -> bool:
        """Whether a message is one of those that are held."""
        return bool(self.held) and all(it in message for it in self.held)

    def keep(self, line: bytes) -> None:
        """Keeps a copy of a line, if copies of its kind are kept."""
        for kept, is_of_kind in ((self.copies, is_rare(line)), (self.orders, b'"order"' in line[:40])):
            if kept is not None and is_of_kind:
                kept.append(line)

    def count(self, what: str) -> None:
        """Counts what befell a message."""
        self.dice.counts[f"{self.dice.kind} {what}"] += 1


async def send_late(writer: Writer, line: bytes, seconds: float, link: Link | None) -> None:
    """Writes a line later. Lines behind it may overtake it. If its connection has ended by then, it gets one of its own to the far end of a link."""
    await asyncio.sleep(seconds)
    if not writer.is_closing():
        writer.write(line)
    elif link is not None and not link.is_cut and not link.holds(line[:40]):
        await send_by_itself(line, link)


async def send_by_itself(line: bytes, link: Link) -> None:
    """Sends a line to the far end of a link, by a connection of its own."""
    try:
        _, far_writer = await asyncio.open_connection(link.host, link.port)
        far_writer.write(line)
        await asyncio.sleep(1.0)
        far_writer.close()
    except OSError:
        pass


def is_rare(line: bytes) -> bool:
    """Whether a line is of those that are seldom sent."""
    return any(it in line[:40] for it in RARE)


async def relay_lines(reader: Reader, writer: Writer, link: Link, outlives: bool = False, is_back: bool = False) -> None:
    """Carries lines one way, or back, each by its own luck. A late one may outlive the connection: it comes all the same when the far end runs
    again."""
    late: set[asyncio.Task[None]] = set()

    def send(line: bytes, seconds: float) -> None:
        if not seconds:
            writer.write(line)
            return
        task = asyncio.create_task(send_late(writer, line, seconds, link if outlives else None))
        late.add(task)
        task.add_done_callback(late.discard)

    while line := await reader.readline():
        if link.is_cut or link.is_hole or (is_back and link.is_mute) or link.holds(line[:40]) or link.dice.drops():
            continue
        send(line, link.dice.lateness())
        if outlives:
            link.keep(line)
        if link.dice.repeats(is_rare(line)):
            send(line, link.dice.lateness_of_copy())
        await writer.drain()


async def relay_line_pairs(reader: Reader, writer: Writer, far: Reader, far_writer: Writer, link: Link) -> None:
    """Carries requests and replies, which are lines, both ways until one side ends."""
    await until_one_ends(relay_lines(reader, far_writer, link, outlives=True), relay_lines(far, writer, link, is_back=True))


async def until_one_ends(*ways: Awaitable[None]) -> None:
    """Runs both ways, and ends both when one ends."""
    tasks = [asyncio.ensure_future(it) for it in ways]
    try:
        await asyncio.wait(tasks, return_when=asyncio.FIRST_COMPLETED)
    finally:
        for task in tasks:
            task.cancel()
        await asyncio.gather(*tasks, return_exceptions=True)


async def read_http(reader: Reader) -> bytes:
    """Reads a whole request or answer, with its head."""
    head = await reader.readuntil(b"\r\n\r\n")
    fields = {name.strip().lower(): value.strip() for name, _, value in (it.partition(b":") for it in head.split(b"\r\n")[1:])}
    if fields.get(b"transfer-encoding") != b"chunked":
        return head + await reader.readexactly(int(fields.get(b"content-length", b"0")))
    text = head
    while True:
        size = await reader.readuntil(b"\r\n")
        text += size + await reader.readexactly(int(size.split(b";")[0], 16) + 2)
        if int(size.split(b";")[0], 16) == 0:
            return text


async def wait_while_held(request: bytes, link: Link) -> bool:
    """Waits while a request is held; tells whether it was. Who asks may be gone then, and the request arrives late all the same."""
    was_held = link.holds(request)
    if was_held:
        link.count("held")
    while link.holds(request):
        await asyncio.sleep(0.05)
    return was_held


async def come_late(link: Link) -> None:
    """Waits for as long as a message is late."""
    if seconds := link.dice.lateness():
        await asyncio.sleep(seconds)


async def relay_http(reader: Reader, writer: Writer, far: Reader, far_writer: Writer, link: Link) -> None:
    """Carries HTTP requests one by one. A lost request or answer ends the connection, and a repeated one is made twice."""
    while True:
        request = await read_http(reader)
        await come_late(link)
        was_held = await wait_while_held(request, link)
        while link.is_hole:
            await asyncio.sleep(0.05)
        if link.is_cut or link.dice.drops():
            return
        answer = b""
        for _ in range(2 if link.dice.repeats() else 1):
            far_writer.write(request)
            answer = await read_http(far)
        if was_held:
            link.count("held and then done" if b'"succeeded":true' in answer else "held and then refused")
        await come_late(link)
        if link.is_cut or link.is_mute or link.dice.drops():
            return
        writer.write(answer)
        if b"\r\nconnection: close\r\n" in request.lower():
            return


class Side(asyncio.Protocol):
    """One side of a connection that carries bytes: it hands what it reads to the other side. A loss ends both, since a stream has no gaps."""

    def __init__(self, link: Link, other: "Side | None" = None, is_far: bool = False) -> None:
        self.link, self.other, self.is_far = link, other, is_far
        self.transport: asyncio.Transport | None = None
        # Why nothing is read: bytes are on their way late, or the other side is full.
        self.is_late = self.is_full = False

    def connection_made(self, transport: asyncio.BaseTransport) -> None:
        """Begins. The side that was called calls the far end."""
        self.transport = transport  # type: ignore[assignment]
        if self.other is not None:
            self.begin()
        elif self.link.is_cut:
            self.end()
        else:
            self.transport.pause_reading()
            calling = asyncio.create_task(self.call())
            CALLING.add(calling)
            calling.add_done_callback(CALLING.discard)

    def begin(self) -> None:
        """Lets the side that was called read, now that the far end is there, unless it has ended meanwhile."""
        near = self.other.transport if self.other is not None else None
        if near is None or near.is_closing():
            self.end()
        else:
            near.resume_reading()

    async def call(self) -> None:
        """Connects to the far end."""
        self.other = Side(self.link, self, is_far=True)
        try:
            await asyncio.get_running_loop().create_connection(lambda: self.other, self.link.host, self.link.port)
        except OSError:
            self.end()

    def data_received(self, data: bytes) -> None:
        """Hands bytes on, at once or late, or loses them. What comes back on a mute link, or goes into a hole, waits until it is that no more, as it
        is sent again and again."""
        if self.is_held:
            self.is_late = True
            self.read_on()
            asyncio.get_running_loop().call_later(0.1, self.wait_while_mute, data)
            return
        if self.link.is_cut or self.link.dice.drops():
            self.end()
            return
        seconds = self.link.dice.lateness()
        if seconds:
            self.is_late = True
            self.read_on()
            asyncio.get_running_loop().call_later(seconds, self.come_late, data)
        else:
            self.hand_on(data)

    @property
    def is_held(self) -> bool:
        """Whether bytes of this side wait."""
        return self.link.is_hole or (self.is_far and self.link.is_mute)

    def wait_while_mute(self, data: bytes) -> None:
        """Hands bytes on once nothing holds them."""
        if self.is_held:
            asyncio.get_running_loop().call_later(0.1, self.wait_while_mute, data)
        else:
            self.come_late(data)

    def come_late(self, data: bytes) -> None:
        """Hands bytes on that were late, and reads on."""
        self.is_late = False
        self.hand_on(data)
        self.read_on()

    def hand_on(self, data: bytes) -> None:
        """Writes bytes to the other side."""
        assert self.other is not None
        if self.other.transport is not None and not self.other.transport.is_closing():
            self.other.transport.write(data)

    def read_on(self) -> None:
        """Reads, unless something keeps it from that."""
        if self.transport is not None and not self.transport.is_closing():
            if self.is_late or self.is_full:
                self.transport.pause_reading()
            else:
                self.transport.resume_reading()

    def pause_writing(self) -> None:
        """This side is full."""
        if self.other is not None:
            self.other.is_full = True
            self.other.read_on()

    def resume_writing(self) -> None:
        """This side has room again."""
        if self.other is not None:
            self.other.is_full = False
            self.other.read_on()

    def connection_lost(self, error: Exception | None) -> None:
        """Ends both sides."""
        self.end()

    def end(self) -> None:
        """Ends both sides."""
        for side in (self, self.other):
            if side is not None and side.transport is not None:
                side.transport.close()


# The connections that are being made, and those that are carried (the loop alone would not keep one whose near end is gone).
CALLING: set[asyncio.Task[None]] = set()
CARRYING: set[asyncio.Task[None] | None] = set()
RELAYS: dict[str, Relay] = {"lines": relay_line_pairs, "http": relay_http}


async def open_proxy(port: int, relay: str, link: Link) -> asyncio.Server:
    """Listens, and carries each connection to the link's far end: lines, requests of HTTP, or bytes."""
    if relay == "bytes":
        return await asyncio.get_running_loop().create_server(lambda: Side(link), "127.0.0.1", port)

    async def carry(reader: Reader, writer: Writer) -> None:
        far_writer, task = None, asyncio.current_task()
        CARRYING.add(task)
        try:
            if link.is_cut:
                return
            far, far_writer = await asyncio.open_connection(link.host, link.port, limit=LONGEST_LINE)
            await RELAYS[relay](reader, writer, far, far_writer, link)
        except (OSError, EOFError, ValueError, asyncio.LimitOverrunError, asyncio.CancelledError):
            pass
        finally:
            writer.close()
            if far_writer is not None:
                far_writer.close()
            CARRYING.discard(task)
    return await asyncio.start_server(carry, "127.0.0.1", port, limit=LONGEST_LINE)
