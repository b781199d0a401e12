"""A controller over a session: it stores lines before it feeds them, and hands what goes out to handlers until it is answered.

    session = await Session.start(["smpland", "-"])
    controller = Controller(session, servers, store)
    await controller.lead()
    await controller.do({"do": "begin", "plan": plan, "name": "drain-c-1"})
    await controller.rest()

`servers` carries messages to servers and to the map's owner, `store` keeps the journal. An order may be sent again at any time, so a message is
handed out again until its handler says that it is done; what a handler says else is kept beside it, as is its age.
"""
from __future__ import annotations

import asyncio
import secrets
import time
from collections import Counter
from dataclasses import dataclass, field
from typing import Any, Awaitable, Callable, Dict, List, Optional, Protocol, Sequence, Tuple

from .agent import Answer
from .control_session import Line, Session, SessionEnded, text_of

__all__ = ["Controller", "Line", "Outgoing", "Pace", "Servers", "Session", "SessionEnded", "Store", "StoreLost", "StoreRefused", "Times", "BOUNDS",
           "DONE"]

# What a handler says once its message is answered.
DONE = "done"

# What handlers say that is counted by its word.
WORDS = frozenset(["working", "no answer", "cancelled", *(it.name.lower() for it in Answer)])

# The commands that change nothing, which need not be stored.
ASKING = frozenset(["hello", "orders", "map", "state", "document", "moves", "drain", "check", "since", "audit", "failed"])

# The commands that are refused if the log is full.
FILLING = frozenset(["begin", "approve"])

# Stores lines behind all that were fed, and returns the lines to feed: those of others that came between, then these. StoreRefused says that it
# stored none of these; any other exception ends this controller's leading.
Store = Callable[[Sequence[str]], Awaitable[Sequence[str]]]


class StoreLost(Exception):
    """The journal takes no lines of this controller: it is no longer the leader, or the store is out of reach."""


class StoreRefused(ValueError):
    """The journal will never take this line, as it is too long. The line was not stored, and the controller leads on."""


class Servers(Protocol):
    """How messages reach servers and the map's owner. Each handler may be called again with the same message, and fail.

    A handler that takes longer than `Pace.timeout` is cancelled. So work that may take longer, as a copy, has to be a task of its own: a handler
    begins it if it is not there, says "working", and a later one finds it done.
    """

    async def order(self, order: Line) -> str:
        """Sends an order to its server, and returns DONE once it is answered, or what the server says else."""

    async def publish(self, publication: Line) -> str:
        """Sends a publication to the map's owner, and returns DONE once it is answered."""

    async def restore(self, restore: Line) -> str:
        """Sends a server the slots that it asked for."""

    async def fence(self, fence: Line) -> Optional[Line]:
        """Sends a fence, and returns the members of `fenced` that answer it: `slots` or `unknown`; none if it is not answered."""

    async def settle(self, settle: Line) -> str:
        """Sends a settle, and returns DONE once it is answered."""

    async def notice(self, notice: Line) -> str:
        """Tells a server that was carried over of the last reopening."""

    async def base(self, server: str) -> Optional[int]:
        """Asks a server for the number of its base; none if it is Unknown or fenced, or does not answer."""


@dataclass(frozen=True)
class Pace:
    """How long a handler may take; the rest before its message goes again, which doubles with each try up to the longest one; how many are under way
    at once; how many lines are stored at once, and how many bytes of them the store takes."""

    timeout: float = 2.0
    again: float = 0.2
    longest: float = 1.0
    most: int = 256
    batch: int = 64
    batch_bytes: int = 64 << 20

    def rest_behind(self, tries: int) -> float:
        """How long a message rests that was handed out so often."""
        return max(self.again, min(self.again * 2.0 ** min(tries - 1, 32), self.longest))


# Bounds of the histogram of answer times, in seconds.
BOUNDS = (0.005, 0.02, 0.1, 0.5, 2.0, 10.0, 60.0, 600.0)


@dataclass
class Times:
    """How long messages took to be answered, repetitions included: how many at most so long, and all together."""

    within: List[int] = field(default_factory=lambda: [0] * len(BOUNDS))
    count: int = 0
    total: float = 0.0

    def add(self, seconds: float) -> None:
        """Adds an answer."""
        self.count += 1
        self.total += seconds
        for place, bound in enumerate(BOUNDS):
            self.within[place] += seconds <= bound


@dataclass
class Outgoing:
    """A message that is not yet answered: when it first went out, how often it did, and what its handler said last."""

    message: Line
    since: float = field(default_factory=time.monotonic)
    tries: int = 0
    said: str = ""
    task: Optional["asyncio.Task[None]"] = None

    @property
    def age(self) -> float:
        """How many seconds ago it first went out."""
        return time.monotonic() - self.since


def loss_of(why: BaseException) -> Exception:
    """What those are told who wait for a line, whatever has befallen the store."""
    if isinstance(why, (StoreLost, SessionEnded)):
        return why
    lost = StoreLost(f"the store has failed: {type(why).__name__} {why}".rstrip())
    lost.__cause__ = why
    return lost


async def end_of(task: "asyncio.Future[Any]") -> Optional[BaseException]:
    """Cancels a task unless it is done, and returns what it was ended by, none if it has a result."""
    task.cancel()
    await asyncio.wait([task])
    return asyncio.CancelledError() if task.cancelled() else task.exception()


# A line that is to be stored, and who waits for its reply.
Waiting = Tuple[str, "asyncio.Future[Line]"]

# A message by its kind, and by its stream or server.
Key = Tuple[Any, ...]


# The members that tell messages of one key apart. Others, as the replicas of an order, may change while it is outstanding.
NAMING = ("journal", "epoch", "fence", "number", "base", "nonce")


def is_same(message: Line, other: Line) -> bool:
    """Whether two messages of one key are the same one."""
    return all(message.get(it) == other.get(it) for it in NAMING)


def key_of(kind: str, message: Line) -> Key:
    """Returns what a message takes the place of: the order before it of its stream, or the fence before it of its server."""
    if kind == "order":
        return kind, message["plan"], message["stream"]
    return kind, message.get("server")


class Controller:
    """Feeds a session and acts on its replies while it leads."""

    def __init__(self, session: Session, servers: Servers, store: Store, pace: Pace = Pace()) -> None:
        self.session, self.servers, self.store, self.pace = session, servers, store, pace
        self.name = secrets.token_hex(4)
        self.leads = False
        self.outgoing: Dict[Key, Outgoing] = {}
        self.counts: Counter[str] = Counter()
        self.answers: Counter[Tuple[str, str]] = Counter()
        self.times = Times()
        self.proposal: Optional[Line] = None
        # told of each stored line and its reply
        self.noted: Callable[[str, Line], None] = lambda text, reply: None
        self.lost: Optional[Exception] = None
        self.queue: List[Waiting] = []
        self.has_lines = asyncio.Event()
        self.throttle = asyncio.Semaphore(pace.most)
        self.writer: Optional["asyncio.Task[None]"] = None
        self.tasks: set["asyncio.Task[None]"] = set()

    # Leading.

    async def lead(self) -> None:
        """Begins to act: everything outstanding goes out, and lines are stored."""
        self.leads, self.lost = True, None
        self.writer = asyncio.create_task(self.write())
        await self.refresh()
        await self.session.ask({"do": "state"}, self.remember_proposal)

    def remember_proposal(self, reply: Line) -> None:
        """Takes up what was proposed before this controller led."""
        self.proposal = reply.get("state", {}).get("reopening", {}).get("proposal")

    async def rest(self) -> None:
        """Stops acting. What is under way may yet arrive, which does no harm."""
        self.leads = False
        tasks = [it.task for it in self.outgoing.values() if it.task] + list(self.tasks) + ([self.writer] if self.writer else [])
        self.outgoing.clear()
        self.tasks.clear()
        for task in tasks:
            task.cancel()
        await asyncio.gather(*tasks, return_exceptions=True)
        self.fail_queue(StoreLost("this controller does not lead"))

    def fail_queue(self, why: Exception) -> None:
        """Lets everyone know who waits for a line to be stored."""
        queue, self.queue = self.queue, []
        for _, waiting in queue:
            if not waiting.done():
                waiting.set_exception(why)

    async def refresh(self) -> None:
        """Asks for all that is outstanding, sends what is not under way, and forgets what was answered meanwhile."""
        await self.session.ask({"do": "orders"}, self.reconcile)

    def reconcile(self, reply: Line) -> None:
        """Makes what is under way the same as what is outstanding."""
        if not self.leads:
            return
        self.send_all(reply)
        present = {key_of(kind, it): it for kind, it in self.messages_of(reply)}
        for key, outgoing in list(self.outgoing.items()):
            if key[0] != "restore" and not is_same(present.get(key, {}), outgoing.message):
                self.forget(key)

    # Lines.

    async def ask(self, line: Line) -> Line:
        """Feeds a line that only asks, which is not stored, and returns the reply."""
        if line.get("do") not in ASKING:
            raise ValueError(f"a line that may change something has to be stored: {line.get('do')}")
        return await self.session.ask(line)

    async def do(self, command: Line) -> Line:
        """Stores a command and feeds it, and returns the reply once it is acted on. If the log is full and nothing runs, it is emptied before."""
        reply = await self.say(command)
        if reply.get("refused", {}).get("kind") == "LogFull" and command.get("do") in FILLING and await self.has_emptied_log():
            return await self.say(command)
        return reply

    async def has_emptied_log(self) -> bool:
        """Opens the next epoch, unless a plan runs or the log is empty already. Tells whether it did."""
        log = (await self.session.ask({"do": "state"})).get("state", {}).get("log", {})
        return log.get("used", 0) > 0 and "opened" in await self.say({"do": "new_epoch"})

    async def say(self, command: Line) -> Line:
        """Stores a command and feeds it, and returns the reply once it is acted on."""
        if not self.leads or self.lost is not None:
            raise StoreLost("this controller does not lead")
        self.counts["lines"] += 1
        text = text_of({**command, "id": f"{self.name}-{self.counts['lines']}"})
        if len(text) > self.pace.batch_bytes:
            raise StoreRefused(f"the line is too long: it has {len(text)} bytes, and the journal takes {self.pace.batch_bytes}")
        waiting: "asyncio.Future[Line]" = asyncio.get_running_loop().create_future()
        self.queue.append((text, waiting))
        self.has_lines.set()
        return await waiting

    async def restarted(self, permit: int) -> Line:
        """Asks the server that has this permit for its base, and then stores and feeds that its restart has ended."""
        state = (await self.session.ask({"do": "state"})).get("state", {})
        server = next((it["server"] for it in state.get("servers", []) if it["permit"] == permit), None)
        return await self.do({"do": "restarted", "permit": permit, "base": None if server is None else await self.base_of(server)})

    async def base_of(self, server: str) -> Optional[int]:
        """Returns the base that a server tells, none if it tells none in time."""
        try:
            return await asyncio.wait_for(self.servers.base(server), self.pace.timeout)
        except (asyncio.TimeoutError, OSError):
            return None

    async def write(self) -> None:
        """Stores and feeds what is queued, all that came together at once, until the store is lost."""
        while True:
            await self.has_lines.wait()
            batch = self.next_batch()
            try:
                await self.write_or_refuse(batch)
            except (Exception, asyncio.CancelledError) as why:  # (a store is others' code: whatever befalls it, this one leads no longer)
                self.queue = batch + self.queue  # (who rests tells all who wait)
                if not self.leads:
                    raise
                self.counts["appends lost"] += 1
                self.lost = loss_of(why)
                self.fail_queue(self.lost)
                return

    def next_batch(self) -> List[Waiting]:
        """Takes from the queue what is stored at once."""
        count = bytes_of = 0
        for text, _ in self.queue[:self.pace.batch]:
            bytes_of += len(text)
            if count and bytes_of > self.pace.batch_bytes:
                break
            count += 1
        batch, self.queue = self.queue[:count], self.queue[count:]
        if not self.queue:
            self.has_lines.clear()
        return batch

    async def write_or_refuse(self, batch: List[Waiting]) -> None:
        """Stores a batch, or, if the store refuses it, each line alone; tells whose line is refused."""
        try:
            await self.write_batch(batch)
        except StoreRefused as why:
            if len(batch) > 1:
                for line in batch:
                    await self.write_or_refuse([line])
                return
            self.counts["appends refused"] += 1
            if not batch[0][1].done():
                batch[0][1].set_exception(why)

    async def write_batch(self, batch: List[Waiting]) -> None:
        """Stores a batch, then feeds what the store returns, and acts on each reply."""
        fed = await self.store([text for text, _ in batch])
        waiting = dict(batch)
        self.counts["appends"] += 1
        replies = [(text, self.session.feed(text, self.heed)) for text in fed]
        for text, reply in replies:
            answer = await reply
            self.noted(text, answer)
            mine = waiting.get(text)
            if mine is not None and not mine.done():
                mine.set_result(answer)
        if len(fed) > len(batch):
            await self.refresh()

    async def follow(self, lines: Sequence[str]) -> None:
        """Feeds stored lines of others. Their replies are not acted on."""
        for text, reply in [(text, self.session.feed(text)) for text in lines]:
            self.noted(text, await reply)

    # Replies.

    def messages_of(self, reply: Line) -> List[Tuple[str, Line]]:
        """Returns what a reply gives to send, each with its kind."""
        found = [("order", it) for it in reply.get("orders") or []]
        found += [("fence", it) for it in reply.get("fence") or []]
        found += [("settle", it) for it in reply.get("settle") or []]
        found += [("notice", it) for it in reply.get("notice") or []]
        return found

    def heed(self, reply: Line) -> None:
        """Acts on the reply to a line that was stored: sends what goes out, and forgets what a reopening has ended."""
        if not self.leads:
            return
        if reply.get("fence") or "opened" in reply:
            self.proposal = None
            self.forget_all()
        self.proposal = reply.get("proposal", self.proposal)
        if "restore" in reply:
            self.send("restore", reply["restore"])
        self.send_all(reply)
        self.counts["ended"] += len(reply.get("ended") or [])

    def send_all(self, reply: Line) -> None:
        """Sends all messages that a reply has. Once something is settled, what was proposed is confirmed."""
        if reply.get("settle"):
            self.proposal = None
        for kind, message in self.messages_of(reply):
            self.send(kind, message)

    def forget(self, key: Key) -> None:
        """Sends a message no longer."""
        gone = self.outgoing.pop(key, None)
        if gone and gone.task and gone.task is not asyncio.current_task():
            gone.task.cancel()

    def forget_all(self) -> None:
        """Sends nothing any longer but restores."""
        for key in [it for it in self.outgoing if it[0] != "restore"]:
            self.forget(key)

    # Messages.

    def send(self, kind: str, message: Line) -> None:
        """Begins to send a message, unless it is under way."""
        key = key_of(kind, message)
        known = self.outgoing.get(key)
        if known is not None and is_same(known.message, message):
            known.message = message
            return
        self.forget(key)
        outgoing = Outgoing(message)
        self.outgoing[key] = outgoing
        outgoing.task = asyncio.create_task(self.deliver(key, outgoing))

    async def deliver(self, key: Key, outgoing: Outgoing) -> None:
        """Hands a message out until it is answered and the answer is recorded."""
        while self.leads and self.outgoing.get(key) is outgoing:
            line = await self.attempt(key[0], outgoing)
            if line is None:
                await asyncio.sleep(self.pace.rest_behind(outgoing.tries))
                continue
            self.times.add(outgoing.age)
            try:
                if line:
                    await self.do(line)
            except StoreRefused as why:
                outgoing.said = str(why)
                await asyncio.sleep(self.pace.rest_behind(outgoing.tries))
                continue
            except (StoreLost, SessionEnded):
                return
            if self.outgoing.get(key) is outgoing:
                del self.outgoing[key]
            return

    async def attempt(self, kind: str, outgoing: Outgoing) -> Optional[Line]:
        """Hands a message out once. Returns the line that records its answer (an empty one where none is due), none if there was none."""
        outgoing.tries += 1
        self.counts[kind if outgoing.tries == 1 else f"{kind} again"] += 1
        async with self.throttle:
            handling = asyncio.ensure_future(self.hand_out(kind, outgoing))
            try:
                await asyncio.wait([handling], timeout=self.pace.timeout)
                is_late = not handling.done()
            finally:
                why = await end_of(handling)
        if is_late:
            outgoing.said = "no answer"
        elif why is not None:  # (handlers are others' code: whatever befalls them, the message goes again)
            outgoing.said = "cancelled" if isinstance(why, asyncio.CancelledError) else f"{type(why).__name__} {why}".strip()
        line = handling.result() if why is None else None
        self.answers[kind, DONE if line is not None else outgoing.said if outgoing.said in WORDS else "else"] += 1
        return line

    async def hand_out(self, kind: str, outgoing: Outgoing) -> Optional[Line]:
        """Calls the handler of a message, and returns the line that records the answer."""
        message = outgoing.message
        if kind == "fence":
            found = await self.servers.fence(message)
            return None if found is None else {"do": "fenced", "server": message.get("server"), "base": message["base"], **found}
        if kind == "order" and message["call"] == "publish":
            kind = "publish"
        handler: Callable[[Line], Awaitable[str]] = getattr(self.servers, kind)
        outgoing.said = await handler(message)
        if outgoing.said != DONE:
            return None
        if kind == "settle":
            return {"do": "settled", "server": message.get("server"), "base": message["base"]}
        if kind in ("restore", "notice"):
            return {}
        return {"do": "answered", "plan": message["plan"], "stream": message["stream"], "number": message["number"]}


if __name__ == "__main__":
    # (this is a library; who runs it looks for the operator's commands)
    from .control_commands import main

    raise SystemExit(main())
