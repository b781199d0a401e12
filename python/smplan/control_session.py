"""A session process: `smpland -`, or the reference model, which read one JSON object a line and reply with one line to each."""
from __future__ import annotations

import asyncio
import json
from collections import deque
from typing import Any, Callable, Deque, Dict, Optional, Sequence, Tuple

# A line of a session, as an object.
Line = Dict[str, Any]

# What is done with a reply, before anyone who waits for it goes on.
Heed = Callable[[Line], None]

# The longest reply that is read: that of `orders` or `state` at the limits.
LONGEST_REPLY = 256 << 20


# How many seconds a process may leave a line without a reply. No line takes it so long, a whole journal aside, which has a reply for each line.
PATIENCE = 60.0


class SessionEnded(Exception):
    """The session's process has ended, or its output has, or it did not reply in time."""


def text_of(line: Line) -> str:
    """Returns the line as it is stored and fed: compact, without a line feed."""
    return json.dumps(line, separators=(",", ":"), ensure_ascii=True)


class Session:
    """A running session. Lines may be fed without waiting for replies, which come in the order of the lines."""

    def __init__(self, process: asyncio.subprocess.Process, patience: float = PATIENCE) -> None:
        self.process, self.patience = process, patience
        self.waiting: Deque[Tuple["asyncio.Future[Line]", Optional[Heed]]] = deque()
        self.end: Optional[SessionEnded] = None
        self.reader = asyncio.create_task(self.read_replies())
        self.watcher = asyncio.create_task(self.watch())
        self.fed = 0

    @classmethod
    async def start(cls, program: Sequence[str], patience: float = PATIENCE, is_apart: bool = False) -> "Session":
        """Starts the program, whose standard input is the journal; apart from the terminal's group, if an interrupt is not meant for it."""
        pipe = asyncio.subprocess.PIPE
        process = await asyncio.create_subprocess_exec(*program, stdin=pipe, stdout=pipe, limit=LONGEST_REPLY, start_new_session=is_apart)
        return cls(process, patience)

    async def read_replies(self) -> None:
        """Hands each reply to the line that waits longest, until the output ends."""
        assert self.process.stdout is not None
        why = SessionEnded("the session has ended")
        try:
            while line := await self.process.stdout.readline():
                reply = json.loads(line)
                waiting, heed = self.waiting[0]
                if heed is not None:
                    heed(reply)
                self.waiting.popleft()
                if not waiting.done():
                    waiting.set_result(reply)
        except Exception as fault:  # (what is heeded may lack any member, and whoever waits must be told)
            why = SessionEnded(f"the session's output is no reply: {type(fault).__name__} {fault}")
        self.fail(why)

    async def watch(self, looks: int = 4) -> None:
        """Kills a process that leaves a line without a reply for too long. (It counts looks, not time, as this process may have stood still itself.)"""
        first, seen = None, 0
        while not self.reader.done():
            await asyncio.sleep(self.patience / looks)
            seen = seen + 1 if self.waiting and self.waiting[0] is first else 0
            first = self.waiting[0] if self.waiting else None
            if seen == looks:
                self.fail(SessionEnded(f"the session gave no reply for {self.patience:g} s"))
                if self.process.returncode is None:
                    self.process.kill()

    def fail(self, why: SessionEnded) -> None:
        """Lets everyone know who waits for a reply that there will be none."""
        self.end = self.end or why
        while self.waiting:
            waiting, _ = self.waiting.popleft()
            if not waiting.done():
                waiting.set_exception(self.end)
                waiting.exception()  # (many lines may wait, and whoever fed them waits for the first alone)

    def feed(self, text: str, heed: Optional[Heed] = None) -> "asyncio.Future[Line]":
        """Feeds a line, and returns the reply to come. Replies are heeded in the order of their lines."""
        if self.end is not None or self.process.stdin is None:
            raise self.end or SessionEnded("the session has ended")
        reply: "asyncio.Future[Line]" = asyncio.get_running_loop().create_future()
        self.waiting.append((reply, heed))
        self.process.stdin.write(text.encode() + b"\n")
        self.fed += 1
        return reply

    async def ask(self, line: Line, heed: Optional[Heed] = None) -> Line:
        """Feeds a line that only asks, and returns the reply."""
        return await self.feed(text_of(line), heed)

    async def close(self) -> Optional[int]:
        """Ends the input, waits for the process, and returns its exit status."""
        if self.process.stdin is not None:
            self.process.stdin.close()
        try:
            await asyncio.wait_for(self.process.wait(), 5)
        except asyncio.TimeoutError:
            self.process.kill()
            await self.process.wait()
        self.watcher.cancel()
        await asyncio.gather(self.reader, self.watcher, return_exceptions=True)
        return self.process.returncode
