"""Requests of clients: routed and executed in one transaction, acknowledged when all who are alive have what they saw."""
from __future__ import annotations

import secrets
import time
from dataclasses import dataclass
from typing import TYPE_CHECKING, Any, Dict, Optional, Tuple

from . import agent
from .agent import Answer, Cell, Request
from .server_records import Records, Write, now

if TYPE_CHECKING:
    from .server import Server

Line = Dict[str, Any]


@dataclass(frozen=True)
class Ran:
    """What a request has come to: its reply, and the writes that it has seen."""

    reply: Any
    position: int
    term: int


class Requests:
    """The clients' side of a server."""

    def __init__(self, server: "Server") -> None:
        self.server, self.limits = server, server.limits

    def take(self, line: Line) -> Line:
        """Answers a client."""
        return self.request(line["shard"], line.get("request"), line["command"], Request())

    def passed(self, line: Line) -> Line:
        """Answers the old owner of a handover."""
        return self.request(line["shard"], line["request"], line["command"], Request(line["handover"], line["cut"], line["from"], 1))

    def request(self, shard: str, request: Optional[str], command: Any, how: Request) -> Line:
        """Answers a request: by its reply, or by what was said."""
        until = time.monotonic() + self.limits.waiting
        while True:
            answer, onward, ran = self.route(shard, request, command, how)
            if ran is not None:
                return self.acknowledge(shard, ran)
            if answer == Answer.PASS_ON:
                return self.pass_on(shard, request, command, onward)
            if answer == Answer.NOT_HERE or time.monotonic() >= until:
                return {"said": answer.name.lower()}
            self.server.wait(lambda: False, 0.05)

    def route(self, shard: str, request: Optional[str], command: Any, how: Request) -> Tuple[Answer, Request, Optional[Ran]]:
        """Routes a request, and executes it in the same transaction if it is for this server. From then on it runs."""
        live, ran = self.server.live(shard), None
        try:
            with self.server.storage.transaction() as tx:
                it = Records(tx)
                answer, onward = self.where(it, shard, how)
                if answer == Answer.EXECUTE:
                    if how.is_passed:
                        it.put_slot(shard, agent.seal(it.slot(shard), how.handover, how.cut))
                    reply = self.execute(it, shard, request, command)
                    with self.server.changed:
                        ran = Ran(reply, it.mark(shard).position, live.term)
                        live.running += 1
        except BaseException:
            if ran is not None:
                self.ended(shard)
            raise
        return answer, onward, ran

    def where(self, it: Records, shard: str, how: Request) -> Tuple[Answer, Request]:
        """Where a request is executed. While a fence waits, none of a handover begins, nor does one at a new owner that has lost its copy."""
        slot = it.slot(shard)
        is_held = self.server.live(shard).is_held and slot.cell in (Cell.PREPARED, Cell.FORWARDING)
        if is_held or (slot.cell == Cell.PREPARED and not it.has_copy(shard)):
            return Answer.NOT_YET, Request()
        return agent.route(it.base(), slot, it.mark(shard).position, how)

    def execute(self, it: Records, shard: str, request: Optional[str], command: Any) -> Any:
        """Executes a request once; of one that was executed before it repeats the reply."""
        service = self.server.service
        if service.is_read(command):
            return service.read(it.tx, shard, command)
        done = it.write_of(shard, request)
        if done is not None:
            return done.reply
        reply = service.apply(it.tx, shard, command)
        it.append(shard, Write(it.mark(shard).position + 1, secrets.token_hex(8), request, command, reply, now()), self.limits.keeping)
        return reply

    def acknowledge(self, shard: str, ran: Ran) -> Line:
        """Returns the reply of a request that has been executed, once all who have to have what it saw."""
        try:
            has_all = self.server.streams.replicate(shard, ran.position, ran.term)
        finally:
            self.ended(shard)
        return {"reply": ran.reply} if has_all else {"said": Answer.NOT_YET.name.lower()}

    def ended(self, shard: str) -> None:
        """A request runs no longer."""
        with self.server.changed:
            self.server.live(shard).running -= 1
        self.server.wake()

    def pass_on(self, shard: str, request: Optional[str], command: Any, onward: Request) -> Line:
        """Sends a request to the new owner, and returns its answer."""
        line = {"shard": shard, "request": request, "command": command, "handover": onward.handover, "cut": onward.cut, "from": self.server.number}
        try:
            return self.server.ask(onward.party, "pass", line, 3 * self.limits.waiting)
        except (OSError, ValueError):
            return {"said": Answer.NOT_YET.name.lower()}
