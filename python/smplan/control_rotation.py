"""A controller's journal ends, and a new one goes on in its place: by itself once it is so large, or when an operator
says so (docs/CONTROLLER.md, The first year).

The new journal begins by a reopening of what is recorded, at rest: no plan runs, nobody is out, each server answers. It
is confirmed only if it changes nothing.
"""
from __future__ import annotations

import asyncio
import logging
import secrets
import time
from dataclasses import replace
from typing import TYPE_CHECKING, Optional

from .control import Line
from .control_document import without_servers
from .control_reopen import SEE
from .control_rotated import EPOCH, GOES_ON, NotRotated, Origin, cells_of

if TYPE_CHECKING:
    from .control_run import Running

log = logging.getLogger("smplan.run")

# How long nothing has been recorded before a journal ends by itself, in seconds; and how long after one that could not
# end another try is made.
QUIET = 60.0
AGAIN = 600.0

# The last epoch that a service may have.
LAST_EPOCH = (1 << 32) - 1


def unrest(state: Line, outgoing: int) -> str:
    """What is in the way of a journal's end, by what is recorded; nothing if it may end."""
    running = [it["name"] for it in state.get("plans", []) if it["is"] == "running"]
    down = [it["server"] for it in state.get("servers", []) if it["permit"] is not None or it["carried"]]
    found = [
        (state.get("is") == "new", "nothing is opened yet"), (state.get("is") == "reopening", "a reopening is under way"),
        (running, f"{', '.join(running)} runs"), (down, f"{', '.join(down)} is down under a permit"),
        (outgoing, "messages are not answered"),
    ]
    return next((text for is_so, text in found if is_so), "")


def again_of(origin: Origin, line: Line) -> Optional[Line]:
    """The reply to a line under a name that the last epoch of the journal before has; none if it has no such name."""
    if line.get("do") == "begin" and str(line.get("name")) in origin.plans:
        return {"begun": {**origin.plans[str(line["name"])], "epoch": origin.epoch}, "again": True, "orders": [], "ended": []}
    server = origin.approved.get(str(line.get("by"))) if line.get("do") == "approve" else None
    if server is None:
        return None
    if server != line.get("server"):
        return {"refused": {"kind": "OtherServer", "server": server, "text": f"refused: OtherServer server {server}"}}
    return {"ended": {"server": server, "permit": None}}


def differs(proposal: Line, origin: Origin) -> str:
    """How a proposal differs from what the journal before has recorded; nothing if it may be confirmed."""
    for member in ("lost", "floors", "carried"):
        if proposal[member]:
            return f"`{member}` names {proposal[member]}"
    cells = cells_of(proposal["cells"], "shard")
    changed = [it for it in {**cells, **origin.cells} if cells.get(it) != origin.cells.get(it)]
    return f"{', '.join(changed)} would have other replicas" if changed else ""


class Rotation:
    """What a controller does so that its journal may end; how it ends depends on where it is. `step` is called all the
    time while this controller leads, and all of it happens there."""

    keeps_old = True

    def __init__(self, running: "Running", limit: Optional[int] = None) -> None:
        self.running, self.limit = running, limit
        self.origin: Optional[Origin] = None
        self.until: Optional[float] = None
        self.said, self.left, self.refused = "", "", ""
        self.quiet_since, self.quiet_at, self.not_before = time.monotonic(), -1, 0.0

    def reached(self, step: str) -> None:
        """Does nothing. (Tests end the process here.)"""

    # Of the journal.

    def can_end(self) -> bool:
        """Whether the journal is one that can end."""
        raise NotImplementedError

    def size(self) -> int:
        """The bytes of the journal."""
        raise NotImplementedError

    async def begin(self) -> None:
        """Finds out what the journal goes on from, before this controller leads over it."""
        raise NotImplementedError

    async def replace(self, origin: Origin, reopen: Line) -> None:
        """Ends the journal, and makes the one that goes on from it begin with this line: one moment does both."""
        raise NotImplementedError

    async def lead_on(self) -> None:
        """Leads on over the journal that there is."""
        raise NotImplementedError

    async def write_origin(self, origin: Origin) -> None:
        """Says anew what the journal goes on from, durably."""
        raise NotImplementedError

    # All the time.

    async def step(self) -> None:
        """Goes on with a rotation that is under way, or begins one if it is time."""
        if not self.can_end():
            self.until = None
        elif self.origin is not None and self.origin.after is None:
            await self.open(self.origin)
        elif self.until is not None or await self.is_due():
            await self.try_once()

    async def is_due(self) -> bool:
        """Whether the journal is so large that it ends by itself, and nothing has happened for a while."""
        if self.limit is None or time.monotonic() < self.not_before or self.size() < max(self.limit, self.least()):
            return False
        place = (await self.running.ask({"do": "hello"}))["hello"]["place"]
        if place != self.quiet_at:
            self.quiet_since, self.quiet_at = time.monotonic(), place
        return time.monotonic() - self.quiet_since >= QUIET

    def least(self) -> int:
        """The size below which a new journal would not be smaller by half."""
        return 0 if self.origin is None or self.origin.after is None else 2 * self.origin.after["size"]

    async def try_once(self) -> None:
        """Ends the journal if all is at rest. Otherwise says why not, and gives up once that takes too long."""
        self.said, until = await self.hindrance(), self.until
        if not self.said:
            try:
                return await self.turn()
            except (NotRotated, OSError) as why:
                self.said, until = str(why), None
                await self.lead_on()
        if until is None or time.monotonic() >= until:
            log.warning("the journal goes on: %s", self.said)
            self.until, self.left, self.not_before = None, self.said, time.monotonic() + AGAIN

    async def hindrance(self) -> str:
        """Why the journal may not end now; nothing if it may."""
        running = self.running
        assert running.controller is not None
        state = (await running.ask({"do": "state"}))["state"]
        found = unrest(state, len(running.controller.outgoing))
        if found:
            return found
        if running.owner.shown != running.owner.changes:
            return f"the map is not shown: {running.owner.said}"
        names = [it["server"] for it in state["servers"]]
        bases = dict(zip(names, await asyncio.gather(*(running.fleet.call(it, "GET", "/base") for it in names))))
        silent = [it for it in names if "base" not in bases[it]]
        unknown = [it for it in names if bases[it].get("base", 0) is None]
        return f"{', '.join(silent)} does not answer" if silent else f"{', '.join(unknown)} has no slots" if unknown else ""

    # The end of the old journal.

    async def turn(self) -> None:
        """Ends the journal, and leads on over the new one. If it cannot end, nothing has happened, and nobody leads."""
        running = self.running
        assert running.controller is not None
        began = time.time()
        await running.controller.rest()
        state, told = (await running.ask({"do": "state"}))["state"], await running.ask({"do": "document"})
        if unrest(state, 0) or "document" not in told:
            raise NotRotated(unrest(state, 0) or "the session tells no document")
        if state["epoch"] >= LAST_EPOCH:
            raise NotRotated("this was the last epoch")
        document, number, epoch = without_servers(told["document"], []), secrets.token_hex(8), state["epoch"] + 1
        origin = Origin(
            journal=number, base=epoch * EPOCH, was=state["journal"], epoch=state["epoch"], place=state["place"],
            size=self.size(), file="", cells=cells_of(document["shards"], "name"), plans={}, approved={}, ended=began)
        await self.replace(origin, {"do": "reopen", "why": GOES_ON + state["journal"], "journal": number, "epoch": epoch,
                                    "lost": [], "document": document})
        self.until, self.refused = None, ""
        log.info("journal %s has ended at place %d with %d bytes; %s begins with epoch %d",
                 origin.was, origin.place, origin.size, number, epoch)
        await self.lead_on()

    # The new journal.

    async def open(self, origin: Origin) -> None:
        """Confirms that all is as it was, or leaves it to an operator; and says once the service is open."""
        running = self.running
        assert running.controller is not None
        state = (await running.ask({"do": "state"}))["state"]
        if state["is"] == "open":
            after = {"size": self.size(), "place": state["place"], "epoch": state["epoch"],
                     "seconds": round(time.time() - origin.ended, 3)}
            self.origin, self.left = replace(origin, after=after), ""
            await self.write_origin(self.origin)
            log.info("journal %s is open: epoch %d, %d bytes, after %.1f s",
                     origin.journal, after["epoch"], after["size"], after["seconds"])
            return
        proposal = running.controller.proposal
        if proposal is None or proposal["base"] != origin.base:
            return
        found = differs(proposal, origin) or self.refused
        if not found:
            self.reached("proposed")
            reply = await running.controller.do({"do": "confirm", "base": origin.base, "lost": []})
            self.refused = found = str(reply.get("refused", {}).get("text", ""))
            self.reached("confirmed")
        if found and found != self.left:
            log.error("the new journal is left to an operator, nothing moves until then: %s: %s", found, SEE)
        self.left = found

    # What is asked of it.

    async def again(self, line: Line) -> Optional[Line]:
        """The reply to a line under a name of the journal before, as long as its last epoch's names are kept: in the
        next one."""
        found = None if self.origin is None else again_of(self.origin, line)
        if self.origin is None or found is None:
            return None
        return found if (await self.running.ask({"do": "hello"}))["hello"]["epoch"] == self.origin.first else None

    def ask_for(self, wait: float) -> None:
        """Has the journal end as soon as all is at rest, within so many seconds; unless it is about to, or has just begun."""
        if self.until is None and (self.origin is None or self.origin.after is not None):
            self.until, self.said, self.left = time.monotonic() + wait, "", ""

    async def told(self) -> Line:
        """How a rotation stands, and what the last one has done."""
        if not self.can_end():
            return {"is": "none", "why": "the session keeps no journal in a file here"}
        origin = self.origin
        if self.until is not None:
            return {"is": "waits", "why": self.said}
        if origin is not None and origin.after is None:
            return {"is": "left" if self.left else "opens", "why": self.left, "was": origin.was}
        return {"is": "rests", "why": self.left, "size": self.size(), "keeps": self.keeps_old,
                "hindrance": await self.hindrance(), "last": None if origin is None else self.told_of(origin)}

    def told_of(self, origin: Origin) -> Line:
        """What a rotation has done."""
        return {"journal": origin.journal, "was": origin.was, "file": origin.file if self.keeps_old else None,
                "epoch": origin.epoch, "place": origin.place, "size": origin.size, "plans": len(origin.plans),
                "approved": len(origin.approved), "after": origin.after}
