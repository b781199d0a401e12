"""One controller process: it follows the journal in etcd, and leads while it holds the lease."""
from __future__ import annotations

import asyncio
import signal
import time
from collections.abc import Callable
from dataclasses import dataclass, replace

from smplan.control import Controller, Line, Pace, Session, SessionEnded, StoreLost

from cluster.wire import Cluster, Failed, Message

from .alarms import Alarms, Auditor
from .bugs import move_primaries
from .etcd import Etcd, EtcdFault, members_of
from .fleet import Fleet, to_wire
from .journal import MOST_BYTES, EtcdJournal, JournalLost
from .lease import Lease
from .leader import Leader
from .map_owner import MapOwner


# How many seconds a controller that leads rests between two audits.
AUDITING = 0.5


@dataclass(frozen=True)
class Settings:
    """How a controller process runs."""

    name: str
    program: tuple[str, ...]
    cluster: Cluster
    lease: int = 2
    follow: float = 0.4
    pace: Pace = Pace(timeout=5.0, again=0.2)
    confirm: bool = False
    bugs: frozenset[str] = frozenset()
    log: Callable[[str], None] = print


@dataclass
class Past:
    """What this process has seen, for its page."""

    terms: int = 0
    led_since: float | None = None
    # The last proposal that was left to an operator: its base, the shards that may be lost, and the servers that have not told what they have.
    left: tuple[int, list[str], list[str]] | None = None


class Member:
    """A controller among several, each with a session that is fed the same journal."""

    def __init__(self, settings: Settings) -> None:
        self.settings, self.past = settings, Past()
        members = members_of(settings.cluster.etcd)
        first = sum(map(ord, settings.name))
        self.etcd = Etcd(members, first=first)
        self.leasing = Etcd(members, first=first)
        self.journal = EtcdJournal(self.etcd, settings.name)
        self.lease = Lease(self.leasing, settings.name, settings.lease)
        self.owner = MapOwner(Etcd(members, first=first), settings.cluster.map_prefix, settings.bugs)
        self.owner.leads = lambda: self.lease.is_leader
        self.fleet = Fleet(settings.cluster, self.owner)
        self.controller: Leader | None = None
        self.alarms = Alarms(settings.log)
        self.auditor = Auditor(self.alarms, self.ask, self.fleet.slots, lambda: self.lease.is_leader)

    @property
    def lease_waited_for(self) -> float:
        """The time of a server's lease. A planted bug: there is none."""
        return 0.0 if "confirm-before-lease-ends" in self.settings.bugs else self.settings.cluster.lease

    @property
    def leads(self) -> bool:
        """Whether this process acts."""
        return self.controller is not None and self.controller.leads

    async def start(self) -> None:
        """Starts the session."""
        session = await Session.start(self.settings.program)
        self.controller = Leader(session, self.fleet, self.store, replace(self.settings.pace, batch_bytes=MOST_BYTES), self.lease_waited_for)
        if "confirm-moves-primary" in self.settings.bugs:
            move_primaries(self.controller)

    async def run(self) -> None:
        """Follows and leads until it is cancelled, or told to end by SIGTERM: then it gives the lease back, and another one leads at once."""
        running = asyncio.create_task(self.follow_and_lead())
        loop = asyncio.get_running_loop()
        loop.add_signal_handler(signal.SIGTERM, running.cancel)
        try:
            await asyncio.wait([running])
        finally:
            loop.remove_signal_handler(signal.SIGTERM)
            running.cancel()
            await asyncio.wait([running])
        if not running.cancelled():
            running.result()

    async def follow_and_lead(self) -> None:
        """Follows and leads until it is cancelled, and then closes the session."""
        assert self.controller is not None
        try:
            while True:
                await self.follow()
                if not self.is_lost and await self.lease.campaign():
                    await self.lead()
        finally:
            await self.controller.session.close()

    @property
    def is_lost(self) -> bool:
        """Whether the journal has lost lines that this process knows."""
        return ("the journal", "lost") in self.alarms.present

    async def ask(self, line: Line) -> Line:
        """Asks the session."""
        assert self.controller is not None
        return await self.controller.ask(line)

    async def follow(self) -> None:
        """Feeds what is new in the journal, until the leader may be gone."""
        assert self.controller is not None
        until = time.monotonic() + 0.3
        while time.monotonic() < until:
            try:
                await self.controller.follow(await self.journal.read(may_lag=True))
            except EtcdFault:
                pass
            except JournalLost as why:
                self.give_up_journal(why)
            await asyncio.sleep(self.settings.follow)

    def give_up_journal(self, why: JournalLost) -> None:
        """Gives the alarm that the journal has lost lines. This process leads no more: it knows what nobody else will."""
        self.alarms.give("the journal", "lost", f"{why}; adopt the service under a new journal", lasts=True)

    async def lead(self) -> None:
        """Leads while the lease lasts."""
        controller = self.controller
        assert controller is not None
        self.past.terms += 1
        self.past.led_since = time.monotonic()
        keeping, auditing = asyncio.create_task(self.lease.keep()), None
        try:
            await controller.follow(await self.journal.read())
            controller.led_since = time.monotonic()
            await controller.lead()
            self.settings.log(f"leads at place {self.journal.place}")
            auditing = asyncio.create_task(self.look_for_faults())
            while not keeping.done() and controller.lost is None:
                await asyncio.wait([keeping], timeout=0.5)
                await controller.refresh()
                await self.confirm()
        except JournalLost as why:
            self.give_up_journal(why)
        except (EtcdFault, StoreLost):
            pass
        finally:
            keeping.cancel()
            if auditing is not None:
                auditing.cancel()
            self.past.led_since = None
            self.settings.log(f"rests at place {self.journal.place}: {controller.lost or 'the lease has ended'}")
            if isinstance(controller.lost, JournalLost):
                self.give_up_journal(controller.lost)
            await controller.rest()
            await self.lease.leave()

    async def look_for_faults(self) -> None:
        """Looks at orders that their servers turned away, and audits one server after the other."""
        assert self.controller is not None
        while True:
            await asyncio.sleep(AUDITING)
            try:
                for key, outgoing in list(self.controller.outgoing.items()):
                    if key[0] == "order":
                        await self.auditor.look_at(outgoing.message, outgoing.said)
                await self.auditor.audit_next()
            except SessionEnded:
                return

    async def confirm(self) -> None:
        """Confirms a proposal as it stands, if this is left to the controllers. It is an operator's to confirm one by which shards may be lost, or by
        which a server stays as it is recorded that has not told what it has: it may be up by now, and have lost its data."""
        assert self.controller is not None
        proposal = self.controller.proposal
        if not self.settings.confirm or proposal is None:
            return
        left = (proposal["base"], proposal["lost"], proposal["carried"])
        if not proposal["lost"] and not proposal["carried"]:
            await self.controller.do({"do": "confirm", "base": proposal["base"]})
        elif self.past.left != left:
            self.past.left = left
            told = {"shards that may be lost": proposal["lost"], "servers that are down, and have not told what they have": proposal["carried"]}
            what = "; ".join(f"{it}: {', '.join(names)}" for it, names in told.items() if names)
            self.settings.log(f"leaves the proposal of base {proposal['base']} to an operator: {what}")

    async def store(self, lines: list[str]) -> list[str]:
        """Stores lines in the journal."""
        if "feed-before-store" in self.settings.bugs:
            asyncio.get_running_loop().call_later(0.3, lambda: asyncio.create_task(self.store_late(lines)))
            return list(lines)
        return await self.journal.append(lines)

    async def store_late(self, lines: list[str]) -> None:
        """A planted bug: lines are stored after they were fed."""
        try:
            await self.journal.append(lines)
        except StoreLost:
            pass

    async def answer(self, message: Message) -> Message:
        """Answers a server that asks for its slots, or whether it may serve, or that tells of copies."""
        if self.controller is None or not self.leads or not self.lease.is_leader:
            raise Failed("NotLeader")
        if "serve" in message:
            return await self.let_serve(message["serve"]["server"])
        if "copied" in message:
            return await self.take_copied(message["copied"])
        asked = message["restore"]
        if asked.get("lost"):
            text = f"it is to serve {', '.join(asked['lost'])}, and has no data of that: reopen, with a document in which it has nothing"
            self.alarms.give(asked["server"], "no data", text)
        reply = await self.command({"do": "restore", "server": asked["server"], "nonce": asked["nonce"]})
        if "restore" not in reply:
            await self.look_at_asker(asked["server"])
            told = reply.get("refused") or reply.get("fault") or {}
            raise Failed("Refused", told.get("kind", "") if isinstance(told, dict) else str(told))
        return {"restore": to_wire(reply["restore"])}

    async def let_serve(self, server: str) -> Message:
        """Lets a server serve that is recorded and not given up, and tells it the last reopening in force."""
        assert self.controller is not None
        state = (await self.ask({"do": "state"})).get("state", {})
        if not self.controller.given_up.may_serve(server, state) or not self.lease.is_leader:
            raise Failed("GivenUp")
        return {"serves": {}, "heard": {"journal": state["journal"], "base": state["fence"]}}

    async def take_copied(self, told: Line) -> Message:
        """Notes how many replicas have each acknowledged write of a shard, unless that is known."""
        for _ in range(2):
            state = (await self.ask({"do": "state"})).get("state", {})
            row = next((it for it in state.get("shards", []) if it["shard"] == told["shard"]), None)
            if state.get("is") != "open" or state["fence"] != told["fence"] or row is None:
                raise Failed("NotYet", "another reopening")
            if row["copies"] >= told["copies"]:
                return {"copied": told}
            reply = await self.command({"do": "copied", **told})
            if "refused" in reply:
                raise Failed("Refused", reply["refused"]["kind"])
        raise Failed("NotYet")

    async def look_at_asker(self, server: str) -> None:
        """Gives the alarm if a server asks for slots that is not recorded: it was given up, and is there again."""
        state = (await self.ask({"do": "state"})).get("state", {})
        if state.get("is") == "open" and all(it["server"] != server for it in state["servers"]):
            self.alarms.give(server, "given up", "it was given up, and is there again: it asks for slots. End it, or take it in by a reopening")

    async def command(self, line: Line) -> Line:
        """Stores and feeds an operator's command, or tells that this one does not lead."""
        try:
            if not self.leads or self.controller is None:
                raise StoreLost("this controller does not lead")
            return await self.controller.do(line)
        except (StoreLost, SessionEnded) as why:
            return {"fault": str(why)}
