"""`smplan-control run --etcd`: one of several controllers, which follow one journal in etcd; the one that holds the lease leads."""
from __future__ import annotations

import asyncio
import json
import logging
import ssl
import time
from dataclasses import dataclass, replace
from typing import List, Optional, Tuple

from .control import Controller, Session, SessionEnded, StoreLost
from .control_etcd import Etcd, EtcdFault, end_of, members_of
from .control_etcd_journal import MOST_BYTES, UNANSWERED, EtcdJournal, JournalEnded, JournalLost, Keys
from .control_etcd_lease import Lease
from .control_etcd_map import EtcdMap
from .control_http import serve
from .control_metrics import metric
from .control_rotation_etcd import EtcdRotation, Names
from .control_run import PASSED_ON, Running, Settings

log = logging.getLogger("smplan.run")


@dataclass(frozen=True)
class EtcdSettings:
    """Where etcd is, and as whom this controller goes there."""

    urls: Tuple[str, ...]
    name: str
    prefix: str = "smplan/"
    lease: int = 5
    tls: Optional[ssl.SSLContext] = None
    user: Optional[Tuple[str, str]] = None

    def client(self, timeout: float = 2.0) -> Etcd:
        """A client, which asks first whom others ask later."""
        return Etcd(members_of(self.urls), timeout, sum(map(ord, self.name)), self.tls, self.user)


class AmongOthers(Running):
    """A controller among several: hot, as its session reads the journal all the time."""

    may_follow = True

    def __init__(self, settings: Settings, etcd: EtcdSettings) -> None:
        super().__init__(settings)
        self.etcd = etcd
        keys = Keys(etcd.prefix)
        self.lease = Lease(etcd.client(), etcd.name, etcd.lease, keys, is_told=True)
        self.journal = EtcdJournal(etcd.client(), self.lease.leader, keys=keys)
        self.map = EtcdMap(etcd.client(), f"{etcd.prefix}map-base", f"{etcd.prefix}map/")
        self.fleet.owner = self.map
        self.mirrored = etcd.client()
        self.read_at = time.monotonic()
        self.turning = EtcdRotation(self, settings.rotate_at)
        self.rotation = self.turning

    async def run(self) -> int:
        """Follows and leads until it is told to stop, 0; its session ends, as that has ended, or 3; or etcd has lost lines, 6."""
        session = await Session.start(self.settings.program, is_apart=True)
        self.controller = Controller(session, self.fleet, self.journal.append, replace(self.settings.pace, batch_bytes=MOST_BYTES))
        self.controller.noted = self.turning.names.take
        self.listen_to_signals()
        mirror, status = asyncio.create_task(self.mirror()), 3
        try:
            self.server = await serve(self.settings.host, self.settings.port, self.routes(), self.settings.token, self.settings.tls)
            log.info("%s follows, listens at %s:%d", self.etcd.name, self.settings.host, self.server.port)
            while not self.stopping.is_set():
                try:
                    await self.follow()
                    if not self.stopping.is_set() and await self.lease.campaign():
                        await self.lead()
                except JournalEnded as why:
                    await self.go_on(why.folder)
            log.info("stops")
            status = 0
        except JournalLost as why:
            log.error("%s; adopt the service under a new journal (docs/SMPLAND.md, The first line of a journal)", why)
            status = 6
        except SessionEnded as why:
            log.error("%s", why)
        except OSError as why:
            log.error("%s:%d: %s", self.settings.host, self.settings.port, why.strerror or why)
        finally:
            mirror.cancel()
            ended = await self.end()
            for it in (self.journal.etcd, self.lease.etcd, self.map.etcd, self.mirrored):
                await it.close()
        return ended if status == 3 and ended in PASSED_ON else status

    async def follow(self, seconds: float = 0.3) -> None:
        """Feeds what is new in the journal, and rests for a moment."""
        assert self.controller is not None
        try:
            await self.controller.follow(await self.journal.read(may_lag=True))
            self.read_at = time.monotonic()
        except EtcdFault as why:
            log.debug("%s", why)
        await self.rest_for(seconds)

    async def go_on(self, folder: str) -> None:
        """Follows the journal that goes on from the one before, by a session of its own."""
        assert self.controller is not None
        if self.controller.session.fed:
            await self.controller.session.close()
            self.controller.session = await Session.start(self.settings.program, is_apart=True)
        self.journal.go_on(folder)
        self.turning.names = Names()
        self.controller.noted = self.turning.names.take
        log.info("the journal has ended, and goes on below %s", self.journal.keys.journal)

    def journal_figures(self) -> List[str]:
        """The size of the journal as far as this controller has read it, and how long ago it was at its end."""
        journal = self.journal
        age = 0.0 if self.controller is not None and self.controller.leads else time.monotonic() - self.read_at
        return [
            *metric("journal_bytes", "gauge", "size of the journal, as far as it was read", [({}, float(journal.bytes))]),
            *metric("journal_lines", "gauge", "lines of the journal that were read", [({}, float(journal.place))]),
            *metric("journal_age_seconds", "gauge", "how long ago this controller had read all of the journal", [({}, age)]),
            *metric("append_tries_unanswered_total", "counter", "tries to append that etcd did not answer", [({}, float(journal.counts[UNANSWERED]))]),
        ]

    async def rest_for(self, seconds: float) -> None:
        """Rests, but no longer once it is to stop."""
        try:
            await asyncio.wait_for(self.stopping.wait(), seconds)
        except asyncio.TimeoutError:
            pass

    async def lead(self) -> None:
        """Leads while the lease lasts."""
        controller = self.controller
        assert controller is not None
        # (what was sent under an earlier lease, by this process or another of its name, is not stored under this one)
        self.journal.leader = self.lease.leader
        begun, keeping = time.monotonic(), asyncio.create_task(self.lease.keep())
        why: Optional[BaseException] = None
        try:
            await controller.follow(await self.journal.read())
            await self.turning.begin()
            await self.adopt_map()
            await controller.lead()
            await self.open()
            log.info("%s leads at place %d", self.etcd.name, self.journal.place)
            while not self.stopping.is_set() and not keeping.done() and controller.lost is None:
                await self.rest_for(0.5)
                await controller.refresh()
                await self.turning.step()
                self.tell_of_messages()
            why = controller.lost
        except (EtcdFault, StoreLost, SessionEnded) as fault:
            why = fault
        finally:
            keeping.cancel()
            await controller.rest()
            await self.lease.leave()
            self.read_at = time.monotonic()
            log.info("%s rests after %.0f s: %s", self.etcd.name, time.monotonic() - begun, why or ("it stops" if self.stopping.is_set() else "the lease has ended"))
        if isinstance(why, (JournalLost, SessionEnded)):
            raise why

    async def adopt_map(self) -> None:
        """Gives the map in etcd what a journal was opened by."""
        assert self.controller is not None
        state = (await self.controller.ask({"do": "state"}))["state"]
        if state["is"] == "open":
            await self.map.adopt(await self.controller.ask({"do": "map"}), state)

    async def mirror(self) -> None:
        """Shows the map of etcd in this machine's file, and tells the command."""
        first = self.map.prefix
        while True:
            try:
                found = {it.key[len(first):]: json.loads(it.value) for it in await self.mirrored.range(first, end_of(first))}
                if found != self.owner.entries or not self.owner.changes:
                    self.owner.entries = found
                    await self.owner.show(True)
                else:
                    await self.owner.look()
            except EtcdFault as why:
                log.debug("%s", why)
            except Exception:  # (this task has to go on whatever somebody has put into etcd)
                log.exception("the map of etcd is not shown")
            await asyncio.sleep(0.3)
