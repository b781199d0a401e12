"""The rotation of a journal in etcd: one transaction ends the old one, and begins the new one. Each controller goes on
there by itself, with a session of its own."""
from __future__ import annotations

import asyncio
import json
import logging
from dataclasses import asdict, replace
from typing import TYPE_CHECKING, Dict, Optional

from .control import Line, StoreLost
from .control_etcd import Etcd, EtcdFault, drop, end_of, has_value, put
from .control_etcd_journal import MOST_BYTES, Keys
from .control_rotated import NotRotated, Origin, cells_of, number_of
from .control_rotation import Rotation
from .control_session import text_of

if TYPE_CHECKING:
    from .control_run_etcd import AmongOthers

log = logging.getLogger("smplan.run")

# How many lines of a journal that has ended are deleted at once.
PIECE = 500


class Names:
    """The names that the last epoch of a journal has, of its plans and of restarts, by the replies to its lines."""

    def __init__(self) -> None:
        self.plans: Dict[str, Line] = {}
        self.approved: Dict[str, str] = {}

    def take(self, text: str, reply: Line) -> None:
        """Takes a line that was fed, and its reply."""
        if "begun" in reply and "again" not in reply:
            self.plans[json.loads(text)["name"]] = {it: reply["begun"][it] for it in ("plan", "calls", "streams")}
        elif "approved" in reply:
            self.approved[json.loads(text)["by"]] = reply["approved"]["server"]
        elif "fence" in reply or "opened" in reply:
            self.plans, self.approved = {}, {}


class EtcdRotation(Rotation):
    """A rotation of the journal that several controllers have in etcd."""

    keeps_old = False

    def __init__(self, running: "AmongOthers", limit: Optional[int] = None) -> None:
        super().__init__(running, limit)
        self.among, self.names = running, Names()
        self.deleting: Optional["asyncio.Task[None]"] = None
        self.has_ended = False

    @property
    def etcd(self) -> Etcd:
        """The journal's client."""
        return self.among.journal.etcd

    def can_end(self) -> bool:
        """Whether the journal can end: always."""
        return True

    def size(self) -> int:
        """The bytes of the journal."""
        return self.among.journal.bytes

    async def begin(self) -> None:
        """Finds out what the journal goes on from, and deletes that if this one is open, and what a rotation has left that
        was broken off."""
        keys, journal = self.among.journal.keys, (await self.among.ask({"do": "hello"}))["hello"]["journal"]
        self.origin, self.until, self.has_ended = None, None, False
        own = keys.origins + ("" if journal is None else number_of(journal))
        for it in await self.etcd.range(keys.origins, end_of(keys.origins)):
            if it.key != own:
                await self.etcd.transact([has_value(keys.leader, self.among.journal.leader)], [drop(it.key)])
                continue
            first = await self.etcd.get(keys.line(1))
            if first is not None:
                shards = json.loads(first.value)["document"]["shards"]
                self.origin = replace(Origin(**json.loads(it.value)), cells=cells_of(shards, "name"))
                self.delete_old(self.origin)

    async def replace(self, origin: Origin, reopen: Line) -> None:
        """Ends the journal, and begins the new one."""
        journal = self.among.journal
        keys, first = replace(journal.keys, folder=f"journal.{origin.first}/"), text_of(reopen)
        told = replace(origin, file=journal.keys.folder, plans=self.names.plans, approved=self.names.approved)
        if max(len(first), len(self.text_of(told))) > MOST_BYTES:
            raise NotRotated(f"etcd takes no line of {len(first)} bytes, or not the names of {len(told.plans)} plans: "
                             "these are fewer behind a new_epoch")
        self.reached("ended")
        try:
            is_told = await self.tell(told)
            self.reached("written")
            if not is_told or not await journal.end(keys, first):
                raise StoreLost("another controller leads")
        except EtcdFault as why:
            raise StoreLost(f"whether the journal has ended is not known yet: {why}") from None
        self.has_ended = True
        self.reached("swapped")

    async def lead_on(self) -> None:
        """Leads on if the journal has not ended; otherwise no longer, as who leads next does over the journal that goes on."""
        assert self.running.controller is not None
        if self.has_ended:
            raise StoreLost("the journal has ended, and another one goes on")
        await self.running.controller.lead()

    async def write_origin(self, origin: Origin) -> None:
        """Says anew what the journal goes on from. (If that fails it is said at the next start.)"""
        try:
            await self.tell(origin)
        except EtcdFault as why:
            log.debug("%s", why)
        self.delete_old(origin)

    def text_of(self, origin: Origin) -> str:
        """What is told of a journal's origin. Who has what stands in its first line."""
        return text_of(asdict(replace(origin, cells={})))

    async def tell(self, origin: Origin) -> bool:
        """Says what a journal goes on from, if this one leads."""
        keys = self.among.journal.keys
        leads = has_value(keys.leader, self.among.journal.leader)
        return await self.etcd.transact([leads], [put(keys.origins + number_of(origin.journal), self.text_of(origin))])

    # The lines of the old one.

    def delete_old(self, origin: Origin) -> None:
        """Begins to delete the lines of the journal before, once this one is open."""
        if origin.after is not None and (self.deleting is None or self.deleting.done()):
            old = replace(self.among.journal.keys, folder=origin.file)
            self.deleting = asyncio.create_task(self.delete_lines(old))

    async def delete_lines(self, keys: Keys) -> None:
        """Deletes the lines of a journal that has ended, a piece at once. The key behind them stays."""
        deleted = 0
        try:
            has_ended = await self.etcd.get(keys.end) is not None
            while has_ended and (found := [it.key for it in await self.etcd.range(keys.line(1), keys.end, limit=PIECE)]):
                await self.etcd.delete(found[0], found[-1] + "\0")
                deleted += len(found)
        except EtcdFault as why:
            log.warning("lines of the journal that has ended are not deleted yet: %s", why)
        if deleted:
            log.info("%d lines of the journal that has ended were deleted", deleted)
