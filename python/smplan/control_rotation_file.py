"""The rotation of a journal in a file, which the session's command names as its last word: one renaming ends the old one,
and begins the new one."""
from __future__ import annotations

import asyncio
import logging
from dataclasses import replace
from typing import TYPE_CHECKING, Optional

from .control import Line, Session, SessionEnded, text_of
from .control_rotated import JournalFile, NotRotated, Origin
from .control_rotation import Rotation

if TYPE_CHECKING:
    from .control_run import Running

log = logging.getLogger("smplan.run")


class FileRotation(Rotation):
    """A rotation of a journal that one controller keeps in a file."""

    def __init__(self, running: "Running", limit: Optional[int] = None) -> None:
        super().__init__(running, limit)
        self.found: Optional[JournalFile] = None

    @property
    def journal(self) -> JournalFile:
        """The journal, which there is."""
        assert self.found is not None
        return self.found

    def can_end(self) -> bool:
        """Whether the session's last word is a journal here."""
        self.found = self.found or JournalFile.of(self.running.settings.program[-1])
        return self.found is not None

    def size(self) -> int:
        """The bytes of the journal; 0 if somebody has taken it away."""
        try:
            return self.journal.size()
        except OSError:
            return 0

    async def begin(self) -> None:
        """Takes up a rotation that was broken off, or deletes what it has left. Nothing is sent before."""
        if not self.can_end():
            return
        journal = (await self.running.ask({"do": "hello"}))["hello"]["journal"]
        self.origin = self.until = None
        if journal is None:
            return
        self.origin = self.journal.origin(journal)
        try:
            left = self.journal.tidy(journal)
            if left:
                log.warning("a rotation was broken off, and this journal goes on as if nothing had happened: %s deleted",
                            ", ".join(left))
        except OSError as why:
            log.warning("what a rotation has left that was broken off is not deleted: %s", why)
        if self.origin is not None:
            self.close_old(self.origin)

    def close_old(self, origin: Origin) -> None:
        """Closes the journal that has ended, before anything of the new one is sent."""
        try:
            self.journal.close_old(origin)
        except (NotRotated, OSError) as why:
            log.error("%s has ended, and is not closed: %s; let nobody go on in it", origin.file, why)
        self.reached("closed")

    async def replace(self, origin: Origin, reopen: Line) -> None:
        """Lets the session end, makes the new journal, and gives it the old one's name. Before that nothing has happened,
        behind it the old one has ended."""
        assert self.running.controller is not None
        journal = self.journal
        status = await self.running.controller.session.close()
        if status != 0:
            raise NotRotated(f"the session ended with {status}")
        self.reached("ended")
        with journal.locked(origin.size):
            plans, approved = await asyncio.get_running_loop().run_in_executor(None, journal.names)
            old = journal.name_old(origin.epoch)
            self.reached("named")
            await self.make_next(origin.was, reopen)
            self.reached("made")
            journal.write_origin(replace(origin, file=old.name, plans=plans, approved=approved), beside=origin.was)
            self.reached("written")
            journal.swap()
            self.reached("swapped")

    async def make_next(self, journal: str, reopen: Line) -> None:
        """Makes the new journal, which begins with a reopening. Nobody is told of it."""
        self.journal.clear_next(journal)
        session = await Session.start((*self.running.settings.program[:-1], str(self.journal.next)), is_apart=True)
        try:
            reply = await session.feed(text_of(reopen))
        except SessionEnded as why:
            reply = {"fault": str(why)}
        status = await session.close()
        if "fence" not in reply or status != 0:
            raise NotRotated(f"the new journal does not begin: {reply}; its session ended with {status}")

    async def lead_on(self) -> None:
        """Leads on over the journal that there is, by a session of its own if the one before has ended."""
        running = self.running
        assert running.controller is not None
        if running.controller.session.end is not None:
            running.controller.session = await Session.start(running.settings.program, is_apart=True)
        await self.begin()
        await running.adopt_map()
        await running.controller.lead()
        self.reached("leads")

    async def write_origin(self, origin: Origin) -> None:
        """Says anew what the journal goes on from, durably. (If that fails it is said at the next start.)"""
        try:
            self.journal.write_origin(origin)
        except OSError as why:
            log.warning("the size of the new journal is not kept: %s", why)
