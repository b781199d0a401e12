"""The owner of the published map, built into a controller: a file that is written, synced and renamed, and a command that is run then.

The file is one JSON object that clients read: `entries`, by shard `to` and `version`, beside the base of its owner and a nonce, which is new with
each start of a controller. What an order made be shown is answered only once the file has it and the command has ended with 0.
"""
from __future__ import annotations

import asyncio
import json
import logging
import os
import secrets
import signal
from pathlib import Path
from typing import Dict, Optional

from . import agent
from .agent import Answer, Base
from .control import DONE, Line

log = logging.getLogger("smplan.map")

# A shard's entry: the server that it names, or none, and its version.
Entry = Dict[str, object]


def base_beside(journal: int, state: Line) -> Base:
    """The base that a journal has recorded of the map's owner, from what it says to `state`."""
    reopening = state.get("reopening")
    if reopening is None:
        return Base(journal, state["fence"], known=1)
    is_waited_for = None in reopening["waiting"]
    if reopening["is"] == "settle":
        return Base(journal, reopening["base"], known=1, fenced=int(is_waited_for))
    return Base(journal, state["fence"], known=1) if is_waited_for else Base(journal, reopening["base"], known=1, fenced=1)


def is_to_be_fenced(state: Line) -> bool:
    """Whether a reopening waits for the map's owner to take its fence."""
    reopening = state.get("reopening")
    return reopening is not None and reopening["is"] == "fence" and None in reopening["waiting"]


class MapFile:
    """The published map in a file. What is here is written as a whole, so that a file that was deleted or replaced is whole again at once."""

    def __init__(self, path: Path, then: Optional[str] = None, patience: float = 30.0) -> None:
        self.path, self.then, self.patience = path, then, patience
        self.nonce = secrets.token_hex(8)
        self.base = Base(known=1)
        self.entries: Dict[str, Entry] = {}
        # How often something has changed, and how much of that is in the file and told to the command.
        self.changes = self.shown = 0
        self.writes = self.failures = 0
        self.said = ""
        self.writing: Optional["asyncio.Task[None]"] = None

    # The file.

    def read(self) -> Optional[Line]:
        """Reads the file, none if there is none, or no map in it."""
        try:
            told = json.loads(self.path.read_text(encoding="utf-8"))
            Base(int(told["journal"], 16), told["base"], known=1, fenced=int(told["fenced"]))
            return told if all({"to", "version"} <= set(it) for it in told["entries"].values()) else None
        except (OSError, ValueError, LookupError, TypeError, AttributeError):
            return None

    def text(self) -> str:
        """The file as it should be."""
        told = {"journal": f"{self.base.journal:x}", "base": self.base.number, "fenced": bool(self.base.fenced), "nonce": self.nonce, "entries": self.entries}
        return json.dumps(told, separators=(",", ":")) + "\n"

    def write(self, text: str) -> None:
        """Puts a text in place of the file, durably."""
        draft = self.path.with_name(self.path.name + ".new")
        with draft.open("w", encoding="utf-8") as file:
            file.write(text)
            file.flush()
            os.fsync(file.fileno())
        os.replace(draft, self.path)
        folder = os.open(self.path.parent, os.O_RDONLY)
        try:
            os.fsync(folder)
        finally:
            os.close(folder)

    async def run_command(self) -> None:
        """Runs the command, and fails unless it ends with 0 in time."""
        if self.then is None:
            return
        process = await asyncio.create_subprocess_shell(self.then, stdin=asyncio.subprocess.DEVNULL, start_new_session=True)
        try:
            status = await asyncio.wait_for(process.wait(), self.patience)
        except asyncio.TimeoutError:
            os.killpg(process.pid, signal.SIGKILL)
            raise OSError(f"{self.then} has not ended within {self.patience:g} s") from None
        if status != 0:
            raise OSError(f"{self.then} ended with {status}")

    async def write_all(self) -> None:
        """Writes until all that has changed is shown."""
        while self.shown < self.changes:
            changes = self.changes
            try:
                await asyncio.get_running_loop().run_in_executor(None, self.write, self.text())
                await self.run_command()
            except OSError as why:
                self.failures += 1
                self.said = str(why)
                log.error("the map is not shown: %s", why)
                return
            self.writes += 1
            self.shown, self.said = changes, ""

    async def show(self, changed: bool) -> str:
        """Waits until all that is here now is in the file and the command has heard of it, and returns DONE, or why not."""
        self.changes += changed
        wanted = self.changes
        while self.shown < wanted:
            if self.writing is None or self.writing.done():
                self.writing = asyncio.create_task(self.write_all())
            await asyncio.shield(self.writing)
            if self.said:
                return self.said
        return DONE

    # What it is told.

    def load(self) -> Optional[Line]:
        """Takes what the file says, and returns it, none if it is gone."""
        told = self.read()
        self.base, self.entries = Base(known=1), {}
        if told is not None:
            self.base = Base(int(told["journal"], 16), told["base"], known=1, fenced=int(told["fenced"]))
            self.entries = told["entries"]
        return told

    async def adopt(self, published: Line, state: Line) -> None:
        """Begins by what the file says, unless it is gone, of another journal, or older than what the journal has recorded: then that is shown first."""
        told, base = self.load(), base_beside(int(state["journal"] or "0", 16), state)
        if told is not None and is_to_be_fenced(state):
            return  # (a journal that takes over what runs: the fence comes, and until the settle everything is shown as it is)
        if self.base.journal != base.journal or self.base.number < base.number:
            self.entries = {}
        if self.base.journal != base.journal or self.base.number <= base.number:
            self.base = base
        recorded = {it["shard"]: {"to": it["to"], "version": it["version"]} for it in published.get("map") or []}
        self.entries = {shard: it for shard, it in self.entries.items() if shard in recorded}
        behind = {shard: it for shard, it in recorded.items() if shard not in self.entries or self.entries[shard]["version"] < it["version"]}
        self.entries.update(behind)
        if told is not None and behind:
            log.warning("%s is older than the journal: %d entries of %d are shown anew", self.path, len(behind), len(recorded))
        await self.show(True)

    async def look(self) -> None:
        """Shows everything anew if somebody has deleted or replaced the file, or if it was not shown yet."""
        if self.shown < self.changes:
            await self.show(False)
        elif self.shown and (self.read() or {}).get("nonce") != self.nonce:
            log.warning("%s was deleted or replaced: it is written anew", self.path)
            await self.show(True)

    async def publish(self, publication: Line) -> str:
        """Shows an entry if it is newer."""
        shown = self.entries.get(publication["shard"], {}).get("version", -1)
        answer = agent.publish(self.base, shown, int(publication["journal"], 16), publication.get("fence", 0), publication["version"])
        if answer not in (Answer.BEGIN, Answer.AGAIN):
            return answer.name.lower()
        if answer == Answer.BEGIN:
            self.entries[publication["shard"]] = {"to": publication["to"], "version": publication["version"]}
        return await self.show(answer == Answer.BEGIN)

    async def fence(self, fence: Line) -> Optional[Line]:
        """Takes a fence."""
        answer, self.base = agent.fence(self.base, int(fence["journal"], 16), fence["base"], 1)
        if answer == Answer.IGNORED:
            return None
        return {} if await self.show(answer == Answer.TAKEN) == DONE else None

    async def settle(self, settle: Line) -> str:
        """Takes all entries once, while fenced at this base."""
        answer, self.base, _ = agent.take(self.base, agent.Settlement(int(settle["journal"], 16), settle["base"]), {}, {})
        if answer not in (Answer.TAKEN, Answer.AGAIN):
            return answer.name.lower()
        if answer == Answer.TAKEN:
            self.entries = {it["shard"]: {"to": it["to"], "version": it["version"]} for it in settle["entries"]}
        return await self.show(answer == Answer.TAKEN)
