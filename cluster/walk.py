"""`python3 -m cluster.walk`: what an operator does with a whole service while clients write, by the commands of `smplan-control`.

A region is emptied into another one while a leader dies. What is left is levelled, by a command that begins amid the failover. Each server is
restarted in turn: as it is; once others lead its shards; by handovers. In the end all is taken back. A verdict follows as of any run; and but for
the restarts of servers as they are, a shard is without a server between the two calls of a change of roles alone, as the command has told beforehand.
"""
from __future__ import annotations

import argparse
import asyncio
import json
import os
import re
import shutil
import signal
import sys
import time
from collections.abc import Iterable
from contextlib import asynccontextmanager
from dataclasses import dataclass, field
from functools import partial
from pathlib import Path

from cluster.controllers.etcd import EtcdFault
from cluster.faults.reopenings import NotOpened
from cluster.launch.cluster import CALM, ENVIRONMENT, ROUGH, program_of
from cluster.launch.directory import add_directory, new_directory
from cluster.launch.figures import lines_of, without_service
from cluster.launch.operator import NoLeader
from cluster.launch.processes import NotReady, die_with_parent
from cluster.launch.shape import document_of
from cluster.launch.unserved import Gap, gaps_of
from cluster.run import NO_VERDICT, Run, Settings, add_load, add_session, report, shape_of
from cluster.wire import Failed

# The region that is emptied, and the one that gets nothing of it at first.
REGION, OTHER = "region:oslo", "region:porto"
# A command that has a server restarted, by its name behind the path of a socket.
ASKING = """
import socket, sys
it = socket.socket(socket.AF_UNIX)
it.connect(sys.argv[1])
it.sendall(sys.argv[2].encode() + b"\\n")
sys.exit(it.recv(9) != b"up\\n")
"""
# What a command tells of shards that nobody serves for one call.
TOLD = re.compile(r"for one call each nobody is the primary of (.+?)(?: and (\d+) more)?$")


@dataclass
class Chapter:
    """What an operator does for one end, by one command or more, from one moment to another, with what the commands told. Servers may go down while
    they lead, or roles may change by two calls, or neither."""

    name: str
    leads_when_down: bool = False
    changes_roles: bool = True
    begin: int = 0
    end: int = 0
    told: list[tuple[int, str]] = field(default_factory=list)
    failed: list[str] = field(default_factory=list)

    def has(self, gap: Gap) -> bool:
        """Whether a time without service began meanwhile."""
        return self.begin <= gap.begin < self.end

    def was_told(self, gap: Gap) -> bool:
        """Whether a command had told that nobody would serve a shard for one call. (It names six shards, and how many more there are.)"""
        found = (TOLD.search(text) for moment, text in self.told if moment <= gap.begin)
        return any(it is not None and (gap.shard in it[1].split(", ") or it[2]) for it in found)

    def faults(self, gaps: Iterable[Gap]) -> list[str]:
        """What was not as it has to be: commands that failed, and times without service."""
        found = [f"{self.name}: {it}" for it in self.failed]
        for gap in filter(self.has, gaps):
            if gap.is_change and not self.changes_roles:
                found.append(f"{self.name}: roles changed by two calls in {gap.shard}")
            elif gap.is_change and not self.was_told(gap):
                found.append(f"{self.name}: nobody served {gap.shard} for one call, which was not told beforehand")
            elif not gap.is_change and not self.leads_when_down:
                found.append(f"{self.name}: nobody served {gap.shard} for {gap.seconds:.1f} s")
        return found

    def line(self, gaps: Iterable[Gap], asked: Iterable[dict]) -> str:
        """What there was of it, and what clients met."""
        mine = list(filter(self.has, gaps))
        waits = without_service(it for it in asked if self.begin <= it["start"] and it["end"] <= self.end)
        words = {True: "changes of roles", False: "with its server down"}
        times = {what: [it.seconds for it in mine if it.is_change == is_change] for is_change, what in words.items()}
        kinds = [f"{len(them)} {what}, the longest {max(them):.2f} s" for what, them in times.items() if them]
        return (f"{self.name:45} {(self.end - self.begin) / 1e9:5.1f} s; nobody serves a shard: {' and '.join(kinds) or 'never'}; "
                f"a shard's longest time without a reply {max(waits.values(), default=0):.2f} s")


class Walk(Run):
    """One walk."""

    def __init__(self, settings: Settings) -> None:
        super().__init__(settings)
        self.chapters: list[Chapter] = []
        self.before, self.document, self.socket = (str(settings.directory / it) for it in ("before.json", "service.json", "restarts"))

    @property
    def restarting(self) -> list[str]:
        """The command that restarts a server; its name is to come."""
        return [sys.executable, "-S", "-c", ASKING, self.socket]

    async def harm(self) -> None:
        """Walks through all chapters."""
        Path(self.document).write_text(json.dumps(document_of(self.settings.shape)))
        begun = time.monotonic_ns()
        await asyncio.sleep(2.0)
        self.spans = {"at rest": [(begun, time.monotonic_ns())]}
        start = time.monotonic()
        restarts = await asyncio.start_unix_server(self.take_restart, self.socket)
        try:
            await self.walk()
        finally:
            restarts.close()
        self.moved_for = time.monotonic() - start

    async def walk(self) -> None:
        """All that the operator does."""
        known = ("--document", self.document)
        async with self.chapter("a region is emptied") as it:
            dying = asyncio.create_task(self.kill_after(it, "plan "))
            await self.control(it, "drain", REGION, "--avoid", OTHER, "--before", self.before, *known)
            await dying
        async with self.chapter("the rest is levelled") as it:
            dying = await self.kill()
            await self.control(it, "balance", "--avoid", REGION, *known)
            await dying
            await self.control(it, "balance", "--primaries", "--avoid", REGION, *known)
        async with self.chapter("servers are restarted as they are", leads_when_down=True) as it:
            for name in self.story.alive:
                await self.control(it, "restart", name, "--by", f"plain-{name}", "--yes", "--", *self.restarting, name)
        async with self.chapter("a server is restarted once others lead its shards") as it:
            name = self.story.alive[0]
            await self.control(it, "restart", name, "--no-primaries", "--by", "bare", "--yes", "--", *self.restarting, name)
        async with self.chapter("servers are restarted once others lead") as it:
            await self.control(it, "rolling-restart", "--by", "turn", *known, "--", *self.restarting, "{}")
        async with self.chapter("servers are restarted by handovers", changes_roles=False) as it:
            await self.control(it, "rolling-restart", "--by", "hand", "--no-gap", *known, "--", *self.restarting, "{}")
        async with self.chapter("all is taken back") as it:
            await self.control(it, "undo", self.before, *known)
            await self.compare(it)

    @asynccontextmanager
    async def chapter(self, name: str, **more: bool):
        """Begins a chapter, and ends it."""
        self.tell(name)
        self.chapters.append(Chapter(name, **more, begin=time.monotonic_ns()))
        yield self.chapters[-1]
        self.chapters[-1].end = time.monotonic_ns()

    async def control(self, chapter: Chapter, *words: str) -> None:
        """Has a command of `smplan-control` run to its end, and notes what it tells."""
        urls = [word for port in self.cluster.pages.values() for word in ("--controller", f"http://127.0.0.1:{port}")]
        at = words.index("--") if "--" in words else len(words)
        pipe, joined = asyncio.subprocess.PIPE, asyncio.subprocess.STDOUT
        process = await asyncio.create_subprocess_exec(
            sys.executable, "-m", "smplan.control_commands", *words[:at], *urls, *words[at:],
            stdin=asyncio.subprocess.DEVNULL, stdout=pipe, stderr=joined, env={**os.environ, **ENVIRONMENT}, preexec_fn=partial(die_with_parent, os.getpid()))
        assert process.stdout is not None
        async for line in process.stdout:
            chapter.told.append((time.monotonic_ns(), line.decode().rstrip()))
            self.tell(f"  {chapter.told[-1][1]}")
        status = await process.wait()
        if status:
            chapter.failed.append(f"{' '.join(words[:2])} ended with {status}: {chapter.told[-1][1] if chapter.told else 'it told nothing'}")

    async def kill_after(self, chapter: Chapter, beginning: str) -> None:
        """Kills the leading controller once a command has told something, and starts it again once another one leads."""
        while not any(text.startswith(beginning) for _, text in chapter.told) and not chapter.failed:
            await asyncio.sleep(0.05)
        await self.story.kill_at_once()

    async def kill(self) -> asyncio.Task[None]:
        """Kills the leading controller, which starts again once another one leads."""
        before = len(self.story.deaths)
        dying = asyncio.create_task(self.story.kill_at_once())
        while len(self.story.deaths) == before and not dying.done():
            await asyncio.sleep(0.01)
        return dying

    async def take_restart(self, reader: asyncio.StreamReader, writer: asyncio.StreamWriter) -> None:
        """Restarts the server that is named, with its slots, and answers once it is ready."""
        name = (await reader.readline()).decode().strip()
        self.story.note_permit(name, True)
        await self.cluster.processes[name].kill()
        await self.cluster.processes[name].start()
        self.story.note_permit(name, False)
        self.story.counts["restarts"] += 1
        writer.write(b"up\n")
        await writer.drain()
        writer.close()

    async def compare(self, chapter: Chapter) -> None:
        """Compares what is recorded with the placement of before."""
        def cells_of(shards: list[dict], name: str) -> dict:
            return {it[name]: {cell["server"]: cell["state"] for cell in it["cells"]} for it in shards}
        before = json.loads(Path(self.before).read_text())["shards"] if Path(self.before).exists() else []
        now = (await self.story.state()).get("shards", [])
        if cells_of(before, "name") != cells_of(now, "shard"):
            chapter.failed.append("the placement is not as before")


def judged(walk: Walk) -> list[str]:
    """A line for each chapter; what was wrong in it becomes part of the verdict."""
    assert walk.verdict is not None
    where = walk.settings.directory
    gaps = gaps_of([*lines_of(where / "histories.jsonl"), *walk.story.permits])
    asked = [it for it in lines_of(where / "clients.jsonl") if not it.get("final")]
    for it in walk.chapters:
        walk.verdict.faults += it.faults(gaps)
    return [it.line(gaps, asked) for it in walk.chapters]


def arguments() -> argparse.Namespace:
    """Reads the command line."""
    parser = argparse.ArgumentParser(prog="cluster.walk", description="Does by smplan-control's commands what an operator does with a service under load.")
    add_session(parser)
    parser.add_argument("--servers", type=int, default=6, help="how many servers, in three regions (default %(default)s)")
    parser.add_argument("--shards", type=int, default=24, help="how many shards (default %(default)s)")
    parser.add_argument("--clients", type=int, default=8, help="how many clients (default %(default)s)")
    parser.add_argument("--seed", type=int, default=1, help="what the placement and the harm are drawn by (default %(default)s)")
    parser.add_argument("--rough", action="store_true", help="messages are lost, late and repeated")
    add_load(parser)
    parser.set_defaults(hot_clients=8, largest=20_000)
    add_directory(parser)
    parser.add_argument("--keep", type=Path, metavar="DIR", help="keep logs and histories there")
    return parser.parse_args()


def main() -> int:
    """Walks once, and returns 0 if there was no violation, 1 if there was one, and NO_VERDICT if something did not come in time."""
    told = arguments()
    signal.signal(signal.SIGTERM, signal.default_int_handler)
    directory = new_directory("walk-", told.dir)
    rates = ROUGH if told.rough else CALM
    settings = Settings(directory, shape_of(told, told.seed), program_of(told.program), rates=rates, pause=told.pause, is_busy=told.busy)
    walk = Walk(settings)
    try:
        result = asyncio.run(walk.run())
        lines = judged(walk)
        print(report(result), *lines, sep="\n")
        return 1 if result.verdict.faults else 0
    except NotOpened as why:
        print(f"cluster: {why}", file=sys.stderr)
        return 1
    except (NotReady, NoLeader, TimeoutError, Failed, EtcdFault) as why:
        print(f"cluster: no verdict: {why or type(why).__name__}", file=sys.stderr)
        return NO_VERDICT
    finally:
        if told.keep:
            shutil.copytree(directory, told.keep, dirs_exist_ok=True, ignore=shutil.ignore_patterns("*.sock", "restarts", "etcd-*", "member"))
        shutil.rmtree(directory, ignore_errors=True)


if __name__ == "__main__":
    sys.exit(main())
