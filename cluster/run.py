"""`python3 -m cluster.run`: a minute of a cluster that is moved while it is used, and harmed. It ends with figures and a verdict."""
from __future__ import annotations

import argparse
import asyncio
import inspect
import json
import os
import shlex
import shutil
import signal
import subprocess
import sys
import time
from collections import Counter
from collections.abc import Awaitable, Callable
from dataclasses import dataclass, field
from pathlib import Path

from cluster.controllers.etcd import EtcdFault
from cluster.faults.handovers import HandoverStory
from cluster.faults.parts import EVERY, OUTSIDE, drawn, evenly
from cluster.faults.reopenings import NotOpened
from cluster.launch.cluster import CALM, ROOT, ROUGH, LocalCluster, program_of
from cluster.launch.directory import add_directory, new_directory
from cluster.launch.figures import Handover, at, copied, handovers_of, lines_of, of_handovers, order_waits, rate_of, request_waits, unacknowledged, without_service
from cluster.launch.moving import Mover
from cluster.launch.operator import NoLeader, Operator
from cluster.launch.processes import NotReady
from cluster.launch.report import SHOWN, listed, seconds_of, service_line, situations_line, trust_lines
from cluster.launch.shape import Shape, fewest
from cluster.launch.situations import situations_of
from cluster.launch.verdict import Evidence, Verdict, judge
from cluster.launch.watcher import Watcher
from cluster.wire import Failed

# The whole story, by the share of a run at which each part begins.
WHOLE = (
    (0.10, "drain"), (0.22, "kill_leader"), (0.36, "restart_server"), (0.44, "kill_member"), (0.52, "crash_server"), (0.60, "restart_server"),
    (0.66, "freeze_leader"), (0.84, "lose_server"),
)
# The share of a run in which nothing is moved, before the story begins.
REST = 0.08
# What begins only when everything else of the story has ended: without a server that is lost for good, no other one may be restarted.
LAST = ("lose_server",)
JOURNAL_BITS = 64
# For how many seconds a shard may be without service, if no server that had it was given up; on a busy machine from the second up to the third, by as
# much as a request waits longer at rest than it usually does, beside the time for which the proxies were kept from running.
OUTAGE, LEAST_IF_BUSY, OUTAGE_IF_BUSY, USUAL = 12.0, 30.0, 60.0, 0.03
# The exit status of a run that a slow machine kept from its end.
NO_VERDICT = 4
# The session in Python, which decides if there is no built one, and is compared with the one that decides.
REFERENCE = f"{sys.executable} {ROOT / 'tools' / 'smpland_model.py'} -"
# The lines of a reopening, with which a cluster begins.
REOPENING = ("reopen", "fenced", "confirm", "settled")


@dataclass(frozen=True)
class Settings:
    """How a run goes."""

    directory: Path
    shape: Shape
    program: str
    seconds: float = 60.0
    # What befalls messages, by the kind of link.
    rates: dict[str, dict[str, float]] = field(default_factory=lambda: ROUGH)
    parts: tuple[tuple[float, str], ...] = WHOLE
    bugs: tuple[str, ...] = ()
    workers: int = 3
    moves: int = 4
    pause: float = 0.01
    is_quiet: bool = False
    # How many of the moves make a primary and a secondary change roles.
    swaps: float = 0.2
    # The machine has other work: waits are longer, and a request that takes more than 10 seconds is no violation.
    is_busy: bool = False
    # How many seconds plans are waited for at the end, if not as many as otherwise, and how many the operator tries something for.
    ending: float | None = None
    patience: float | None = None
    # For how many seconds a server serves without a controller's answer; 0: for ever.
    lease: float = 0.0
    # What servers keep their data in.
    store: str = "redis"
    # What a planted bug is about takes longer.
    is_slow: bool = False
    # Primaries are moved without handovers.
    is_abrupt: bool = False

    @property
    def copies(self) -> int:
        """How many servers have each write before it is acknowledged: the fewest replicas that a shard is to have."""
        return max(1, fewest(self.shape))


@dataclass
class Result:
    """What came of a run."""

    verdict: Verdict
    clients: dict[str, float] = field(default_factory=dict)
    counts: Counter[str] = field(default_factory=Counter)
    failovers: list[float] = field(default_factory=list)
    waits: list[float] = field(default_factory=list)
    handovers: list[Handover] = field(default_factory=list)
    situations: Counter[str] = field(default_factory=Counter)
    rates: dict[str, float] = field(default_factory=dict)
    orders_a_second: float = 0.0
    # From each leader's death to the next order.
    pauses: list[float] = field(default_factory=list)
    # How many bytes of data each copy of a shard had.
    copies: list[int] = field(default_factory=list)
    # For each shard the longest time without service, in seconds.
    gaps: dict[str, float] = field(default_factory=dict)


class Run:
    """One run."""

    def __init__(self, settings: Settings) -> None:
        self.settings = settings
        self.begun = time.monotonic()
        self.cluster = LocalCluster(settings.directory, settings.shape, settings.program, settings.rates, settings.bugs, pause=settings.pause,
                                    lease=settings.lease, store=settings.store, is_slow=settings.is_slow,
                                    notes_syncs=any(name == "cut_to_last_sync" for _, name in settings.parts), copies=settings.copies,
                                    is_busy=settings.is_busy)
        self.operator = Operator(self.cluster.pages, settings.patience or (240.0 if settings.is_busy else 90.0))
        self.mover = Mover(self.operator, settings.shape.seed, settings.swaps, settings.is_abrupt)
        self.story = HandoverStory(self.cluster, self.operator, self.mover, settings.shape.seed, self.tell)
        self.watcher = Watcher(self.cluster.members)
        self.verdict: Verdict | None = None
        # The parts of the story that have begun and not ended, each with when it was to begin and when it did; and what was told last.
        self.doing: list[tuple[str, float, float]] = []
        self.told = ""
        # For how many milliseconds of each second the proxies were kept from running.
        self.kept: list[tuple[int, int]] = []
        # Spans of time, by what went on in them.
        self.spans: dict[str, list[tuple[int, int]]] = {"at rest": [], "while shards move": [], "while a server is drained": []}
        self.moved_for = 0.0

    def tell(self, text: str) -> None:
        """Prints this line above the live one, and adds it to story.txt in the run's folder."""
        self.told = f"{time.monotonic() - self.begun:6.1f} s  {text}"
        with (self.settings.directory / "story.txt").open("a") as file:
            file.write(f"{self.told}\n")
        if not self.settings.is_quiet:
            print(f"\r\033[K{self.told}" if sys.stdout.isatty() else self.told, flush=True)

    def where(self) -> str:
        """What the run is at: the parts that have begun and not ended, and what was told last."""
        now = time.monotonic()
        doing = ", ".join(f"{name} for {now - begun:.0f} s" for name, _, begun in self.doing)
        return f"under way: {doing or 'no part'}; told last: {self.told.strip() or 'nothing'}"

    async def run(self) -> Result:
        """Runs all of it, and ends every process."""
        try:
            await self.cluster.start()
            self.watcher.start()
            shape = self.settings.shape
            self.tell(f"{shape.servers} servers, {shape.controllers} controllers and {len(self.cluster.members)} members of etcd run; the session is {self.cluster.program}")
            self.tell("pages are at " + ", ".join(f"http://127.0.0.1:{it}/ ({name})" for name, it in self.cluster.pages.items()))
            journal = os.urandom(JOURNAL_BITS // 8).hex().lstrip("0") or "1"
            await self.story.open(journal)
            await self.cluster.processes.start("clients")
            await self.harm()
            counts = (await self.cluster.tell_proxies(counts=True))["counts"]
            await self.calm_down()
            self.kept = [(second, it) for second, it in (await self.cluster.tell_proxies(counts=True))["kept"]]
            self.tell("everything has come to rest; now the checkers look at it")
            program = shlex.split(self.cluster.program)
            floors = dict.fromkeys(self.settings.shape.shard_names, fewest(self.settings.shape))
            reference = None if "smpland_model.py" in self.cluster.program else shlex.split(REFERENCE)
            is_whole = await self.story.wait_for_replicas(self.story.alive, 60.0 if self.settings.is_busy else 20.0)
            self.watcher.end()
            story = self.story
            is_outside = story.counts["faults outside the rules"] > 0
            evidence = Evidence(story.alive, floors, story.permits, self.watcher.seen, story.shown, story.compacted_at, is_outside)
            self.verdict = await judge(self.cluster, self.operator, program, reference, evidence)
            self.verdict.need(is_whole, "secondaries do not come to have all writes")
            self.verdict.need(not story.counts["disks that nobody told"], "a server has no data of what it is to serve, and no page tells it")
            return self.result(counts)
        finally:
            self.watcher.end()
            await self.cluster.end()

    async def harm(self) -> None:
        """Moves replicas, and does harm at the times of the story. Before that nothing is moved for a while."""
        begun = time.monotonic_ns()
        await asyncio.sleep(self.settings.seconds * REST)
        self.spans["at rest"].append((begun, time.monotonic_ns()))
        moving = asyncio.create_task(self.mover.run(self.settings.workers, self.settings.moves))
        showing = asyncio.create_task(self.show())
        telling = asyncio.create_task(self.mover.tell_moves(self.cluster.moving))
        start = time.monotonic()
        moved_at = time.monotonic_ns()
        first = min((share for share, _ in self.settings.parts), default=1.0) * self.settings.seconds
        self.spans["while shards move"].append((moved_at, moved_at + int(first * 1e9)))
        doing: list[asyncio.Task[None]] = []
        for share, name in self.settings.parts:
            doing.append(asyncio.create_task(self.do_at(start + share * self.settings.seconds, name, tuple(doing) if name in LAST else ())))
        try:
            await asyncio.sleep(self.settings.seconds)
            await asyncio.gather(*doing)
        except BaseException:
            for task in (moving, showing, telling, *doing):
                task.cancel()
            raise
        self.moved_for = time.monotonic() - start
        self.mover.stopped.set()
        try:
            await asyncio.wait_for(moving, self.settings.ending or (180 if self.settings.is_busy else 30))
        except TimeoutError:
            orders = (await self.operator.state()).get("orders", [])
            self.tell("plans do not come to their end: " + "; ".join(f"{it['what']} to {it['to']}, {it['said']}" for it in orders))
        showing.cancel()
        telling.cancel()

    async def do_at(self, when: float, name: str, before: tuple[asyncio.Task[None], ...]) -> None:
        """Does a part of the story at a time, or once others have ended."""
        await asyncio.sleep(max(0.0, when - time.monotonic()))
        await asyncio.gather(*before)
        part: Callable[[], Awaitable[object]] = self.drain if name == "drain" else getattr(self.story, name)
        self.doing.append(begun := (name, when, time.monotonic()))
        try:
            await part()
        except (NoLeader, NotReady) as why:
            self.tell(f"{name}: {why}")
        self.doing.remove(begun)  # (one that was cancelled was under way when the run ended)

    async def drain(self) -> None:
        """Empties a server, which is filled again afterwards."""
        server = self.story.dice.choice(self.story.alive)
        self.tell(f"drain {server}")
        begun = time.monotonic_ns()
        is_done = await self.mover.empty(server, self.operator.patience / 2 if self.settings.is_busy else 30.0)
        self.spans["while a server is drained"].append((begun, time.monotonic_ns()))
        self.tell(f"{server} is empty after {(time.monotonic_ns() - begun) / 1e9:.1f} s" if is_done else f"{server} could not be emptied")
        self.mover.avoided.discard(server)

    async def calm_down(self) -> None:
        """Lets messages through again, and ends the clients, which read everything at the end."""
        await self.cluster.tell_proxies(rates={"drop": 0.0, "repeat": 0.0, "delay": 0.0})
        await asyncio.sleep(1.0)
        await self.cluster.processes["clients"].end_input(240.0)
        await asyncio.sleep(1.0)

    async def show(self) -> None:
        """Keeps a line of what goes on."""
        while sys.stdout.isatty() and not self.settings.is_quiet:
            told = await self.operator.state()
            path = self.settings.directory / "clients.jsonl"
            size = path.stat().st_size if path.exists() else 0
            print(f"\r\033[K{time.monotonic() - self.begun:6.1f} s  {told.get('leader')} leads, line {told.get('place')}, {self.mover.counts['moves']} moves, "
                  f"{len(told.get('orders', []))} orders outstanding, some {size // 110} requests", end="", flush=True)
            await asyncio.sleep(0.5)

    def judge_service(self, asked: list[dict], gaps: dict[str, float]) -> None:
        """Who is slow is a violation, too: on a machine with other work only a shard without service for long, as what a request waits at rest
        tells, and beside the time for which the proxies could not run."""
        assert self.verdict is not None
        failures = unacknowledged(asked, self.story.forsaken)
        if failures and not self.settings.is_busy:
            self.verdict.faults.append(f"{failures} requests were not acknowledged within 10 s")
        longest = OUTAGE
        if self.settings.is_busy:
            longest, gaps = min(OUTAGE_IF_BUSY, max(LEAST_IF_BUSY, OUTAGE * self.wait_at_rest(asked) / USUAL)), without_service(asked, self.kept)
        self.verdict.faults += [f"{shard} was without service for {gap:.0f} s" for shard, gap in gaps.items() if gap > longest and shard not in self.story.forsaken]

    def wait_at_rest(self, asked: list[dict]) -> float:
        """How many seconds a request waited, in the median, before anything was moved; as many as if the machine were slow if there was none."""
        ((begin, end),) = self.spans["at rest"]
        return at(request_waits(it for it in asked if begin <= it["start"] < end), 0.5) or OUTAGE_IF_BUSY

    def result(self, faults: dict[str, int]) -> Result:
        """Gathers the figures."""
        assert self.verdict is not None
        where = self.settings.directory
        log = (where / "logs" / "clients.log").read_text().splitlines()
        clients = json.loads(next((it for it in log if it.startswith("{")), "{}"))
        asked = lines_of(where / "clients.jsonl")
        by_span = {name: rate_of(asked, spans) for name, spans in self.spans.items() if spans}
        histories = lines_of(where / "histories.jsonl")
        self.judge_service(asked, gaps := without_service(asked))
        counts = Counter(faults) + self.story.counts + self.mover.counts
        situations = situations_of(histories, self.verdict.replies, self.verdict.counts + self.story.counts)
        orders = self.verdict.counts["orders"] / self.moved_for if self.moved_for else 0.0
        return Result(self.verdict, clients, counts, self.story.failovers, request_waits(asked), handovers_of(histories, asked), situations, by_span, orders,
                      order_waits(histories, self.story.deaths), copied(histories), gaps)


def report(result: Result, details: bool = False) -> str:
    """Writes the figures and the verdict."""
    verdict, counts, waits = result.verdict, result.counts, result.waits
    harm = {it: count for it, count in counts.items() if it.split(" ")[-1] in ("dropped", "repeated", "delayed")}
    harmed = {it: count for it, count in counts.items() if any(word in it for word in ("killed", "stopped", "lost", "replaced", "crash", "restarts", "full", "went on", "rolled back", "cut", "hole", "put back"))}
    compared = {it: verdict.counts[f"servers: {it}"] for it in ("answers compared", "replicas compared")} | {"audits": verdict.counts["servers audited"]}
    lines = [
        f"requests     {result.clients.get('requests', 0):,}; {', '.join(f'{rate:.0f} a second {name}' for name, rate in result.rates.items())}",
        f"waits        median {1000 * at(waits, 0.5):.0f} ms, 99 % {1000 * at(waits, 0.99):.0f} ms, worst {1000 * at(waits, 1.0):.0f} ms; "
        f"{result.clients.get('failures', 0)} not acknowledged within 10 s",
        f"service      {service_line(result.gaps)}",
        f"moves        {counts['moves']} in {counts['plans']} plans; {verdict.counts['orders']} orders, {result.orders_a_second:.1f} a second; "
        f"{len(result.copies)} copies of shards, {sum(result.copies) / 1e6:.1f} MB, the largest {max(result.copies, default=0) / 1e6:.1f} MB",
        f"handovers    {of_handovers(result.handovers)}",
        f"harm         {sum(harm.values()):,} messages lost, late or twice; {listed(harmed)}",
        f"failovers    {seconds_of(result.failovers)}; from a leader's death to the next order {seconds_of(result.pauses)}",
        f"alone        {verdict.counts['servers: alone']} requests acknowledged while a member was away for more than 3 s; "
        f"{verdict.counts['servers: writes gone that were named as lost']} writes are gone with shards that reopenings named as lost",
        f"situations   {situations_line(result.situations)}",
        f"compared     {listed(compared)}, {verdict.counts['replies compared with the reference']} replies with the reference",
        *(details_of(result, harm) if details else ()),
        *trust_lines(verdict.faults, verdict.counts),
    ]
    return "\n".join([*lines, *(f"  {it}" for it in verdict.faults[:SHOWN])])


def details_of(result: Result, harm: dict[str, int]) -> list[str]:
    """What befell messages, by the kind of link, and the situations that came up."""
    return [f"             {', '.join(f'{count} {what}' for what, count in sorted(harm.items()))}",
            *(f"             {count} x {what}" for what, count in sorted(result.situations.items()))]


def knows_reopenings(path: Path) -> bool:
    """Returns whether a built smpland has the lines of a reopening. (It says of a line that it does not know that its `do` is bad.)"""
    lines = "".join(f'{{"do":"{it}"}}\n' for it in REOPENING)
    replies = subprocess.run([path, "-"], input=lines.encode(), stdout=subprocess.PIPE, check=False, timeout=60).stdout
    return len(replies.splitlines()) == len(REOPENING) and b'"$.do"' not in replies


def default_program() -> str:
    """The session that is used if none is named: build/smpland if it is there and knows reopenings, otherwise the reference."""
    path = ROOT / "build" / "smpland"
    return f"{path} -" if path.exists() and knows_reopenings(path) else REFERENCE


def add_session(parser: argparse.ArgumentParser) -> None:
    """Adds the options that say which session decides."""
    parser.add_argument("--program", default=default_program(), help="the session's command line (default %(default)s)")
    parser.add_argument("--session", dest="program", metavar="PATH", type="{} -".format, default=argparse.SUPPRESS, help="a built smpland, which decides")


def add_load(parser: argparse.ArgumentParser) -> None:
    """Adds the options that say how much is asked of the machine."""
    parser.add_argument("--pause", type=float, default=Settings.pause, metavar="SECONDS", help="how long a client rests between two requests (default %(default)s)")
    parser.add_argument("--hot-clients", type=int, default=48, help="how many clients never rest, and use shards that are being moved (default %(default)s)")
    parser.add_argument("--open-clients", type=int, default=2,
                        help="how many clients ask for these at times of their own, answered or not (default %(default)s)")
    parser.add_argument("--largest", type=int, default=200_000, metavar="BYTES",
                        help="how many bytes the largest shard has, the next one a third of that, and so on (default %(default)s)")
    parser.add_argument("--store", choices=("redis", "sqlite"), default="redis", help="what servers keep their data in (default %(default)s)")
    parser.add_argument("--lease", type=float, default=0.0, metavar="SECONDS",
                        help="have a server serve nobody once no controller has answered it for so long (default: it serves on)")
    parser.add_argument("--copies", type=int, choices=(1, 2), help="how many servers have each write before it is acknowledged (default: two if the seed is even)")
    parser.add_argument("--busy", action="store_true", help="the machine has other work: waits are longer, and slow requests are no violations")


def shape_of(told: argparse.Namespace, seed: int) -> Shape:
    """The cluster and its load as the command line says."""
    copies = told.copies or 2 - seed % 2
    return Shape(servers=told.servers, shards=told.shards, clients=told.clients, want=copies + 1, seed=seed, hot_clients=told.hot_clients,
                 open_clients=told.open_clients, largest=told.largest)


def arguments() -> argparse.Namespace:
    """Reads the command line."""
    parser = argparse.ArgumentParser(prog="cluster.run", description="Runs a cluster under load, moves it and harms it, and checks what came of it.")
    add_session(parser)
    parser.add_argument("--seconds", type=float, default=60.0, help="how long things are moved and harmed (default %(default)s); start, rest and checks come on top")
    parser.add_argument("--servers", type=int, default=8, help="how many servers (default %(default)s)")
    parser.add_argument("--shards", type=int, default=64, help="how many shards (default %(default)s)")
    parser.add_argument("--clients", type=int, default=16, help="how many clients (default %(default)s)")
    parser.add_argument("--seed", type=int, default=1, help="what the harm is drawn by (default %(default)s)")
    parser.add_argument("--calm", action="store_true", help="no message is harmed")
    add_load(parser)
    add_directory(parser)
    names = ", ".join(dict.fromkeys(name for _, name in WHOLE))
    parser.add_argument("--parts", type=parts_of, default=WHOLE, metavar="PART,..",
                        help=f"what happens, of {', '.join(EVERY)}, or what the rules do not survive: {', '.join(OUTSIDE)} (default {names})")
    parser.add_argument("--abrupt", action="store_true", help="move primaries without handovers: the old owner ceases, then the new one begins")
    parser.add_argument("--details", action="store_true", help="also tell what befell messages, and which situations came up")
    parser.add_argument("--draw", type=int, metavar="COUNT", help="have so many parts instead, drawn by the seed")
    parser.add_argument("--bug", action="append", default=[], help="plant a bug, which the checkers are to find")
    parser.add_argument("--keep", type=Path, metavar="DIR", help="keep logs and histories there")
    parser.set_defaults(largest=50_000_000)
    told = parser.parse_args()
    if told.draw is not None:
        told.parts = drawn(told.seed, told.draw)
        print(f"cluster: seed {told.seed} draws {', '.join(name for _, name in told.parts)}", flush=True)
    return told


def parts_of(text: str) -> tuple[tuple[float, str], ...]:
    """Which parts happen when."""
    names = text.split(",") if text else []
    for name in names:
        if name != "drain" and not inspect.iscoroutinefunction(getattr(HandoverStory, name, None)):
            raise argparse.ArgumentTypeError(f"no part is named {name}")
    return evenly(names)


def main() -> int:
    """Runs once, and returns 0 if there was no violation, 1 if there was one, and NO_VERDICT if something did not come in time."""
    told = arguments()
    # (ended like this, it ends its processes and deletes its data as well)
    signal.signal(signal.SIGTERM, signal.default_int_handler)
    directory = new_directory("cluster-", told.dir)
    shape = shape_of(told, told.seed)
    settings = Settings(directory, shape, program_of(told.program), told.seconds, CALM if told.calm else ROUGH, told.parts, tuple(told.bug),
                        pause=told.pause, is_busy=told.busy, lease=told.lease, store=told.store, is_abrupt=told.abrupt)
    try:
        result = asyncio.run(Run(settings).run())
        print(report(result, told.details))
        return 1 if result.verdict.faults else 0
    except NotOpened as why:
        print(f"cluster: {why}", file=sys.stderr)
        return 1
    except (NotReady, NoLeader, TimeoutError, Failed, EtcdFault) as why:
        print(f"cluster: no verdict: {why or type(why).__name__}", file=sys.stderr)
        return NO_VERDICT
    finally:
        if told.keep:
            shutil.copytree(directory, told.keep, dirs_exist_ok=True, ignore=shutil.ignore_patterns("*.sock", "etcd-*", "member"))
        shutil.rmtree(directory, ignore_errors=True)


if __name__ == "__main__":
    sys.exit(main())
