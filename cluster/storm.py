"""`python3 -m cluster.storm RUNS`: runs with different seeds, each with harm of its own, and in how many of them each situation came up."""
from __future__ import annotations

import argparse
import asyncio
import json
import shutil
import signal
import sys
import time
from collections import Counter
from dataclasses import dataclass, field
from pathlib import Path

from cluster.faults.parts import storm_of
from cluster.faults.reopenings import NotOpened
from cluster.launch.cluster import CALM, ROUGH, program_of
from cluster.launch.directory import add_directory, new_directory
from cluster.launch.figures import in_words
from cluster.launch.operator import NoLeader
from cluster.launch.processes import NotReady
from cluster.launch.situations import SITUATIONS
from cluster.processor import waited_for_processor
from cluster.run import NO_VERDICT, Result, Run, Settings, add_load, add_session, shape_of
from cluster.wire import Failed

# How long a run may take beside its harm, in seconds, if nobody says otherwise: one that waits for what does not come would not end.
LONGEST = 600.0


@dataclass
class Sums:
    """What all runs came to."""

    runs: int = 0
    failed: list[str] = field(default_factory=list)
    unjudged: list[str] = field(default_factory=list)
    situations: Counter[str] = field(default_factory=Counter)
    counts: Counter[str] = field(default_factory=Counter)
    failovers: list[float] = field(default_factory=list)
    handovers: list[float] = field(default_factory=list)

    def add(self, seed: int, result: Result) -> None:
        """Adds a run."""
        self.runs += 1
        self.situations.update(result.situations.keys())
        self.counts += result.counts + result.verdict.counts
        self.counts["requests"] += int(result.clients.get("requests", 0))
        self.counts["requests not acknowledged"] += int(result.clients.get("failures", 0))
        self.failovers += result.failovers
        self.handovers += [it.longest for it in result.handovers if it.requests]
        if result.verdict.faults:
            self.failed.append(f"seed {seed}: {len(result.verdict.faults)} violations, the first: {result.verdict.faults[0]}")


class Storm:
    """Runs side by side."""

    def __init__(self, told: argparse.Namespace) -> None:
        self.told, self.sums = told, Sums()
        self.seeds = iter(range(told.seed, told.seed + told.runs))

    async def run(self) -> None:
        """Makes all runs, as many side by side as there are jobs. An interrupt lets those under way come to their end, and begins no more."""
        for number in (signal.SIGINT, signal.SIGTERM):
            asyncio.get_running_loop().add_signal_handler(number, self.stop)
        await asyncio.gather(*(self.work() for _ in range(self.told.jobs)))

    def stop(self) -> None:
        """Begins no more runs."""
        self.seeds = iter(())

    async def work(self) -> None:
        """Makes one run after the other, until no seed is left."""
        while (seed := next(self.seeds, None)) is not None:
            await self.run_once(seed)

    async def run_once(self, seed: int) -> None:
        """Makes one run, and keeps its folder if something was wrong."""
        told, begun, waited = self.told, time.monotonic(), waited_for_processor()
        directory = new_directory(f"storm-{seed}-", told.dir)
        shape = shape_of(told, seed)
        rates = CALM if told.calm else ROUGH
        settings = Settings(directory, shape, program_of(told.program), told.seconds, rates, storm_of(seed), tuple(told.bug), pause=told.pause,
                            is_quiet=True, is_busy=told.busy, lease=told.lease, store=told.store, is_abrupt=told.abrupt)
        run = Run(settings)
        try:
            async with asyncio.timeout(told.longest + told.seconds):
                result = await run.run()
        except (NotReady, NotOpened, OSError, TimeoutError, NoLeader, Failed) as why:
            self.sums.unjudged.append(f"seed {seed}: no verdict: {type(why).__name__}{f' {why}' if str(why) else ''} after {time.monotonic() - begun:.0f} s, for "
                                      f"{waited_for_processor() - waited:.0f} s of which others had the processors; {run.where()}")
            print(self.sums.unjudged[-1], flush=True)
            self.put_aside(directory, seed)
            return
        self.sums.add(seed, result)
        faults = result.verdict.faults
        if told.figures is not None:
            self.append_figures(seed, result)
        print(f"seed {seed}: {len(faults)} violations, {result.clients.get('requests', 0)} requests, {result.counts['moves']} moves, "
              f"{result.counts['restarts']} restarts, {len(result.situations)} situations, {time.monotonic() - begun:.0f} s" + "".join(f"\n    {it}" for it in faults[:5]), flush=True)
        if faults:
            self.put_aside(directory, seed)
        shutil.rmtree(directory, ignore_errors=True)

    def put_aside(self, directory: Path, seed: int) -> None:
        """Keeps the folder of a run with violations, or without a verdict, if that is wanted, and deletes it otherwise."""
        if self.told.keep:
            shutil.copytree(directory, self.told.keep / str(seed), dirs_exist_ok=True, ignore=shutil.ignore_patterns("*.sock", "etcd-*"))
        shutil.rmtree(directory, ignore_errors=True)

    def append_figures(self, seed: int, result: Result) -> None:
        """Appends the figures of a run to the file that was named."""
        counts = result.counts + result.verdict.counts
        figures = {"seed": seed, "faults": result.verdict.faults, "situations": result.situations, "counts": counts, "failovers": result.failovers,
                   "handovers": [it.longest for it in result.handovers], "clients": result.clients}
        with self.told.figures.open("a") as file:
            file.write(json.dumps(figures) + "\n")


def report(sums: Sums) -> str:
    """What all runs came to."""
    counts = sums.counts
    lines = [
        f"{sums.runs} runs, {len(sums.failed)} with violations" + (f"; {len(sums.unjudged)} more without a verdict" if sums.unjudged else ""),
        f"{counts['requests']} requests, {counts['requests not acknowledged']} not acknowledged; {counts['moves']} moves, {counts['orders']} orders, "
        f"{counts['restarts']} restarts, {counts['failovers']} failovers, {counts['reopenings']} openings and reopenings",
        f"the longest wait of a client in a handover: {in_words(sums.handovers)}; failovers took {in_words(sums.failovers)}",
        "situations, each with the number of runs in which it came up:",
        *(f"  {sums.situations[it]:4} {it}" for it in SITUATIONS),
        *sums.failed, *sums.unjudged,
    ]
    return "\n".join(lines)


def arguments() -> argparse.Namespace:
    """Reads the command line."""
    parser = argparse.ArgumentParser(prog="cluster.storm", description="Runs a cluster many times, each time with other harm.")
    parser.add_argument("runs", type=int, nargs="?", default=200)
    parser.add_argument("--seed", type=int, default=1, help="the first seed")
    parser.add_argument("--jobs", type=int, default=1, help="runs side by side")
    add_session(parser)
    parser.add_argument("--seconds", type=float, default=20.0)
    parser.add_argument("--longest", type=float, default=LONGEST, metavar="SECONDS",
                        help="how long a run may take beside these, until it ends without a verdict (default %(default)s)")
    parser.add_argument("--servers", type=int, default=8)
    parser.add_argument("--shards", type=int, default=64)
    parser.add_argument("--clients", type=int, default=16)
    parser.add_argument("--calm", action="store_true")
    parser.add_argument("--abrupt", action="store_true", help="move primaries without handovers: the old owner ceases, then the new one begins")
    add_load(parser)
    add_directory(parser)
    parser.add_argument("--bug", action="append", default=[])
    parser.add_argument("--keep", type=Path, metavar="DIR", help="keep the folders of runs with violations, or without a verdict, there")
    parser.add_argument("--figures", type=Path, metavar="FILE", help="append the figures of each run, a JSON object a line")
    return parser.parse_args()


def main() -> int:
    """Runs all, and returns 0 if there was no violation, 1 if there was one, and otherwise NO_VERDICT if a run came to no verdict."""
    storm = Storm(arguments())
    asyncio.run(storm.run())
    print(report(storm.sums))
    return 1 if storm.sums.failed else NO_VERDICT if storm.sums.unjudged else 0


if __name__ == "__main__":
    sys.exit(main())
