"""`python3 -m cluster.outside [PART..]`: a run for each of the things that the rules do not survive. A controller's page gives the alarm within ten
seconds, and the checkers count what was lost. With `--lease` a server that was given up serves nobody, and nothing may be lost by that."""
from __future__ import annotations

import argparse
import asyncio
import shutil
import sys
from dataclasses import dataclass

from cluster.faults.parts import LEASED, OUTSIDE
from cluster.launch.cluster import ROUGH, program_of
from cluster.launch.directory import add_directory, new_directory
from cluster.launch.report import listed, trust_lines
from cluster.run import Result, Run, Settings, add_load, add_session, shape_of

# How many violations are shown.
SHOWN = 3
# For how many seconds the end of plans is waited for, and the operator tries something: some of them never end.
ENDING, PATIENCE = 8.0, 25.0


@dataclass(frozen=True)
class Told:
    """What came of a run: whether its part happened, and a page told it in time, and the violations by what they are about."""

    happened: bool
    is_told: bool
    violations: int

    @staticmethod
    def of(result: Result) -> "Told":
        """Reads a run's result."""
        counts = result.counts
        return Told(counts["faults outside the rules"] > 0, counts["faults that a page told"] == counts["faults outside the rules"], len(result.verdict.faults))


def run_once(part: str, told: argparse.Namespace) -> Told:
    """Makes a run with one part, and prints what was lost."""
    directory = new_directory(f"outside-{part}-", told.dir)
    lease = told.lease if part in LEASED else 0.0
    settings = Settings(directory, shape_of(told, told.seed), program_of(told.program), told.seconds, ROUGH, ((0.2, part),), pause=told.pause, is_busy=True,
                        ending=ENDING, patience=PATIENCE, lease=lease, store=told.store)
    print(f"-- {part}{f', with a lease of {lease:g} s' if lease else ''}", flush=True)
    try:
        result = asyncio.run(Run(settings).run())
    finally:
        shutil.rmtree(directory, ignore_errors=True)
    lost = {it: count for it, count in result.counts.items() if it == "lines of the journal lost"}
    lines = [*trust_lines(result.verdict.faults, result.verdict.counts), *([f"             {listed(lost)}"] if lost else [])]
    print("\n".join([*lines, *(f"  {it}"[:200] for it in result.verdict.faults[:SHOWN])]), flush=True)
    return Told.of(result)


def main() -> int:
    """Runs all parts, or those that are named; 0 if each happened, was told in time, and with a lease did no harm."""
    parser = argparse.ArgumentParser(prog="cluster.outside", description="Does what the rules do not survive, and tells who told it, and what was lost.")
    parser.add_argument("parts", nargs="*", metavar="PART", help=f"one of {', '.join(OUTSIDE)}; all if none is named")
    parser.add_argument("--seconds", type=float, default=12.0)
    parser.add_argument("--servers", type=int, default=5)
    parser.add_argument("--shards", type=int, default=16)
    parser.add_argument("--clients", type=int, default=8)
    parser.add_argument("--seed", type=int, default=1)
    add_load(parser)
    add_directory(parser)
    add_session(parser)
    parser.set_defaults(hot_clients=8, open_clients=1, largest=20_000, pause=0.05)
    told = parser.parse_args()
    wrong = []
    for part in told.parts or OUTSIDE:
        found = run_once(part, told)
        wrong += [f"{part} did not happen"] if not found.happened else [] if found.is_told else [f"nobody told {part} in time"]
        wrong += [f"{part} did harm in spite of the lease"] if told.lease and part in LEASED and found.violations else []
    print("\n".join(wrong) or "each was told within ten seconds")
    return 1 if wrong else 0


if __name__ == "__main__":
    sys.exit(main())
