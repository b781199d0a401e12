"""Runs random schedules with all rules or without some, or the worked plays, and tells which laws are broken."""
from __future__ import annotations

import argparse
import multiprocessing
import sys
import time
from collections import Counter
from collections.abc import Iterator
from dataclasses import dataclass, field
from functools import partial

from . import sized_plays, sized_schedule, sizes
from .plays import PLAYS, played
from .rules import Rules, SOUND, rule_names, sentence_of
from .schedule import Found, run_schedule
from .sessions import session_lines


MODES = """modes: `sound`, all rules; `plays`, the worked plays; `session`, the commands of the seed's schedule and what
came of each, as JSON lines; or rules to take away, joined by commas (the last ones, on sizes, with --sizes):
"""


@dataclass(slots=True)
class Told:
    """What is told of one schedule; `law` is empty if it broke none."""

    seed: int
    events: int
    law: str = ""
    found: str = ""
    coverage: Counter[str] = field(default_factory=Counter)


def found_by(seed: int, rules: Rules, steps: int, profile: str, keeps_trace: bool = False) -> Found:
    """Runs the schedule of a seed, in which sizes change if the rules say how."""
    if isinstance(rules, sizes.SizedRules):
        return sized_schedule.run_schedule(seed, rules, steps, profile, keeps_trace)
    return run_schedule(seed, rules, steps, profile, keeps_trace)


def run_one(seed: int, rules: Rules, steps: int, profile: str) -> Told:
    """Runs one schedule."""
    run = found_by(seed, rules, steps, profile)
    coverage = run.schedule.world.coverage
    if run.violation is None:
        return Told(seed, run.events, coverage=coverage)
    return Told(seed, run.events, run.violation.law, run.violation.found, coverage)


def run_all(seeds: range, rules: Rules, steps: int, profile: str, jobs: int) -> Iterator[Told]:
    """Runs many schedules, in several processes if there are jobs for them."""
    run = partial(run_one, rules=rules, steps=steps, profile=profile)
    if jobs == 1:
        yield from map(run, seeds)
        return
    with multiprocessing.Pool(jobs) as pool:
        yield from pool.imap_unordered(run, seeds, chunksize=20)


def arguments(words: list[str]) -> argparse.Namespace:
    """Reads the command line."""
    modes = "\n".join(f"  {name}: {sentence_of(name)}" for name in rule_names())
    modes += "\n" + "\n".join(f"  {name}: {sizes.sentence_of(name)}" for name in sizes.sized_rule_names())
    parser = argparse.ArgumentParser(
        prog="driving_model.py", description=__doc__, formatter_class=argparse.RawDescriptionHelpFormatter,
        epilog=MODES + modes,
    )
    parser.add_argument("--mode", default="sound", help="sound (the default), plays, session, or rules to take away")
    parser.add_argument("--runs", type=int, default=200, help="how many schedules (200)")
    parser.add_argument("--seed", type=int, default=0, help="the seed of the first one (0)")
    parser.add_argument("--steps", type=int, default=220, help="how many events each has before its fair end (220)")
    profiles = ["", *sized_schedule.PROFILES]
    parser.add_argument("--profile", default="", choices=profiles, help="what the schedules are about (all of them)")
    parser.add_argument("--sizes", action="store_true", help="sizes change, too (profiles rest, busy and tight)")
    parser.add_argument("--jobs", type=int, default=1, help="how many processes (1)")
    parser.add_argument("--seconds", type=float, default=0, help="stop after SECONDS seconds")
    parser.add_argument("--trace", action="store_true", help="tell the shortest schedule that broke a law")
    options = parser.parse_args(words)
    if options.profile in sized_schedule.OWN and not options.sizes:
        parser.error(f"--profile {options.profile} needs --sizes")
    return options


def rules_of(mode: str, has_sizes: bool) -> Rules:
    """The rules of a mode."""
    sound = sizes.SOUND if has_sizes else SOUND
    return sound if mode == "sound" else sound.without(*mode.split(","))


def tell_plays(has_sizes: bool) -> int:
    """Runs each worked play with the rule that it needs, and without it."""
    wrong = 0
    for worked in sized_plays.PLAYS if has_sizes else PLAYS:
        play = sized_plays.played if has_sizes else played
        sound, broken = play(worked, with_rule=True), play(worked, with_rule=False)
        wrong += sound is not None or (broken is None and bool(worked.rule))
        away = worked.rule or "nothing"
        print(f"{worked.name}: {sound or 'no violation'}; without {away}: {broken or 'no violation'}")
    return 1 if wrong else 0


def tell_trace(told: Told, rules: Rules, options: argparse.Namespace) -> None:
    """Tells what happened in a schedule."""
    run = found_by(told.seed, rules, options.steps, options.profile, keeps_trace=True)
    print("\n".join(f"  {line}" for line in run.schedule.world.trace))
    print(f"  {run.violation}")


def main(words: list[str] | None = None) -> int:
    """Runs the command. The status is 1 if the sound rules broke a law, or a play is not as it should be."""
    options = arguments(sys.argv[1:] if words is None else words)
    if options.mode == "plays":
        return tell_plays(options.sizes)
    if options.mode == "session":
        for line in session_lines(options.seed, options.steps, options.profile):
            print(line)
        return 0
    rules, started = rules_of(options.mode, options.sizes), time.monotonic()
    coverage: Counter[str] = Counter()
    broken: list[Told] = []
    runs = events = 0
    seeds = range(options.seed, options.seed + options.runs)
    for told in run_all(seeds, rules, options.steps, options.profile, options.jobs):
        runs, events = runs + 1, events + told.events
        coverage.update(told.coverage)
        if told.law:
            broken.append(told)
            print(f"seed {told.seed}, after {told.events} events: {told.law}: {told.found}", flush=True)
        if options.seconds and time.monotonic() - started > options.seconds:
            break
    by_law = Counter(it.law for it in broken)
    told_runs = f"{runs} schedules from seed {options.seed}, {events} events"
    print(f"{options.mode}: {told_runs}, {len(broken)} broke a law {dict(by_law)}")
    print(f"what they met: {dict(sorted(coverage.items()))}")
    if broken and options.trace:
        tell_trace(min(broken, key=lambda it: it.events), rules, options)
    return 1 if broken and options.mode == "sound" else 0
