"""Runs random schedules with all rules or without some, or the worked plays, and tells which laws are broken."""
from __future__ import annotations

import argparse
import multiprocessing
import sys
import time
from collections import Counter
from collections.abc import Iterable, Iterator
from functools import partial

from driving_model.command_line import Told

from .plays import PLAYS
from .plays_built import PLAYS as BUILT_PLAYS
from .plays_small import PLAYS as SMALL_PLAYS
from .rules import BUILT, Rules, SMALL, SOUND, data_rule_names, sentence_of
from .schedule import SMALL_PROFILES, run_schedule
from .worked import Worked, played

MODES = "modes: `sound`, all rules; `plays`, the worked plays; or rules to take away, joined by commas, among them:\n"


def run_one(seed: int, rules: Rules, steps: int, profile: str) -> Told:
    """Runs one schedule."""
    run = run_schedule(seed, rules, steps, profile)
    coverage = run.schedule.world.coverage
    if run.violation is None:
        return Told(seed, run.events, coverage=coverage)
    return Told(seed, run.events, run.violation.law, run.violation.found, coverage)


def run_all(seeds: range, rules: Rules, steps: int, profile: str, jobs: int) -> Iterator[Told]:
    """Runs many schedules, in several processes if there are jobs for them."""
    run = partial(run_one, rules=rules, steps=steps, profile=profile)
    if jobs == 1:
        yield from map(run, seeds)
        return
    with multiprocessing.Pool(jobs) as pool:
        yield from pool.imap_unordered(run, seeds, chunksize=20)


def modes_of(names: Iterable[str]) -> str:
    """A line for each rule."""
    return "\n".join(f"  {name}: {sentence_of(name)}" for name in names)


def more_modes(form: str, rules: Iterable[str], others: Iterable[str]) -> str:
    """What a form has not of these rules, and the lines of those that it has instead."""
    away = ", ".join(sorted(set(rules) - set(others)))
    return f"\nwith {form} not {away}, but:\n" + modes_of(it for it in others if it not in set(rules))


def arguments(words: list[str]) -> argparse.Namespace:
    """Reads the command line."""
    full, small, built = data_rule_names(), data_rule_names(SMALL), data_rule_names(BUILT)
    modes = modes_of(full) + more_modes("--small", full, small)
    modes += more_modes("--built, beside what --small has not,", small, built)
    parser = argparse.ArgumentParser(
        prog="data_model.py", description=__doc__, formatter_class=argparse.RawDescriptionHelpFormatter,
        epilog=MODES + modes,
    )
    parser.add_argument("--mode", default="sound", help="sound (the default), plays, or rules to take away")
    form = parser.add_mutually_exclusive_group()
    form.add_argument("--built", action="store_true", help="the form that is built (tools/data_model/SMALL.md)")
    form.add_argument("--small", action="store_true", help="the small form, which counts what a reopening leaves")
    parser.add_argument("--runs", type=int, default=200, help="how many schedules (200)")
    parser.add_argument("--seed", type=int, default=0, help="the seed of the first one (0)")
    parser.add_argument("--steps", type=int, default=300, help="how many events each has before its fair end (300)")
    profiles = ["", *SMALL_PROFILES]
    parser.add_argument("--profile", default="", choices=profiles, help="what the schedules are about (all of them)")
    parser.add_argument("--jobs", type=int, default=1, help="how many processes (1)")
    parser.add_argument("--seconds", type=float, default=0, help="stop after SECONDS seconds")
    parser.add_argument("--most", type=int, default=0, help="stop after MOST schedules that broke a law")
    parser.add_argument("--trace", action="store_true", help="tell the shortest schedule that broke a law")
    return parser.parse_args(words)


def form_of(options: argparse.Namespace) -> tuple[str, Rules, tuple[Worked, ...]]:
    """What the form is called that is asked for, its rules and its plays."""
    if options.built:
        return ", built", BUILT, BUILT_PLAYS
    return (", small", SMALL, SMALL_PLAYS) if options.small else ("", SOUND, PLAYS)


def tell_plays(rules: Rules, plays: Iterable[Worked]) -> int:
    """Runs each worked play with the rule that it needs, and without it."""
    wrong = 0
    for worked in plays:
        sound, broken = played(worked, True, rules), played(worked, False, rules)
        wrong += sound is not None or broken is None
        print(f"{worked.name}: {sound or 'no violation'}; without {worked.rule}: {broken or 'no violation'}")
    return 1 if wrong else 0


def tell_trace(told: Told, rules: Rules, options: argparse.Namespace) -> None:
    """Tells what happened in a schedule."""
    run = run_schedule(told.seed, rules, options.steps, options.profile, keeps_trace=True)
    print("\n".join(f"  {line}" for line in run.schedule.world.trace))
    print(f"  {run.violation}")


def tell_schedules(options: argparse.Namespace) -> int:
    """Runs schedules, and tells what came of them."""
    name, form, _ = form_of(options)
    rules = form if options.mode == "sound" else form.without(*options.mode.split(","))
    started, coverage, runs, events = time.monotonic(), Counter(), 0, 0
    broken: list[Told] = []
    seeds = range(options.seed, options.seed + options.runs)
    for told in run_all(seeds, rules, options.steps, options.profile, options.jobs):
        runs, events = runs + 1, events + told.events
        coverage.update(told.coverage)
        if told.law:
            broken.append(told)
            print(f"seed {told.seed}, after {told.events} events: {told.law}: {told.found}", flush=True)
        is_late = options.seconds and time.monotonic() - started > options.seconds
        if is_late or (options.most and len(broken) >= options.most):
            break
    by_law = dict(Counter(it.law for it in broken))
    about = f"{options.mode}{name}, {options.profile or 'all profiles'}"
    print(f"{about}: {runs} schedules from seed {options.seed}, {events} events, {len(broken)} broke a law {by_law}")
    print(f"what they met: {dict(sorted(coverage.items()))}", flush=True)
    if broken and options.trace:
        tell_trace(min(broken, key=lambda it: it.events), rules, options)
    return 1 if broken and options.mode == "sound" else 0


def main(words: list[str] | None = None) -> int:
    """Runs the command. The status is 1 if the sound rules broke a law, or a play is not as it should be."""
    options = arguments(sys.argv[1:] if words is None else words)
    return tell_plays(*form_of(options)[1:]) if options.mode == "plays" else tell_schedules(options)
