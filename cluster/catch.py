"""`python3 -m cluster.catch`: plants each bug in turn, and tells in how many runs the checkers found something."""
from __future__ import annotations

import argparse
import asyncio
import shutil
import sys
import time
from dataclasses import replace
from pathlib import Path

from cluster.controllers.bugs import BUGS as CONTROLLER_BUGS
from cluster.faults.parts import COPIES, HANDOVERS, LATE, LEADERS, LEASED, MAP, MEMBERS, REOPENING_AT_WORK, of_rule, storm_of
from cluster.faults.reopenings import NotOpened
from cluster.launch.cluster import ROUGH, program_of
from cluster.launch.directory import add_directory, new_directory
from cluster.launch.operator import NoLeader
from cluster.launch.processes import NotReady
from cluster.run import Run, Settings, add_load, add_session, shape_of
from cluster.servers.bugs import BUGS as SERVER_BUGS
from cluster.wire import Failed

# Recipes, which are made for bugs that `--recipe` names. What happens in a run, by the share of it: everything that some bug needs to do harm.
PARTS = (
    (0.05, "restart_server"), (0.15, "kill_leader"), (0.3, "restart_server"), (0.4, "crash_server"), (0.5, "freeze_leader"), (0.55, "restart_server"),
    (0.7, "lose_server"),
)
# (a server that goes down without leave and has its slots again is one that crashed)
FORGETTING = tuple((share, "forget" if name == "restart_server" else name) for share, name in PARTS)
REOPENINGS = ((0.05, "reopen_amid_passing"), (0.3, "reopen_amid_passing"), (0.6, "reopen_amid_passing"))
OFTEN = (0.05, 0.2, 0.35, 0.5, 0.65, 0.8)
PARTS_OF = {
    "restart-without-approval": FORGETTING,
    "new-journal-without-reopening": ((0.5, "open_anew"),),
    "restore-without-nonce": ((0.05, "forget_twice"), (0.3, "forget_twice"), (0.6, "forget_twice")),
    "change-while-writing": ((0.3, "kill_leader"), (0.6, "crash_server")),
    "fence-while-passed": tuple((share, "reopen_amid_passing") for share in OFTEN),
    "commit-after-fence": REOPENINGS,
    "settle-twice": REOPENINGS,
    "cut-unheeded": tuple((share, "break_following") for share in OFTEN),
    "acknowledges-alone": tuple((share, "stop_two") for share in OFTEN[::2]),
    "copied-too-early": ((0.1, "lose_beside_absent"), (0.6, "lose_beside_absent")),
}
# For a bug that breaks a rule, the parts that this rule is about. A run draws from them, and nothing else is made for the bug.
RULE_OF = {
    "feed-before-store": LEADERS, "map-write-without-compare": ("freeze_leader", "reopen_behind_leader", "reopen_before_write"),
    "map-not-fenced": ("reopen_before_write", "reopen_behind_leader"),
    "confirm-moves-primary": ("reopen_amid_passing", "reopen_behind_cut", "lose_server"),
    "restart-without-approval": ("restart_server", "forget", "drain"), "new-journal-without-reopening": ("open_anew",),
    "no-numbers": ("drain", "kill_leader", "reopen_amid_passing", "reopen_behind_cut"), "slot-deleted": LATE,
    "execute-prepared": HANDOVERS, "commit-before-copy": COPIES, "drop-while-writing": HANDOVERS, "tail-not-copied": COPIES,
    "no-identities": ("hand_over_unheard", "stop_server", "isolate_server", "crash_server"), "restore-without-nonce": ("forget_twice",),
    "commit-after-fence": REOPENING_AT_WORK, "settle-twice": REOPENING_AT_WORK, "fence-while-passed": ("reopen_amid_passing",),
    "add-without-cut": HANDOVERS, "cut-unheeded": ("break_following",), "change-while-writing": ("kill_leader", "crash_server", "stop_store"),
    "not-synced": ("cut_to_last_sync",), "lease-unheeded": LEASED, "confirm-before-lease-ends": LEASED,
    "acknowledge-alone": ("lose_lagging",), "impatient": ("lose_lagging",), "newcomers-not-waited-for": ("lose_lagging",),
    "who-ends-leaves": ("lose_beside_restart",), "old-owner-not-waited-for": ("lose_behind_cut",), "dead-at-once": MEMBERS,
    "answer-before-done": MEMBERS, "any-reply-counts": MEMBERS,
    "copy-without-identities": ("hand_over_unheard",), "copy-counts-twice": COPIES, "copy-without-meanwhile": COPIES,
    "copy-without-values": COPIES, "joined-at-once": COPIES,
    "acknowledges-alone": ("stop_two",), "copied-too-early": ("lose_beside_absent",), "leave-not-asked": ("drain", "crash_two", "stop_server", "isolate_server"),
    "heed-nothing": ("reopen_while_down",), "forgets-and-rests": ("reopen_while_down",),
    "map-names-prepared": MAP, "map-write-left-out": MAP, "map-settled-without-entries": ("reopen_behind_cut", "reopen_amid_passing"),
}
# How many of the moves are changes of roles, if not as many as otherwise.
SWAPS_OF = {"change-while-writing": 0.9, "no-numbers": 0.5}
# What befalls messages, if not the same as otherwise: an order that is not told by its number does harm if a copy of it comes when its cell is there
# again.
MANY_COPIES = {**ROUGH, "order": {**ROUGH["order"], "repeat": 0.5}}
# Nobody is asked twice unless a reply is lost.
MANY_LOSSES = {**ROUGH, "client": {**ROUGH["client"], "drop": 0.02}}
RATES_OF = {"no-numbers": MANY_COPIES, "slot-deleted": MANY_COPIES, "no-identities": MANY_LOSSES}
# How many plans there are at once, if not as many as otherwise. (then there are shards that the parts can hand over)
WORKERS_OF = {"fence-while-passed": 1, "cut-unheeded": 1, "commit-after-fence": 4, "settle-twice": 2}
# How many moves a plan has at most, if not as many as otherwise. (a plan of many stands still where one of its servers hears no order, and then no
# order is at work)
MOVES_OF = {"commit-after-fence": 1}


# The time of a lease, if a bug is about that, and by how much it is longer on a busy machine: a reopening is to take less.
LEASE_OF = {"lease-unheeded": 4.0, "confirm-before-lease-ends": 4.0}
LONGER_IF_BUSY = 3.0


# How many servers have each write before it is acknowledged, if a bug is about that.
COPIES_OF = {"leave-not-asked": 2, "copied-too-early": 2, "acknowledges-alone": 2}


# How long a run may take beside its harm, in seconds.
LONGEST = 600.0
# The words for a run that gave no verdict, and for one that did not come to what is harmful.
NO_END, LEFT_OUT = "the run did not come to its end", "nothing, and a loss was left out"


# Words of what a machine that is too slow may bring, with nothing wrong: something is late, or is not at rest in the end.
LATE_WORDS = ("plans that have not", "secondaries do not come", "the map names ", " is Unknown or fenced in the end", "no epoch is in force", "the audit of ",
              " was without service for ", " were not acknowledged", "nobody could read it at the end", " in the end: it has ", " is in the end at ")


def is_late(fault: str) -> bool:
    """Whether a machine that is too slow may bring this."""
    return any(it in fault for it in LATE_WORDS) and '"differs"' not in fault


def most_telling(faults: list[str]) -> str | None:
    """Returns the most telling fault that a checker found; faults that a busy machine alone may bring come last."""
    return min(faults, key=lambda it: (is_late(it), not it.startswith(("servers: ", "clients: ")), it.startswith("plans that have not")), default=None)


def try_once(bug: str, seed: int, told: argparse.Namespace) -> str | None:
    """Runs once with a bug. What a busy machine alone may bring counts as found if the run of the same seed without the bug brings none of it."""
    found = asyncio.run(first_violation(bug, seed, told))
    if found is None or told.sound or not is_late(found) or found.startswith((NO_END, LEFT_OUT)):
        return found
    sound = asyncio.run(first_violation(bug, seed, argparse.Namespace(**vars(told) | {"sound": True})))
    return found if sound in (None, LEFT_OUT) else f"{NO_END}: {found}; without the bug: {sound}"


async def first_violation(bug: str, seed: int, told: argparse.Namespace) -> str | None:
    """Runs once with a bug, or as it would be with the bug, and returns the first violation."""
    directory = new_directory(f"catch-{bug}-", told.dir)
    shape = replace(shape_of(told, seed), want=(told.copies or COPIES_OF.get(bug, 1)) + 1)
    recipe = "a storm" if told.storm else bug
    parts = storm_of(seed) if told.storm else PARTS_OF.get(bug, PARTS) if told.recipe else of_rule(RULE_OF[bug], seed)
    recipe = recipe if told.recipe else ""
    settings = Settings(directory, shape, program_of(told.program), told.seconds, RATES_OF.get(recipe, ROUGH), parts, () if told.sound else (bug,),
                        WORKERS_OF.get(recipe, 3), MOVES_OF.get(recipe, 4), pause=told.pause, is_quiet=True, swaps=SWAPS_OF.get(recipe, 0.2),
                        is_busy=told.busy,
                        ending=75.0 if told.busy else 25.0, patience=120.0 if told.busy else 40.0,
                        lease=told.lease or LEASE_OF.get(bug, 0.0) * (LONGER_IF_BUSY if told.busy else 1.0), store=told.store, is_slow=told.recipe)
    run = Run(settings)
    try:
        async with asyncio.timeout(LONGEST + told.seconds):
            result = await run.run()
        found = most_telling(result.verdict.faults)
        return found if found is not None else LEFT_OUT if result.counts["losses left out"] else None
    except (NotReady, NotOpened, NoLeader, Failed, OSError, TimeoutError) as why:
        return f"{NO_END}: {type(why).__name__} {why}; {run.where()}"
    finally:
        if told.keep:
            shutil.copytree(directory, told.keep / f"{'sound' if told.sound else bug}-{seed}", dirs_exist_ok=True, ignore=shutil.ignore_patterns("*.sock", "etcd-*", "member"))
        shutil.rmtree(directory, ignore_errors=True)


def try_bug(bug: str, told: argparse.Namespace) -> bool:
    """Makes the runs with a bug, and tells in how many something was found; returns whether it was in one."""
    found = []
    for seed in range(told.seed, told.seed + told.runs):
        begun = time.monotonic()
        found.append(try_once(bug, seed, told))
        print(f"{bug}, seed {seed}, {time.monotonic() - begun:.0f} s: {found[-1] or 'nothing'}"[:300], flush=True)
    caught = [it for it in found if it and not it.startswith((NO_END, LEFT_OUT))]
    unended = [it for it in found if it and it.startswith(NO_END)]
    print(f"{bug}: found in {len(caught)} of {told.runs} runs{': ' + caught[0][:200] if caught else ''}"
          f"{f' ({len(unended)} without an end: {unended[0][:200]})' if unended else ''}", flush=True)
    return bool(caught)


def main() -> int:
    """Plants all, or those that are named, and returns 0 if each was found at least once, or nothing without them."""
    parser = argparse.ArgumentParser(prog="cluster.catch", description="Plants bugs, and tells which are found.")
    parser.add_argument("bugs", nargs="*", metavar="BUG", help=f"one of {', '.join({**CONTROLLER_BUGS, **SERVER_BUGS})}; all if none is named")
    parser.add_argument("--runs", type=int, default=3)
    parser.add_argument("--seed", type=int, default=1, help="the first seed")
    parser.add_argument("--seconds", type=float, default=20.0)
    parser.add_argument("--servers", type=int, default=5)
    parser.add_argument("--shards", type=int, default=16)
    parser.add_argument("--clients", type=int, default=8)
    add_load(parser)
    add_directory(parser)
    parser.add_argument("--recipe", action="store_true", help="have the parts, rates, waits and moves that are made for the bug, if there are some")
    parser.add_argument("--storm", action="store_true", help="have the parts of a run of a storm, and nothing that is made for the bug")
    parser.add_argument("--sound", action="store_true", help="plant no bug: nothing is to be found then")
    parser.add_argument("--keep", type=Path, metavar="DIR", help="keep logs and histories there, in a folder for each run")
    add_session(parser)
    told = parser.parse_args()
    missed = []
    for bug in told.bugs or [*CONTROLLER_BUGS, *SERVER_BUGS]:
        missed += [] if try_bug(bug, told) != told.sound else [bug]
    return 1 if missed else 0


if __name__ == "__main__":
    sys.exit(main())
