"""random_runs.py FIRST LAST [PROGRAM WORD..]: random runs of the seeds from FIRST up to LAST, and in how many of them what came.

A run has the commands of a random schedule of the model of the network, and the lines of a random client. The reference replies to each command of
the schedule what the model replies, and the program to each line what the reference replies.
"""
from __future__ import annotations

import json
import subprocess
import sys
import unittest
from collections import Counter
from collections.abc import Callable
from dataclasses import dataclass, field, replace
from typing import Any

from driving_model import commands
from driving_model.rules import SOUND
from driving_model.schedule import PROFILES, Schedule
from smpland_model.controller import NamedController
from smpland_model.session import Session

from count_replies import COMMANDS, ELSEWHERE, documented, kind_of
from random_client import Client
from test_program import comparable
from test_schedules import Divergence, Pair

Json = dict[str, Any]
EVENTS, LINES = 160, 100
# What is wanted has to come in one of so many runs at least.
ROUND = 500
# (these lines ask `smplan` for a plan, and other tests have them)
PLANNED = ("moves", "drain")


def value_of(line: bytes) -> Json:
    """Returns the members of a line, or none if it has no command."""
    try:
        value = json.loads(line)
    except ValueError:
        return {}
    do = value.get("do") if isinstance(value, dict) else None
    return value if isinstance(do, str) and do in COMMANDS else {}


def unfinished(controller: NamedController) -> int:
    """Returns how many plans are unfinished."""
    return sum(not it.is_done for it in controller.record.plans) if controller.record else 0


def lowest_number(controller: NamedController) -> int:
    """Returns the lowest number of a present order, or 0 if there is none."""
    return min((it.number for it in controller.orders()), default=0) if controller.is_open else 0


def is_spared(controller: NamedController) -> bool:
    """Returns whether a reopening names fewer shards as lost than it would if each write had one copy."""
    reopening = controller.reopening
    return len(reopening.propose().lost) < len(replace(reopening, kept=()).propose().lost)


# What may come of a command that changes something: with the command, and how the line and the controller after it show that.
SITUATIONS: dict[str, tuple[str, Callable[[Json, Json, NamedController], bool]]] = {
    "plans beside each other": ("begin", lambda line, told, it: unfinished(it) > 1),
    "four plans beside each other": ("begin", lambda line, told, it: unfinished(it) > 3),
    "a plan with a signal": ("begin", lambda line, told, it: bool(line["plan"].get("signals"))),
    "a plan that ends": ("answered", lambda line, told, it: bool(told.get("ended"))),
    "an epoch at rest": ("new_epoch", lambda line, told, it: True),
    "a shard that is spared its name": ("fenced", lambda line, told, it: "proposal" in told and is_spared(it)),
    "a reopening in force": ("settled", lambda line, told, it: "opened" in told),
    "a server carried over": ("confirm", lambda line, told, it: bool(it.reopening.carried)),
    "a service adopted": ("reopen", lambda line, told, it: it.record is None),
}
CROSSING, REPLACED = "answers that cross", "a reopening replaced"


@dataclass
class Run:
    """One run: its sessions, each a list of lines with the replies that are due; how often what came; and in what it differs."""

    seed: int
    sessions: list[list[tuple[bytes, Json]]] = field(default_factory=list)
    came: Counter[str] = field(default_factory=Counter)
    difference: str = ""


class Recorded(Session):
    """A session of the reference that keeps its lines in a run."""

    def __init__(self, run: Run) -> None:
        super().__init__()
        self.run, self.exchanges = run, []
        run.sessions.append(self.exchanges)

    def reply(self, line: bytes) -> Json:
        """Returns the reply to a line, and notes what came."""
        value, came = value_of(line), self.run.came
        do = value.get("do", "")
        lowest = lowest_number(self.controller) if do == "answered" else 0
        is_replaced = do == "reopen" and self.controller.reopening is not None
        told = super().reply(line)
        self.exchanges.append((line, told))
        came[f"{kind_of(told)} of {do or 'no command'}"] += 1
        came[CROSSING] += "moved" in told and value["number"] > lowest
        came[REPLACED] += is_replaced and "fence" in told
        if not {"bad", "refused", "ignored", "again"} & set(told):
            for situation, (command, is_there) in SITUATIONS.items():
                came[situation] += do == command and is_there(value, told, self.controller)
        return told


def play_schedule(run: Run) -> None:
    """Plays the commands of a schedule of the network's model, a session for each journal. The reference says what the model says."""
    schedule = Schedule(run.seed, SOUND, EVENTS, ["", *PROFILES][run.seed % (len(PROFILES) + 1)])
    schedule.run()
    pair = Pair(Counter(), Recorded(run))
    try:
        for command, _ in schedule.world.session:
            is_opening = isinstance(command, (commands.Open, commands.Reopen))
            if is_opening and command.journal is not None and pair.model.journal is not None:
                pair = Pair(Counter(), Recorded(run))
            pair.do(unittest.TestCase(), command)
    except Divergence:
        run.came["a schedule that goes apart"] += 1


def play(seed: int) -> Run:
    """Plays the run of a seed by the reference."""
    run = Run(seed)
    try:
        play_schedule(run)
    except AssertionError as wrong:
        run.difference = f"the model and the reference: {wrong}"
    for _ in Client(seed, plans_often=0, session=Recorded(run)).play(LINES):
        pass
    return run


def compare(run: Run, program: list[str]) -> None:
    """Gives the lines of a run to a program, which is to reply the same."""
    for exchanges in run.sessions:
        text = b"".join(line + b"\n" for line, _ in exchanges)
        done = subprocess.run(program, input=text, stdout=subprocess.PIPE, check=False)
        replies = done.stdout.splitlines()
        if done.returncode or len(replies) != len(exchanges):
            run.difference = f"{len(replies)} replies to {len(exchanges)} lines, and status {done.returncode}"
        for (line, due), told in zip(exchanges, replies):
            if comparable(json.loads(told)) != comparable(due):
                run.difference = f"{line.decode(errors='replace')}: {told.decode()}, and due is {json.dumps(due)}"
                return


def wanted() -> set[str]:
    """Returns what has to come: each situation, and each refusal that the document names with its command."""
    pairs = documented() - ELSEWHERE
    refusals = {f"refused {kind} of {command}" for kind, command in pairs if command and command not in PLANNED}
    return {*SITUATIONS, CROSSING, REPLACED, *refusals}


def main() -> int:
    """Makes the runs, and prints the table. The status is 1 if a run differs, or something comes in too few of them."""
    seeds, program = range(*map(int, sys.argv[1:3])), sys.argv[3:]
    lines, times, runs = 0, Counter(), Counter()
    differ = 0
    for seed in seeds:
        run = play(seed)
        if program and not run.difference:
            compare(run, program)
        if run.difference:
            differ += 1
            print(f"seed {seed}: {run.difference}", flush=True)
        lines += sum(map(len, run.sessions))
        times.update(run.came)
        runs.update(it for it, count in run.came.items() if count)
    for what in sorted(runs):
        print(f"{times[what]:9} in {runs[what]:6} runs: {what}")
    rare = sorted(it for it in wanted() if runs[it] * ROUND < len(seeds))
    print(f"{len(seeds)} runs of {lines} lines, {differ} differ; in too few runs: {', '.join(rare) or 'nothing'}")
    return 1 if differ or rare else 0


if __name__ == "__main__":
    sys.exit(main())
