"""`repair`: brings replicas back after a loss, by a plan."""
from __future__ import annotations

import argparse
import json
import sys
from typing import Any, List, Tuple

from .control_leader import Controllers, Line, Refused, add_options, agrees, controllers_of
from .control_operate import add_json, printed, wait_for_plan
from .failure import Failure
from .model import document_of
from .placement import Placement
from .repair import Planner, Repair, plan_value, relaxed
from .words import counted


def repair_of(document: Line, promotes: bool, fills_empty: bool) -> Tuple[Repair, Line]:
    """Returns what is to be done for a document as it is now, and its plan. (A secondary is promoted only if that is asked for: nobody here knows which one
    has most writes.)"""
    now, _ = relaxed(document)
    placement = Placement(document_of(now))
    found = Planner(placement, fills_empty).plan()
    if not promotes and found.promotions:
        bare = [it.shard for it in found.promotions]
        found.left += [f"{it} has secondaries alone: --promote makes one its primary; see first that it has most writes" for it in bare]
        found.promotions = []
        found.additions = [it for it in found.additions if it.shard not in bare]
    return found, plan_value(found, placement)


def words_of(found: Repair) -> List[str]:
    """What is done, in words."""
    return [f"{it.shard}: {it.server} becomes the primary" for it in found.promotions] + [f"{it.shard}: {it.server} gets a {it.role}" for it in found.additions]


def begin(controllers: Controllers, plan: Line) -> Line:
    """Begins the plan under a name of its own."""
    state = controllers.state()
    return controllers.do({"do": "begin", "plan": plan, "name": f"repair-{state['epoch']}-{state['place']}"})["begun"]


def repair(arguments: argparse.Namespace) -> int:
    """Runs the command."""
    controllers = controllers_of(arguments)
    state = controllers.state()
    if state.get("is") != "open":
        raise Failure("nothing begins while a reopening is under way: `smplan-control reopen --go-on`", 1)
    if any(it["is"] == "running" for it in state.get("plans", [])):
        raise Failure("a plan runs; wait for its end", 1)
    found, plan = repair_of(controllers.post("/document"), arguments.promote, arguments.empty)
    words = words_of(found)
    for line in [*words, *(f"left: {it}" for it in found.left)]:
        print(line, file=sys.stderr if arguments.json else sys.stdout)
    if arguments.dry_run or not words:
        printed(arguments, {"plan": plan, "left": found.left}, json.dumps(plan) if words else "nothing can be brought back" if found.left else "nothing is missing")
        return 1 if found.left else 0
    if not agrees(f"{counted(len(words), 'replica')} would change. Begin?", arguments.yes):
        return 1
    try:
        begun = begin(controllers, plan)
    except Refused as why:
        raise Failure(f"the plan is refused: {why}", 1) from None
    if not wait_for_plan(controllers, begun):
        raise Failure("a reopening has broken the plan off", 1)
    printed(arguments, {"ended": begun["plan"], "left": found.left}, f"plan {begun['plan']} has ended")
    return 1 if found.left else 0


def add_parser(subparsers: Any) -> None:
    """Adds the command."""
    parser = subparsers.add_parser(
        "repair", help="brings replicas back after a loss", epilog="example: smplan-control repair --dry-run",
        description="Makes a plan that adds replicas until each shard has what it wants, shows it, begins it, and waits for its end. Exit status 0: nothing is "
        "missing any longer. 1: something is left, with the reason, or the plan is refused. 3: no controller leads.",
    )
    parser.add_argument("--dry-run", action="store_true", help="show the plan, and send nothing")
    parser.add_argument("--promote", action="store_true", help="make a secondary the primary where there is none")
    parser.add_argument("--empty", action="store_true", help="add an empty primary of a shard of which no replica is left")
    parser.add_argument("--yes", action="store_true", help="do not ask")
    add_options(parser)
    add_json(parser)
    parser.set_defaults(run=repair)
