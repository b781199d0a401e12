"""`begin`, `state` and `controllers`: what an operator does with lines otherwise."""
from __future__ import annotations

import argparse
import json
import sys
import time
from typing import Any, Dict, List, Optional

from .control_drain import at_least
from .control_http import NotThere, fetch
from .control_leader import Controllers, Line, Refused, add_options, controllers_of, token_of, urls_of
from .control_plans import begun_as
from .control_watch import screen
from .failure import Failure
from .files import is_plan, read_value
from .words import counted


def printed(arguments: argparse.Namespace, value: Any, text: str) -> None:
    """Prints a reply as JSON, if that is asked for, or in words."""
    print(json.dumps(value) if arguments.json else text, flush=True)


def tell(arguments: argparse.Namespace, lines: List[str]) -> None:
    """Tells in words; for a program on standard error."""
    for it in lines:
        print(it, file=sys.stderr if arguments.json else sys.stdout, flush=True)


def add_json(parser: argparse.ArgumentParser) -> None:
    """Adds the option for programs."""
    parser.add_argument("--json", action="store_true", help="print JSON")


# ---- begin

def read_plan(path: str) -> Line:
    """Reads a plan, or a document with one."""
    value = read_value(path)
    plan = value if is_plan(value) else value.get("plan") if isinstance(value, dict) else None
    if not isinstance(plan, dict):
        raise Failure(f"{path} has no plan")
    return plan


def wait_for_plan(controllers: Controllers, begun: Line, patience: Optional[float] = None) -> bool:
    """Waits until a plan that has begun has ended; false if a reopening has broken it off. Fails once it takes too long."""
    until = None if patience is None else time.monotonic() + patience
    plan = begun_as(controllers.ask, begun)
    while True:
        has_ended = plan.has_ended(controllers.ask)
        if has_ended is not None:
            return has_ended
        if until is not None and time.monotonic() > until:
            raise Failure("the plan takes longer than that, and goes on: see `smplan-control watch`", 1)
        controllers.sleep(0.2)


def begin(arguments: argparse.Namespace) -> int:
    """Begins a plan, and may wait for its end."""
    plan, controllers = read_plan(arguments.plan), controllers_of(arguments)
    if arguments.check:
        reply = controllers.ask({"do": "check", "plan": plan})
        if "accepted" not in reply:
            raise Refused(reply)
        printed(arguments, reply, "accepted: it may begin now")
        return 0
    if not arguments.name:
        raise Failure("a plan begins under a name: --name NAME; under the same name it begins once, however often this is said")
    reply = controllers.do({"do": "begin", "plan": plan, "name": arguments.name})
    begun = reply["begun"]
    words = f"plan {begun['plan']}: {counted(begun['calls'], 'call')} in {counted(begun['streams'], 'stream')}"
    printed(arguments, {it: reply[it] for it in ("begun", "again") if it in reply}, f"{'begun before' if begun.get('again') or reply.get('again') else 'begun'}: {words}")
    if not arguments.wait:
        return 0
    if wait_for_plan(controllers, begun, arguments.stop):
        printed(arguments, {"ended": begun["plan"]}, f"plan {begun['plan']} has ended")
        return 0
    printed(arguments, {"broken_off": begun["plan"]}, f"a reopening has broken plan {begun['plan']} off; it undid nothing")
    return 1


# ---- state

def shard_lines(shards: List[Line]) -> List[str]:
    """Shows shards, each with its replicas."""
    lines = []
    for it in shards:
        cells = ", ".join(f"{cell['server']} {cell['state']}" for cell in it["cells"]) or "no replica"
        lines.append(f"  {it['shard']:<16} load {it['load']}, {it['live']} live, floor {it['floor']}, listed {it['listed'] or 'nowhere'}: {cells}")
    return lines


def state(arguments: argparse.Namespace) -> int:
    """Shows what is recorded."""
    controllers = controllers_of(arguments)
    found = controllers.state()
    if arguments.shard:
        found = {**found, "shards": [it for it in found.get("shards", []) if it["shard"] == arguments.shard]}
        if not found["shards"]:
            raise Failure(f"no shard is named '{arguments.shard}'")
        return printed(arguments, found["shards"][0], "\n".join(shard_lines(found["shards"]))) or 0
    text = screen(found, controllers.post("/outgoing")) + "\n".join(["shards", *(shard_lines(found.get("shards", [])) or ["  none"])])
    printed(arguments, found, text)
    return 0


# ---- controllers

def told_of_controller(url: str, token: Optional[str]) -> Dict[str, Any]:
    """What one controller says of itself."""
    try:
        figures = fetch(f"{url}/metrics", token=token)
        found = dict(it.rsplit(" ", 1) for it in figures.splitlines() if it and it[0] != "#")
        place, epoch = (int(float(found.get(f"smplan_{name}", "0"))) for name in ("place", "epoch"))
        return {"controller": url, "leads": found.get("smplan_leads") == "1", "place": place, "epoch": epoch}
    except (NotThere, ValueError) as why:
        return {"controller": url, "leads": False, "fault": str(why)}


def controllers(arguments: argparse.Namespace) -> int:
    """Shows who leads."""
    token = token_of(arguments)
    found = [told_of_controller(it.rstrip("/"), token) for it in urls_of(arguments)]
    lines = [f"{it['controller']}  " + (it.get("fault") or f"{'leads' if it['leads'] else 'follows'} at place {it['place']}, epoch {it['epoch']}") for it in found]
    printed(arguments, found, "\n".join(lines))
    return 0 if sum(it["leads"] for it in found) == 1 else 1


# ---- the command line

def add_parser(subparsers: Any) -> None:
    """Adds the commands."""
    parser = subparsers.add_parser(
        "begin", help="begins a plan under a name", epilog="example: smplan plan < move.json | smplan-control begin - --name move-7 --wait",
        description="Begins a plan, or the plan of a document. Under the same name it begins once, so this may be said again. "
        "Exit status 0: begun, or ended with --wait. 1: refused, or broken off. 3: no controller leads.",
    )
    parser.add_argument("plan", metavar="PLAN", help="a plan, or a document with one; - is standard input")
    parser.add_argument("--name", metavar="NAME", help="the plan's name")
    parser.add_argument("--check", action="store_true", help="ask only whether it may begin now")
    parser.add_argument("--wait", action="store_true", help="wait until it has ended")
    parser.add_argument("--stop", type=at_least(0), metavar="SECONDS", help="wait no longer than this; the plan goes on")
    add_options(parser)
    add_json(parser)
    parser.set_defaults(run=begin)
    parser = subparsers.add_parser(
        "state", help="shows servers, shards, plans and messages once", epilog="example: smplan-control state --shard orders",
        description="Shows what the leader has recorded. Exit status 0; 2: no shard has this name; 3: no controller leads.",
    )
    parser.add_argument("--shard", metavar="SHARD", help="show this shard alone")
    add_options(parser)
    add_json(parser)
    parser.set_defaults(run=state)
    parser = subparsers.add_parser(
        "controllers", help="shows which controller leads",
        epilog="example: smplan-control controllers --controller http://10.0.0.7:9200 --controller http://10.0.0.8:9200",
        description="Shows of each controller whether it leads. Exit status 0: one does. 1: none does, or more than one.",
    )
    add_options(parser)
    add_json(parser)
    parser.set_defaults(run=controllers)
