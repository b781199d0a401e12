"""`add-shard` and `remove-shard`: shards come empty, and go with their data, by reopenings and a plan between them.

How far a command came is told by what is recorded alone, so the same one goes on after an interruption. A floor would forbid that the first replica comes and
that the last one goes: until then, and from then on, all of the shard's replicas may be away (`cap` is `want`).
"""
from __future__ import annotations

import argparse
import json
from typing import Any, Dict, List, Tuple

from .control_document import Line, with_numbers, without_servers
from .control_drain import at_least
from .control_leader import Controllers, Refused, agrees, controllers_of
from .control_operate import printed, tell, wait_for_plan
from .control_reopen import add_agreement, needs, primary_of, refuse_silent, reopen_by, state_in_force
from .failure import Failure
from .files import document_from
from .limits import MOST_STREAMS
from .model import Json, document_of
from .placement import Placement
from .planning import named
from .reading import did_you_mean
from .repair import Addition, Planner, Repair, plan_value

AGAIN = "say this again: it goes on"


def floored(document: Line, shards: List[str], cap: Dict[str, int]) -> Line:
    """Returns the document of a reopening in which other numbers of replicas of shards may be away."""
    return without_servers(with_numbers(document, {("shards", it, "cap"): cap[it] for it in shards}), [])


def agree(arguments: argparse.Namespace, question: str) -> bool:
    """Asks once for all that a command does."""
    if not agrees(question, arguments.yes):
        return False
    arguments.yes = True
    return True


def make(controllers: Controllers, arguments: argparse.Namespace, plan: Line, name: str) -> None:
    """Begins a plan of this name, and waits for its end."""
    state = controllers.state()
    try:
        begun = controllers.do({"do": "begin", "plan": plan, "name": f"{name}-{state['epoch']}-{state['place']}"})["begun"]
    except Refused as why:
        raise Failure(f"the plan is refused: {why}. Wait until nothing is in its way, and {AGAIN}", 1) from None
    wait(controllers, arguments, begun)


def wait(controllers: Controllers, arguments: argparse.Namespace, begun: Line) -> None:
    """Waits for the end of a plan."""
    try:
        has_ended = wait_for_plan(controllers, begun, arguments.wait)
    except Failure as why:
        raise Failure(f"{why}, what its servers say. Once it has ended, {AGAIN}", why.status) from None
    if not has_ended:
        raise Failure(f"a reopening has broken the plan off. Once that has ended, {AGAIN}", 1)


def wait_for_earlier(controllers: Controllers, arguments: argparse.Namespace, names: List[str]) -> None:
    """Waits for the end of plans of these names that an interrupted command has begun."""
    state = controllers.state()
    for plan in state.get("plans", []):
        if plan["is"] == "running" and plan["name"].startswith(tuple(f"{it}-" for it in names)):
            tell(arguments, [f"plan {plan['name']} runs: waits for its end"])
            wait(controllers, arguments, {"plan": plan["plan"], "epoch": state["epoch"]})


def cells_of(document: Line) -> Dict[str, List[Line]]:
    """The cells of each shard."""
    return {it["name"]: it["cells"] for it in document["shards"]}


# ---- a shard more

def new_shard(name: str, arguments: argparse.Namespace) -> Line:
    """A shard that nobody has, as the command line tells of it."""
    return {"name": name, "load": arguments.load, "want": arguments.want, "cap": arguments.want, "spread": arguments.spread, "listed": None, "cells": []}


def refuse_other(document: Line, arguments: argparse.Namespace) -> None:
    """Fails if a shard is there with other numbers than the command line tells, or a server is not there."""
    servers = [it["name"] for it in document["servers"]]
    if arguments.at not in servers:
        raise Failure(f"no server is named '{arguments.at}'{did_you_mean(arguments.at, servers)}")
    for it in document["shards"]:
        other = [member for member in ("load", "want", "spread") if it["name"] in arguments.shard and it[member] != getattr(arguments, member)]
        if other:
            raise Failure(f"{it['name']} is there already, with {', '.join(f'{member} {it[member]}' for member in other)}: "
                          f"`smplan-control resize --{other[0]} {it['name']}=N` changes that", 1)


def replicas_to_come(document: Line, arguments: argparse.Namespace) -> Tuple[Repair, Json]:
    """The replicas that shards have not yet, the first at the server that is named, and the plan that adds them."""
    placement = Placement(document_of(document))
    planner = Planner(placement, False)
    for shard in arguments.shard:
        if placement.cells[shard] and placement.lead(shard).owner is None:
            planner.repair.left.append(f"{shard} has secondaries alone: `smplan-control repair --promote`")
        elif not placement.cells[shard] and (arguments.at in placement.down or planner.room[arguments.at] < arguments.load):
            has = "is down" if arguments.at in placement.down else f"has room for {planner.room[arguments.at]} more, and {shard} needs {arguments.load}"
            planner.repair.left.append(f"{arguments.at} {has}: name another server by --at, or `smplan-control balance` first")
        else:
            if not placement.cells[shard]:
                planner.take(Addition(shard, arguments.at, "primary"))
            planner.add_replicas(shard)
    return planner.repair, plan_value(planner.repair, placement)


def places_of(found: Repair) -> str:
    """Where replicas come, in words."""
    return "; ".join(f"{it.shard}: {it.server} gets {'an empty primary' if it.role == 'primary' else 'a secondary'}" for it in found.additions)


def refuse_left(found: Repair) -> None:
    """Fails if replicas have no place."""
    if found.left:
        raise Failure("\n  ".join(["not all replicas have a place:", *found.left]), 1)


def add(arguments: argparse.Namespace) -> int:
    """Adds shards, and their replicas: what is not there yet."""
    if arguments.cap is None:
        arguments.cap = min(1, arguments.want - 1)
    if arguments.cap > arguments.want:
        raise Failure(f"--cap {arguments.cap}: of {arguments.want} replicas no more than {arguments.want} may be away")
    controllers = controllers_of(arguments)
    state_in_force(controllers, arguments, arguments.shard)
    recorded = controllers.post("/document")
    refuse_other(recorded, arguments)
    names = [it["name"] for it in recorded["shards"]]
    missing = [it for it in arguments.shard if it not in names]
    if missing and not bring(controllers, arguments, recorded, missing):
        return 0 if arguments.dry_run else 1
    return fill(controllers, arguments)


def bring(controllers: Controllers, arguments: argparse.Namespace, recorded: Line, missing: List[str]) -> bool:
    """Reopens with shards that nobody has. Tells whether to go on."""
    document = {**recorded, "shards": [*recorded["shards"], *(new_shard(it, arguments) for it in missing)]}
    document_from(document, "the document with these shards")
    found, _ = replicas_to_come(document, arguments)
    refuse_left(found)
    second = "" if arguments.cap == arguments.want else ", and a second one once these are there, from which on the floor counts"
    first = f"{places_of(found)}. It takes a reopening{second}: every server is asked what it has, and serves meanwhile. "
    opened, why = without_servers(document, []), "add " + " ".join(missing)
    if arguments.dry_run:
        reopen_by(controllers, arguments, opened, first, why)
        return False
    state = controllers.state()
    text = f"{first}{refuse_silent(controllers, arguments, opened, state)}{needs(opened, [], state)}"
    return agree(arguments, f"{text} Begin?") and reopen_by(controllers, arguments, opened, "", why, missing) == 0


def fill(controllers: Controllers, arguments: argparse.Namespace) -> int:
    """Adds the replicas of shards that are there, and has their floors count."""
    wait_for_earlier(controllers, arguments, [f"add-{it}" for it in arguments.shard])
    recorded = controllers.post("/document")
    found, plan = replicas_to_come(recorded, arguments)
    refuse_left(found)
    if found.additions:
        if arguments.dry_run:
            printed(arguments, {"plan": plan}, f"{places_of(found)}\n{json.dumps(plan)}")
            return 0
        if not agree(arguments, f"{places_of(found)}. Begin?"):
            return 1
        tell(arguments, places_of(found).split("; "))
        make(controllers, arguments, plan, f"add-{arguments.shard[0]}")
        recorded = controllers.post("/document")
    low = [it["name"] for it in recorded["shards"] if it["name"] in arguments.shard and it["cap"] != arguments.cap]
    if low:
        document = floored(recorded, low, dict.fromkeys(low, arguments.cap))
        first = f"From this reopening on {arguments.want - arguments.cap} of {named(low)} are kept live. "
        status = reopen_by(controllers, arguments, document, first, "floor of " + " ".join(low))
        if status or arguments.dry_run:
            return status
    printed(arguments, {"added": arguments.shard}, f"{named(arguments.shard)} {'is' if len(arguments.shard) == 1 else 'are'} there, with {arguments.want} replicas")
    return 0


# ---- a shard less

def drop_stream(shards: List[Line]) -> Json:
    """The stream that unlists shards, and drops all their replicas, the primary first."""
    code: List[Json] = []
    holds: Dict[str, List[Json]] = {"cells": [], "crowns": [], "room": [], "spare": []}
    for it in shards:
        primary = primary_of(it["cells"])
        if primary is not None:
            holds["crowns"].append({"shard": it["name"], "lead": "at", "server": primary, "listed": it["listed"]})
            code += [{"do": "unlist", "shard": it["name"]}] if it["listed"] else []
            code.append({"do": "drop", "shard": it["name"], "server": primary})
        for cell in it["cells"]:
            if cell["server"] != primary:
                holds["cells"].append({"shard": it["name"], "server": cell["server"], "state": "secondary"})
                code.append({"do": "drop", "shard": it["name"], "server": cell["server"]})
        holds["spare"].append({"shard": it["name"], "amount": len(it["cells"])})
    return {"budget": sum(it["do"] == "drop" for it in code), "holds": holds, "code": code}


def drop_plan(shards: List[Line]) -> Json:
    """The plan that drops all replicas of shards."""
    hands = [shards[at::MOST_STREAMS] for at in range(min(len(shards), MOST_STREAMS))]
    streams = [drop_stream(it) for it in hands]
    return {"budget": sum(it["budget"] for it in streams), "streams": streams}


def data_gone(shards: List[Line]) -> str:
    """Which data goes, in words."""
    told = []
    for it in shards:
        cells = [f"{cell['server']} ({cell['state']})" for cell in it["cells"]]
        told.append(f"{it['name']}, load {it['load']}: " + (f"its data at {', '.join(cells)} is gone for good" if cells else "no server has data of it"))
    return ". ".join(told) + ". "


def rows(document: Line, names: List[str]) -> List[Line]:
    """These shards of a document, as far as it has them."""
    return [it for it in document["shards"] if it["name"] in names]


def remove(arguments: argparse.Namespace) -> int:
    """Removes shards with their data: what is left of them."""
    controllers = controllers_of(arguments)
    went_on = controllers.state().get("is") == "reopening"
    state = state_in_force(controllers, arguments)
    recorded = controllers.post("/document")
    shards = rows(recorded, arguments.shard)
    known = [it["name"] for it in recorded["shards"]]
    unknown = [it for it in arguments.shard if it not in known]
    if unknown and not went_on:
        raise Failure(f"no shard is named '{unknown[0]}'{did_you_mean(unknown[0], known)}")
    if shards and not may_go(controllers, arguments, recorded, state):
        return 0 if arguments.dry_run else 1
    if shards and not take_out(controllers, arguments):
        return 1
    printed(arguments, {"removed": arguments.shard}, f"{named(arguments.shard)} {'is' if len(arguments.shard) == 1 else 'are'} gone")
    return 0


def may_go(controllers: Controllers, arguments: argparse.Namespace, recorded: Line, state: Line) -> bool:
    """Asks whether all data of the shards may go. Tells whether to go on."""
    shards = rows(recorded, arguments.shard)
    has_floor = any(it["cells"] and it["cap"] < it["want"] for it in shards)
    silent = refuse_silent(controllers, arguments, recorded, state)
    kept = [it["shard"] for it in state["shards"] if it["shard"] in arguments.shard and it["copies"] > 1]
    copies = f"Servers that keep several copies of each write of {named(kept)} let none of the last go: start them with one copy first. " if kept else ""
    many = "two reopenings and a plan" if has_floor else "a plan and a reopening" if any(it["cells"] for it in shards) else "a reopening"
    text = f"{data_gone(shards)}Clients find no server for {'it' if len(shards) == 1 else 'them'} from now on. {copies}It takes {many}. {silent}{needs(recorded, [], state)}"
    if arguments.dry_run:
        printed(arguments, {"shards": shards}, text)
        return False
    return agree(arguments, f"{text} Begin?")


def take_out(controllers: Controllers, arguments: argparse.Namespace) -> bool:
    """Does what is left to do: no floor, no replicas, no shard. Tells whether all is done."""
    names = arguments.shard
    wait_for_earlier(controllers, arguments, [f"drop-{it}" for it in names])
    held = [it for it in rows(controllers.post("/document"), names) if it["cells"] and it["cap"] < it["want"]]
    if held:
        document = floored(controllers.post("/document"), [it["name"] for it in held], {it["name"]: it["want"] for it in held})
        if reopen_by(controllers, arguments, document, "", "no floor of " + " ".join(names)):
            return False
    full = [it for it in rows(controllers.post("/document"), names) if it["cells"]]
    if full:
        tell(arguments, [f"{it['name']}: {', '.join(cell['server'] for cell in it['cells'])} drop what they have" for it in full])
        make(controllers, arguments, drop_plan(full), f"drop-{names[0]}")
    document = without_servers(controllers.post("/document"), [])
    left = [it for it in rows(document, names) if it["cells"]]
    if left:
        raise Failure(f"{named(it['name'] for it in left)} got replicas meanwhile: say this again", 1)
    document["shards"] = [it for it in document["shards"] if it["name"] not in names]
    return reopen_by(controllers, arguments, document, "", "remove " + " ".join(names)) == 0


# ---- the command line

def add_parser(subparsers: Any) -> None:
    """Adds both commands."""
    how = ("If it is interrupted, or a server does not answer, the same command goes on with what is not done yet. Exit status 0: done, and the service is open. "
           "1: refused, not agreed to, or a server does not answer; if the service is closed to moves then, it says so. 2: bad input. 3: no controller leads.")
    parser = subparsers.add_parser(
        "add-shard", help="adds shards, empty, with all their replicas", epilog="example: smplan-control add-shard tenant-9 --load 4 --want 2 --at b",
        description=f"Adds shards: by a reopening that ends all plans, a plan that adds an empty primary at a server and secondaries where there is room, and a second "
        f"reopening, from which on the shards keep their floor. It asks once. {how}",
    )
    parser.add_argument("shard", nargs="+", metavar="SHARD", help="the shard's name")
    parser.add_argument("--load", required=True, type=at_least(0, int), metavar="N", help="the load of each replica")
    parser.add_argument("--want", required=True, type=at_least(1, int), metavar="N", help="how many replicas it should have")
    parser.add_argument("--cap", type=at_least(0, int), metavar="N", help="how many of them may be unavailable at once (1; 0 if it wants one)")
    parser.add_argument("--spread", type=at_least(0, int), default=1, metavar="N", help="in how many regions they should be (1)")
    parser.add_argument("--at", required=True, metavar="SERVER", help="where its first primary is")
    add_agreement(parser)
    parser.set_defaults(run=add)
    parser = subparsers.add_parser(
        "remove-shard", help="removes shards, with all their data", epilog="example: smplan-control remove-shard tenant-9",
        description=f"Removes shards: by a reopening that ends all plans and gives up their floor, a plan that unlists them and drops all replicas, and a reopening "
        f"without them. It names the data that is gone then, and asks once. {how}",
    )
    parser.add_argument("shard", nargs="+", metavar="SHARD", help="the shard's name")
    add_agreement(parser)
    parser.set_defaults(run=remove)
