"""`rolling-restart`: restarts servers one after the other, region by region, each once it leads no shard; in the end the leaders are as before."""
from __future__ import annotations

import argparse
from typing import Any, List, Set

from .control_campaign import fleet_of_state, known_document
from .control_leader import controllers_of
from .control_restart import Restarts, add_options_of_restarts, placement_before
from .failure import Failure
from .fleet import Fleet
from .planning import servers_in
from .words import counted


def in_turn(fleet: Fleet, servers: Set[int]) -> List[str]:
    """The servers region by region, so that no other region is touched while one is."""
    regions = list(dict.fromkeys(fleet.region))
    return [fleet.servers[it] for it in sorted(servers, key=lambda it: (regions.index(fleet.region[it]), it))]


def need_successors(restarts: Restarts, servers: List[str]) -> None:
    """Tests before anything begins that others can lead what each server leads, unless it may lead it while it goes down. (What a server that is down keeps
    from being so is waited for in its turn.)"""
    fleet = fleet_of_state(restarts.controllers.state(), restarts.known)
    if not restarts.goes_on and not any(fleet.is_down):
        left = [line for server in servers for line in restarts.demotion(server)(fleet).left]
        if left:
            raise Failure("\n  ".join(["nothing is restarted, since nobody would serve some shards meanwhile (--go-on allows that):", *left]), 1)


def roll(restarts: Restarts, by: str, command: List[str], servers: List[str], before: Fleet) -> int:
    """Restarts servers in turn by a command, in which {} is the server, and gives their leaders back. Under the same name it goes on where it stopped."""
    need_successors(restarts, servers)
    for number, server in enumerate(servers):
        restarts.restart(server, f"{by}-{before.server_of[server]}", [it.replace("{}", server) for it in command])
        restarts.tell(f"{server} is up: {number + 1} of {counted(len(servers), 'server')}")
    return restarts.give_back(servers, before)


def run(told: argparse.Namespace) -> int:
    """Runs the command."""
    if not told.command:
        raise Failure("name the command that restarts a server: rolling-restart --by NAME -- COMMAND; {} in it is the server's name")
    controllers = controllers_of(told)
    known = known_document(controllers, told.document)
    state = controllers.state()
    if state.get("is") != "open":
        raise Failure("a reopening is under way, or nothing was opened yet", 1)
    fleet = fleet_of_state(state, known)
    servers = in_turn(fleet, servers_in(fleet, told.servers) if told.servers else set(range(len(fleet.servers))))
    restarts = Restarts(controllers, known, not told.no_gap, True, told.go_on, told.wait, told.up, tell=lambda text: print(text, flush=True))
    return roll(restarts, told.by, told.command, servers, placement_before(told.before, state, known))


def add_parser(subparsers: Any) -> None:
    """Adds the command."""
    parser = subparsers.add_parser(
        "rolling-restart", help="restarts servers in turn, each once it leads no shard",
        usage="smplan-control rolling-restart [SERVER ..] --by NAME [OPTION ..] -- COMMAND",
        epilog="example: smplan-control rolling-restart --by rollout-7 --before was.json -- systemctl restart kv@{}",
        description="Restarts servers one after the other, region by region: makes others lead its shards, asks for leave, runs the command, and waits until the server is "
        "up. In the end each shard is led as before. Under the same --by and --before it goes on where it stopped. Exit status 0: all are up. 1: it stopped before that.")
    parser.add_argument("servers", nargs="*", metavar="SERVER", help="a server, or region:R for those of a region (all)")
    parser.add_argument("--by", required=True, metavar="NAME", help="for whom it is, as rollout-7; at most 27 letters")
    parser.add_argument("--no-gap", action="store_true", help="hand primaries over instead of changing roles: the data is copied twice, and a live replica has to be spared")
    parser.add_argument("--go-on", action="store_true", help="restart a server also if it still leads a shard, which nobody serves meanwhile")
    parser.add_argument("--document", metavar="FILE", help="says in how many regions shards are to lie (what the controller knows; otherwise as many as now)")
    add_options_of_restarts(parser)
    parser.set_defaults(run=run)
