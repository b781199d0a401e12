"""`add-server` and `remove-server`: the servers of a service, changed by a reopening, since a `new_epoch` keeps those that there are."""
from __future__ import annotations

import argparse
from typing import Any, List

from .control_document import without_servers
from .control_drain import at_least
from .control_http import NotThere, fetch
from .control_leader import Controllers, Line, controllers_of
from .control_reopen import add_agreement, reopen_by, silent, state_in_force
from .failure import Failure
from .reading import did_you_mean

BY_REOPENING = "Servers come and go by a reopening: every server is asked what it has, and serves meanwhile. "


def refuse_unreached(controllers: Controllers, server: str) -> None:
    """Fails if a controller does not know where a new server is, or if the server does not answer: the reopening would wait for it."""
    for url in controllers.urls:
        try:
            known = server in fetch(f"{url}/fleet", token=controllers.token)["servers"]
        except NotThere:
            continue
        if not known:
            raise Failure(f"{url} does not know where {server} is: give it a number and its URL in fleet.json there, and send the controller SIGHUP", 1)
    if silent(controllers, [server]):
        raise Failure(f"{server} does not answer: start it first", 1)


def add(arguments: argparse.Namespace) -> int:
    """Adds servers, without replicas."""
    controllers = controllers_of(arguments)
    state = state_in_force(controllers, arguments)
    there = [it["server"] for it in state.get("servers", []) if it["server"] in arguments.server]
    if there:
        raise Failure(f"{', '.join(there)} is there already", 1)
    for server in arguments.server:
        refuse_unreached(controllers, server)
    document = without_servers(controllers.post("/document"), [])
    document["servers"] += [{"name": it, "region": arguments.region, "room": arguments.room} for it in arguments.server]
    return reopen_by(controllers, arguments, document, BY_REOPENING, "add " + " ".join(arguments.server))


def shards_at(state: Line, server: str) -> List[str]:
    """The shards of which a server has something."""
    return [it["shard"] for it in state["shards"] if any(cell["server"] == server for cell in it["cells"])]


def refuse_in_use(controllers: Controllers, state: Line, server: str) -> None:
    """Fails if a server has something, is to get something, or does not answer."""
    recorded = {it["server"]: it for it in state.get("servers", [])}
    if server not in recorded:
        raise Failure(f"no server is named '{server}'{did_you_mean(server, recorded)}")
    shards = shards_at(state, server)
    if shards:
        more = f" and {len(shards) - 5} more" if len(shards) > 5 else ""
        raise Failure(f"{server} still has {', '.join(shards[:5])}{more}: `smplan-control drain {server}` empties it", 1)
    if recorded[server]["held"]:
        raise Failure(f"a running plan brings {server} replicas: wait for its end, then `smplan-control drain {server}`", 1)
    if silent(controllers, [server]):
        raise Failure(f"{server} does not answer: if it is off for good, `smplan-control reopen --lost {server}`", 1)


def remove(arguments: argparse.Namespace) -> int:
    """Takes servers out that have nothing."""
    controllers = controllers_of(arguments)
    state = state_in_force(controllers, arguments)
    for server in arguments.server:
        refuse_in_use(controllers, state, server)
    document = without_servers(controllers.post("/document"), arguments.server)
    status = reopen_by(controllers, arguments, document, BY_REOPENING, "remove " + " ".join(arguments.server))
    if status == 0 and not arguments.json and not arguments.dry_run:
        print(f"stop {', '.join(arguments.server)}, and take it out of fleet.json; its number is never another's")
    return status


def add_parser(subparsers: Any) -> None:
    """Adds both commands."""
    how = ("by a reopening, once what it proposes is agreed to. It ends all plans; a no leaves the service closed to moves, and says so. "
           "Exit status 0: the service is open. 1: refused, not agreed to, or a server does not answer. 2: no such server. 3: no controller leads.")
    parser = subparsers.add_parser(
        "add-server", help="adds servers, without replicas", epilog="example: smplan-control add-server d --region r --room 9",
        description=f"Adds servers that run, and that the controllers' fleet.json names (SIGHUP reads it anew), {how} `balance` brings them replicas then.",
    )
    parser.add_argument("server", nargs="+", metavar="SERVER", help="the server's name")
    parser.add_argument("--region", required=True, metavar="REGION", help="where it is")
    parser.add_argument("--room", required=True, type=at_least(0, int), metavar="LOAD", help="the load that it has room for")
    add_agreement(parser)
    parser.set_defaults(run=add)
    parser = subparsers.add_parser(
        "remove-server", help="takes servers out that have no replicas", epilog="example: smplan-control drain c && smplan-control remove-server c",
        description=f"Takes servers out that are empty, and still run, {how} One that is gone for good: `reopen --lost`.",
    )
    parser.add_argument("server", nargs="+", metavar="SERVER", help="the server's name")
    add_agreement(parser)
    parser.set_defaults(run=remove)
