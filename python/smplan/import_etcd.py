"""Reads etcd's members and their health, as `etcdctl member list` and `etcdctl endpoint health --cluster` print them as JSON."""
from __future__ import annotations

import argparse
from typing import Any, Dict, List
from urllib.parse import urlsplit

from .failure import Failure
from .import_groups import Group, Imported, Machine, Member
from .model import Json

COMMAND = "etcdctl member list -w json; etcdctl --command-timeout=2s endpoint health --cluster -w json"


def quorum(voters: int) -> int:
    return voters // 2 + 1


def health_of(values: List[Any]) -> Dict[str, bool]:
    """Returns of each endpoint whether it is healthy. What `endpoint status` prints is of those that answer."""
    found: Dict[str, bool] = {}
    for row in (it for value in values if isinstance(value, list) for it in value):
        endpoint = str(row["Endpoint"] if "Endpoint" in row else row["endpoint"])
        is_well = not row["Status"].get("errors") if "Status" in row else row["health"] is True
        found[endpoint.rstrip("/")] = is_well and found.get(endpoint.rstrip("/"), True)
    return found


def leader_of(values: List[Any]) -> int:
    """Returns the leader's id, if `endpoint status` was printed, too; 0 if not."""
    rows = [it for value in values if isinstance(value, list) for it in value if "Status" in it]
    return next((int(it["Status"]["leader"]) for it in rows if it["Status"].get("leader")), 0)


def machine_of(member: Json, by: str) -> str:
    """Returns the machine of a member: its name, or the host of its first address for clients. One that has never started has neither yet."""
    urls = member.get("clientURLs") or []
    return str(member.get("name") or "") if by == "name" else str(urlsplit(urls[0]).hostname if urls else "")


def read(values: List[Any], arguments: argparse.Namespace) -> Imported:
    """Returns etcd's members: a group that has to keep its quorum."""
    members = [it for value in values if isinstance(value, dict) for it in value["members"]]
    voters = [it for it in members if not it.get("isLearner")]
    if not voters:
        raise Failure(f"there is no member; this reads what '{COMMAND}' prints")
    health, leader = health_of(values), leader_of(values)
    live = [it for it in voters if any(health.get(url.rstrip("/")) for url in it.get("clientURLs") or [])]
    names = [machine_of(it, arguments.machine) for it in voters]
    alive = tuple(Member(machine_of(it, arguments.machine), "primary" if it["ID"] == leader else "secondary") for it in live)
    return Imported(tuple(Machine(it) for it in names if it), (Group(arguments.cluster, len(voters), quorum(len(voters)), alive),))


def add_options(parser: argparse.ArgumentParser) -> None:
    """Adds the importer's own options."""
    parser.add_argument("--cluster", default="etcd", metavar="NAME", help="the group's name (etcd)")
    parser.add_argument("--machine", choices=["name", "host"], default="name", help="a machine is called by its member's name, or by the host of its clients' address (name)")
