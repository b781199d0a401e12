"""Reads Patroni's clusters, as `patronictl list -f json` or its `GET /cluster` print them."""
from __future__ import annotations

import argparse
from typing import Any, Dict, List, Optional

from .failure import Failure
from .import_groups import Counts, Group, Imported, Machine, Member, add_cap, cap_for, count_of, floor_of
from .model import Json

COMMAND = "patronictl list -f json"
LIVE = ("running", "streaming")
LEADERS = ("leader", "standby leader", "standby_leader", "master", "primary")


def row_of(member: Json, cluster: str) -> Json:
    """Returns a member of `GET /cluster` as a row of `patronictl list`."""
    return {
        "Cluster": cluster, "Member": member["name"], "Host": member.get("host", ""), "Role": member["role"], "State": member["state"],
        "Lag in MB": member["lag"] / 2**20 if isinstance(member.get("lag"), int) else member.get("lag", ""),
    }


def rows_of(values: List[Any], cluster: str) -> List[Json]:
    rows: List[Json] = []
    for value in values:
        rows += [row_of(it, value.get("scope", cluster)) for it in value["members"]] if isinstance(value, dict) else value
    if not rows:
        raise Failure(f"there is no member; this reads what '{COMMAND}' prints")
    return rows


def is_live(row: Json, most: Optional[float]) -> bool:
    """Tells whether a member runs, and, if a lag is named, is no further behind. (A row lacks what is empty.)"""
    if str(row.get("State", "")).lower() not in LIVE:
        return False
    if most is None or is_leader(row):
        return True
    lag = row.get("Lag in MB", "")
    return isinstance(lag, (int, float)) and lag <= most


def is_leader(row: Json) -> bool:
    return str(row["Role"]).lower() in LEADERS


def machine_of(row: Json, by: str) -> str:
    """Returns a member's machine: its name, or its host, behind which a port may stand."""
    host = str(row.get("Host") or "")
    if by == "member" or not host:
        return str(row["Member"])
    return host.partition(":")[0] if host.count(":") == 1 else host


def cluster_of(row: Json, otherwise: str) -> str:
    """Returns the name of a row's cluster; in Citus each group is one by itself."""
    name = str(row.get("Cluster") or otherwise)
    return f"{name}.{row['Group']}" if "Group" in row else name


def read(values: List[Any], arguments: argparse.Namespace) -> Imported:
    """Returns each cluster as a group."""
    clusters: Dict[str, List[Json]] = {}
    for it in rows_of(values, arguments.cluster):
        clusters.setdefault(cluster_of(it, arguments.cluster), []).append(it)
    wants, groups = Counts(dict(arguments.want)), []
    for name, rows in clusters.items():
        want = max(wants.of(name), len(rows))
        members = tuple(Member(machine_of(it, arguments.machine), "primary" if is_leader(it) else "secondary") for it in rows if is_live(it, arguments.lag))
        groups.append(Group(name, want, floor_of(want, cap_for(arguments.cap, want)), members))
    machines = tuple(Machine(machine_of(it, arguments.machine)) for rows in clusters.values() for it in rows)
    return Imported(machines, tuple(groups))


def add_options(parser: argparse.ArgumentParser) -> None:
    """Adds the importer's own options."""
    add_cap(parser)
    parser.add_argument("--want", type=count_of, action="append", default=[], required=True, metavar="[NAME=]N", help="how many members a cluster, or the named one, should have")
    parser.add_argument("--cluster", default="patroni", metavar="NAME", help="the cluster's name, if Patroni does not tell it (patroni)")
    parser.add_argument("--machine", choices=["host", "member"], default="host", help="a machine is called by its host, or by its member's name (host)")
    parser.add_argument("--lag", type=float, metavar="MB", help="a member that is further behind is not live (any that runs is)")
