"""Reads a PostgreSQL primary's standbys, as rows of `pg_stat_replication` in JSON."""
from __future__ import annotations

import argparse
from typing import Any, List, Optional, Tuple

from .failure import Failure
from .import_groups import Group, Imported, Machine, Member, add_cap, cap_for, floor_of
from .model import Json

QUERY = "SELECT json_build_object('primary', current_setting('cluster_name'), 'standbys', " \
        "coalesce((SELECT json_agg(r) FROM pg_stat_replication r), '[]'))"
COMMAND = f'psql -XAtc "{QUERY}"'


def place(text: str) -> int:
    """Returns a place of the log, which PostgreSQL writes as two numbers in hexadecimal digits."""
    high, _, low = text.partition("/")
    return (int(high, 16) << 32) + int(low, 16)


def is_live(row: Json, most: Optional[float]) -> bool:
    """Tells whether a standby streams, and, if a lag is named, is no further behind."""
    if row["state"] != "streaming":
        return False
    if most is None:
        return True
    return bool(row.get("sent_lsn") and row.get("replay_lsn")) and place(row["sent_lsn"]) - place(row["replay_lsn"]) <= most * 2**20


def told(values: List[Any], primary: Optional[str]) -> Tuple[str, List[Json]]:
    """Returns the primary's name, and its standbys."""
    if len(values) != 1:
        raise ValueError("it has more than one value")
    value = values[0]
    name, rows = (value["primary"], value["standbys"]) if isinstance(value, dict) else (primary, value)
    if not (primary or name):
        raise Failure("which machine is the primary's? Say --primary MACHINE, or give the server a cluster_name")
    return str(primary or name), rows or []


def read(values: List[Any], arguments: argparse.Namespace) -> Imported:
    """Returns the primary and its standbys as a group. Rows of others, as of a backup, do not count."""
    primary, rows = told(values, arguments.primary)
    known = [it for it in dict.fromkeys(arguments.members.split(",")) if it]
    if primary not in known:
        raise Failure(f"the primary {primary} is none of --members {','.join(known)}")
    live = {str(it[arguments.machine]) for it in rows if is_live(it, arguments.lag)} - {primary}
    members = [Member(primary, "primary"), *(Member(it) for it in known if it in live)]
    want = len(known)
    group = Group(arguments.cluster, want, floor_of(want, cap_for(arguments.cap, want)), tuple(members))
    return Imported(tuple(Machine(it) for it in known), (group,))


def add_options(parser: argparse.ArgumentParser) -> None:
    """Adds the importer's own options."""
    add_cap(parser)
    parser.add_argument("--members", required=True, metavar="A,B,..", help="the machines that have this database: one that is gone is in no row")
    parser.add_argument("--primary", metavar="MACHINE", help="the primary's machine (its cluster_name, if the input has that)")
    parser.add_argument("--cluster", default="postgresql", metavar="NAME", help="the group's name (postgresql)")
    parser.add_argument("--machine", choices=["application_name", "client_addr"], default="application_name", help="what a standby's machine is called by (application_name)")
    parser.add_argument("--lag", type=float, metavar="MB", help="a standby that is further behind is not live (any that streams is)")
