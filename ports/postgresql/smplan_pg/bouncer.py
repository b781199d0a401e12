"""The published map as [databases] of pgbouncer: a client that connects to the database SHARD is at the shard's primary."""
from __future__ import annotations

import json
import re
from pathlib import Path
from typing import Dict, List

from psycopg.conninfo import conninfo_to_dict
from smplan.failure import Failure

from .database import Database

# What of a connection string pgbouncer takes.
TAKEN = ("host", "port", "dbname", "user", "password")


def databases_of(map_file: str, servers: Dict[str, str]) -> List[str]:
    """The lines of [databases], for each shard that the map lists at one of these servers."""
    try:
        entries = json.loads(Path(map_file).read_text(encoding="utf-8"))["entries"]
    except (OSError, ValueError, KeyError) as why:
        raise Failure(f"{map_file} is no published map: {why}") from None
    lines = ["[databases]"]
    for shard, it in sorted(entries.items()):
        if it["to"] in servers:
            reach = conninfo_to_dict(servers[it["to"]])
            words = [f"{key}={quoted(str(reach[key]))}" for key in TAKEN if key in reach]
            path = 'SET search_path TO "{}"'.format(shard.replace('"', '""'))
            lines.append(" ".join([f"{named(shard)} =", *words, f"connect_query={quoted(path)}"]))
    return lines


def quoted(text: str) -> str:
    """A value as pgbouncer reads it."""
    return text if re.fullmatch(r"[\w./:-]+", text) else "'" + text.replace("'", "''") + "'"


def named(shard: str) -> str:
    """A database's name as pgbouncer reads it."""
    return shard if re.fullmatch(r"[\w-]+", shard) else '"' + shard.replace('"', '""') + '"'


def servers_of(database: Database) -> Dict[str, str]:
    """How the databases of all servers are reached, as one of them knows."""
    return {it["name"]: it["reach"] for it in database.rows("SELECT name, reach FROM sm.servers WHERE reach IS NOT NULL")}
