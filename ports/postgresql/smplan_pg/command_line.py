"""The commands of smplan-pg."""
from __future__ import annotations

import argparse
import json
import sys
from pathlib import Path
from typing import List, Optional

import psycopg
from smplan.failure import Failure
from smplan.server_copied import copies_of

from .adopt import adopt, install, load_of, refuse_server
from .bouncer import databases_of, servers_of
from .database import Database
from .ddl import change
from .server import Limits, Server
from .silence import Silence, patiently
from .status import come_back, drop, settings, status

DSN = "a connection string of libpq, as service=pg-a; passwords by its own means (~/.pgpass, pg_service.conf)"


def run_adopt(told: argparse.Namespace) -> int:
    """Makes schemas shards."""
    database = Database(told.dsn)
    fresh = adopt(database, told.schema)
    for it in told.schema:
        if told.json:
            print(json.dumps({"name": it, "load": load_of(database, it), "adopted": it in fresh}))
        else:
            print(f"{it}: {'is a shard now' if it in fresh else 'was a shard already'}; its load is {load_of(database, it)} (MB)")
    return 0


def run_serve(told: argparse.Namespace) -> int:
    """Serves a server's side for a controller."""
    token = Path(told.token).read_text(encoding="utf-8").strip() if told.token else None
    database = Database(told.dsn)
    limits = Limits(copies=told.copies, at_once=told.at_once, dead=told.dead, stalled=told.stalled, keeping=told.keeping, ending=told.ending)

    def make() -> Server:
        with database.transaction() as tx:
            refuse_server(tx)
            install(tx)
        return Server(told.name, database, told.reach or told.dsn, told.controller, token, limits, told.http)

    patiently(Silence(told.name), database, make).run()
    return 0


def run_status(told: argparse.Namespace) -> int:
    """Prints what a server has."""
    return status(Database(told.dsn), told.json)


def run_drop(told: argparse.Namespace) -> int:
    """Undoes what adopt did, or deletes what was set aside."""
    return drop(Database(told.dsn), told.schema, told.aside, told.all)


def run_ddl(told: argparse.Namespace) -> int:
    """Changes a shard's schema at all its replicas."""
    print(f"{told.schema} is changed at {', '.join(change(Database(told.dsn), told.schema, told.name, told.file, told.wait))}")
    return 0


def run_forget(told: argparse.Namespace) -> int:
    """Lets a server that was given up come back with nothing."""
    return come_back(Database(told.dsn))


def run_pgbouncer(told: argparse.Namespace) -> int:
    """Prints the published map for pgbouncer."""
    servers = servers_of(Database(told.dsn)) if told.dsn else {}
    servers.update(dict(it.split("=", 1) for it in told.server))
    print("\n".join(databases_of(told.map, servers)))
    return 0


def run_settings(told: argparse.Namespace) -> int:
    """Prints what postgresql.conf needs."""
    print(settings(told.shards, told.servers))
    return 0


def parser_of() -> argparse.ArgumentParser:
    """How the commands are read."""
    parser = argparse.ArgumentParser(prog="smplan-pg", description="Shards that are schemas of PostgreSQL, moved between servers while clients write.")
    subparsers = parser.add_subparsers(required=True, metavar="COMMAND")
    it = subparsers.add_parser("settings", help="prints what postgresql.conf needs")
    it.add_argument("--shards", type=int, default=100, help="how many shards a server may have (100)")
    it.add_argument("--servers", type=int, default=4, help="how many servers there are (4)")
    it.set_defaults(run=run_settings)
    it = subparsers.add_parser("adopt", help="makes schemas shards, or says what of them can't be moved")
    it.add_argument("schema", nargs="+")
    it.add_argument("--dsn", required=True, help=DSN)
    it.add_argument("--json", action="store_true")
    it.set_defaults(run=run_adopt)
    it = subparsers.add_parser("serve", help="serves a server's side for `smplan-control run`")
    it.add_argument("--dsn", required=True, help=DSN)
    it.add_argument("--reach", metavar="DSN", help="how other servers reach this database, if not as --dsn")
    it.add_argument("--name", required=True, help="the server's name in fleet.json")
    it.add_argument("--controller", action="append", required=True, metavar="URL", help="may be given again")
    it.add_argument("--http", metavar="URL", help="where it listens, if not at its URL in fleet.json")
    it.add_argument("--token", metavar="FILE", help="the controller's token")
    it.add_argument("--copies", type=copies_of, default=1, metavar="N", help="acknowledge only what N servers have, the same at all servers of the service (1)")
    it.add_argument("--at-once", type=int, default=2, metavar="COPIES", help="how many copies are made from one server at once (2)")
    it.add_argument("--dead", type=float, default=5.0, metavar="SECONDS", help="a follower that reads nothing for so long counts no more, and copies anew (5)")
    it.add_argument("--stalled", type=float, default=60.0, metavar="SECONDS", help="so does one that reads and gets on with nothing for so long (60)")
    it.add_argument("--keeping", type=float, default=3600.0, metavar="SECONDS", help="for how long identities of requests are kept (3600)")
    it.add_argument("--ending", type=float, default=30.0, metavar="SECONDS", help="requests that keep an order waiting for so long are ended (30)")
    it.set_defaults(run=run_serve)
    it = subparsers.add_parser("status", help="tells what a server has, and what is wrong")
    it.add_argument("--dsn", required=True, help=DSN)
    it.add_argument("--json", action="store_true")
    it.set_defaults(run=run_status)
    it = subparsers.add_parser("ddl", help="changes a shard's schema at its primary, which --dsn names, and at all that follow it; requests wait meanwhile")
    it.add_argument("schema")
    it.add_argument("file", help="statements that change the schema and no rows, with names as in the schema")
    it.add_argument("--name", required=True, help="the change's name: under it what was made is not made again")
    it.add_argument("--dsn", required=True, help=DSN)
    it.add_argument("--wait", type=float, default=30.0, metavar="SECONDS", help="for requests that run (30)")
    it.set_defaults(run=run_ddl)
    it = subparsers.add_parser("forget", help="for a server that was given up: it forgets its slots, before it is started and added again")
    it.add_argument("--dsn", required=True, help=DSN)
    it.set_defaults(run=run_forget)
    it = subparsers.add_parser("pgbouncer", help="prints the published map as [databases] of pgbouncer, for fleet.json's `then`")
    it.add_argument("map", metavar="MAP", help="the map's file")
    it.add_argument("--dsn", help="a server that knows how all are reached: " + DSN)
    it.add_argument("--server", action="append", default=[], metavar="NAME=DSN", help="how clients reach a server, if not so")
    it.set_defaults(run=run_pgbouncer)
    it = subparsers.add_parser("drop", help="makes a shard a plain schema again, or deletes what was set aside")
    it.add_argument("schema", nargs="*")
    it.add_argument("--dsn", required=True, help=DSN)
    it.add_argument("--aside", action="store_true", help="delete all data that was set aside")
    it.add_argument("--all", action="store_true", help="remove schema sm with all that it keeps, from a server that has no shards")
    it.set_defaults(run=run_drop)
    return parser


def main(words: Optional[List[str]] = None) -> int:
    """Runs a command."""
    told = parser_of().parse_args(words)
    try:
        return told.run(told)
    except Failure as why:
        print(f"smplan-pg: {why}", file=sys.stderr)
        return why.status
    except psycopg.Error as why:
        print(f"smplan-pg: {str(why).strip()}", file=sys.stderr)
        return 1
