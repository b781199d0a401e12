"""Schemas become shards: what can't be moved is named with its remedy, and nothing is changed then."""
from __future__ import annotations

from pathlib import Path
from typing import List, Tuple

from smplan.failure import Failure

from . import streams
from .database import Connection, Database, value

# The version of schema sm that this program needs, and its text; the first one, which tells none; and no schema's.
VERSION, FIRST, NONE = (1, 3), (1, 0), ()
EXTENSION = Path(__file__).resolve().parents[1] / "extension" / "smplan--1.3.sql"

# What can't be moved, and what helps: a query over the schema %(shard)s whose rows each are one thing.
CHECKS = (
    ("SELECT c.oid::regclass::text AS it FROM pg_class c WHERE relnamespace = %(schema)s::regnamespace AND relkind = 'r' AND relreplident = 'd' "
     "AND NOT EXISTS (SELECT FROM pg_index WHERE indrelid = c.oid AND indisprimary)",
     "table {} has no primary key: ALTER TABLE {} ADD PRIMARY KEY (..), or REPLICA IDENTITY USING INDEX a unique one"),
    ("SELECT c.oid::regclass::text AS it FROM pg_class c WHERE relnamespace = %(schema)s::regnamespace AND relkind = 'r' AND relreplident = 'n'",
     "table {} has no replica identity: ALTER TABLE {} REPLICA IDENTITY DEFAULT"),
    ("SELECT c.oid::regclass::text AS it FROM pg_class c WHERE relnamespace = %(schema)s::regnamespace AND relkind = 'r' AND relpersistence = 'u'",
     "table {} is unlogged, so that nobody else gets it: ALTER TABLE {} SET LOGGED"),
    ("SELECT format('%%s.%%s', a.attrelid::regclass, quote_ident(a.attname)) AS it FROM pg_attribute a JOIN pg_class c ON c.oid = attrelid "
     "WHERE relnamespace = %(schema)s::regnamespace AND relkind = 'r' AND attnum > 0 AND NOT attisdropped AND atttypid IN ('oid'::regtype, to_regtype('lo'))",
     "column {} may name large objects, which stay behind: keep such data as bytea"),
    ("SELECT conrelid::regclass::text || ' to ' || confrelid::regclass AS it FROM pg_constraint JOIN pg_class c ON c.oid = conrelid JOIN pg_class f ON f.oid = confrelid "
     "WHERE contype = 'f' AND conparentid = 0 AND (c.relnamespace = %(schema)s::regnamespace) <> (f.relnamespace = %(schema)s::regnamespace)",
     "the foreign key of {} leaves the schema: drop it, or move both tables into one schema"),
    ("SELECT c.oid::regclass::text AS it FROM pg_inherits JOIN pg_class c ON c.oid = inhrelid JOIN pg_class p ON p.oid = inhparent "
     "WHERE (c.relnamespace = %(schema)s::regnamespace) <> (p.relnamespace = %(schema)s::regnamespace)",
     "table {} inherits across schemas: ALTER TABLE {} SET SCHEMA that of its parent"),
    ("SELECT c.oid::regclass::text AS it FROM pg_class c WHERE relnamespace = %(schema)s::regnamespace AND relkind IN ('f', 'm')",
     "{} is a foreign table or a materialized view, whose rows do not move: put it into another schema"),
    ("SELECT format('%%s on %%s', quote_ident(tgname), tgrelid::regclass) AS it FROM pg_trigger JOIN pg_class c ON c.oid = tgrelid "
     "WHERE relnamespace = %(schema)s::regnamespace AND tgenabled IN ('A', 'R') AND NOT tgisinternal",
     "trigger {} fires for what replication brings, so that its effect comes twice: ALTER TABLE .. ENABLE TRIGGER"),
    ("SELECT pubname AS it FROM pg_publication_tables WHERE schemaname = %(name)s AND pubname <> sm.stream(%(name)s) GROUP BY pubname",
     "publication {} has tables of the schema, and stays behind: drop it, and make it where the shard is"),
)
SETTINGS = (("wal_level", "logical", "wal_level = logical, and restart"),)


def refuse_server(tx: Connection) -> None:
    """Fails if a server can't move shards at all."""
    version = int(value(tx.execute("SHOW server_version_num").fetchone()))
    if version < 150000:
        raise Failure(f"this is PostgreSQL {version // 10000}: shards that are schemas need FOR TABLES IN SCHEMA of PostgreSQL 15. Nothing was changed", 1)
    if not value(tx.execute("SELECT rolsuper FROM pg_roles WHERE rolname = current_user").fetchone()):
        raise Failure("this role is no superuser, which publications of schemas and subscriptions need. Nothing was changed", 1)
    if value(tx.execute("SHOW wal_level").fetchone()) != "logical":
        raise Failure("wal_level is not logical: `smplan-pg settings` prints what postgresql.conf needs. Nothing was changed", 1)


def install(tx: Connection) -> None:
    """Puts schema sm into a database that has none, or an older one, as an extension if its files are installed."""
    version = version_of(tx)
    if version >= VERSION:
        return
    name, is_old = ".".join(str(it) for it in VERSION), tx.execute("SELECT FROM pg_extension WHERE extname = 'smplan'").fetchone() is not None
    if not is_old and (version > NONE or not is_available(tx, "smplan")):
        tx.execute(EXTENSION.read_text(encoding="utf-8"))
    elif tx.execute("SELECT FROM pg_available_extension_versions WHERE name = 'smplan' AND version = %s", (name,)).fetchone() is None:
        raise Failure(f"the files of the extension smplan are older than {name}: make -C ports/postgresql/extension install. Nothing was changed", 1)
    elif is_old:
        tx.execute(f"ALTER EXTENSION smplan UPDATE TO '{name}'")
    else:
        tx.execute(f"CREATE EXTENSION smplan VERSION '{name}'")
        if is_available(tx, "smplan_agent"):
            tx.execute("CREATE EXTENSION smplan_agent")
    streams.bring_up(tx)


def version_of(tx: Connection) -> Tuple[int, ...]:
    """The version of a database's schema sm."""
    if value(tx.execute("SELECT to_regclass('sm.state') IS NULL").fetchone()):
        return NONE
    if value(tx.execute("SELECT to_regprocedure('sm.version()') IS NULL").fetchone()):
        return FIRST
    return tuple(value(tx.execute("SELECT sm.version()").fetchone()))


def is_available(tx: Connection, extension: str) -> bool:
    """Whether an extension's files are installed."""
    return tx.execute("SELECT FROM pg_available_extensions WHERE name = %s", (extension,)).fetchone() is not None


def faults_of(tx: Connection, shard: str) -> List[str]:
    """What of a schema can't be moved, each with its remedy."""
    if tx.execute("SELECT FROM pg_namespace WHERE nspname = %s", (shard,)).fetchone() is None:
        return [f"there is no schema {shard}"]
    if len(shard.encode()) > 32:
        return [f"the name {shard} has more than 32 bytes, which a controller does not take: ALTER SCHEMA .. RENAME"]
    schema = value(tx.execute("SELECT quote_ident(%s)", (shard,)).fetchone())
    found = []
    for query, words in CHECKS:
        found += [words.replace("{}", it["it"]) for it in tx.execute(query, {"schema": schema, "name": shard}).fetchall() if ".sm_" not in it["it"]]
    return found


def adopt(database: Database, shards: List[str]) -> List[str]:
    """Makes schemas shards, all or none; returns those that were none before."""
    with database.transaction() as tx:
        refuse_server(tx)
        install(tx)
        faults = [f"{shard}: {it}" for shard in shards for it in faults_of(tx, shard)]
        if faults:
            raise Failure("\n".join([*faults, "Nothing was changed"]), 1)
        fresh = [it for it in shards if not value(tx.execute("SELECT sm.is_adopted(%s)", (it,)).fetchone())]
        for shard in fresh:
            tx.execute("SELECT sm.adopt(%s)", (shard,))
    return fresh


def load_of(database: Database, shard: str) -> int:
    """The size of a shard in MB, as a document's load."""
    size = value(database.row("SELECT sum(pg_total_relation_size(oid)) FROM pg_class WHERE relnamespace = quote_ident(%s)::regnamespace AND relkind = 'r'", shard))
    return max(1, int(size or 0) >> 20)
