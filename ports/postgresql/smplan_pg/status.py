"""What a server has, in words; and the way back from a shard to a plain schema."""
from __future__ import annotations

import json
from typing import Any, Dict, List

from smplan.agent import Cell
from smplan.failure import Failure

from .copies import has_schema
from .database import Database, Row, value
from .records import Records
from .streams import said
from .whole import forget

SHARDS = """SELECT s.shard, s.cell, s.at_work, s.is_whole, s.told = t.settled AS is_told, f.name AS source, sm.view(s.shard) AS view,
    sm.position(s.shard) AS position, coalesce((SELECT subenabled FROM pg_subscription WHERE subname = sm.stream(s.shard, t.me)), false) AS follows
  FROM sm.slots s CROSS JOIN sm.state t LEFT JOIN sm.servers f ON f.number = s.source WHERE s.cell <> 1 OR s.at_work <> 0 ORDER BY s.shard"""
STREAMS = """SELECT slot_name, active, wal_status, pg_wal_lsn_diff(pg_current_wal_flush_lsn(), confirmed_flush_lsn)::bigint AS behind
  FROM pg_replication_slots WHERE slot_name LIKE 'sm\\_%' OR slot_name LIKE 'pg\\_%\\_sync\\_%' ORDER BY slot_name"""


def status(database: Database, as_json: bool) -> int:
    """Prints what a server has. 1 if something is wrong."""
    told = status_of(database)
    if as_json:
        print(json.dumps(told, default=str))
    else:
        print("\n".join(lines_of(told)))
    return 1 if told["wrong"] else 0


def status_of(database: Database) -> Dict[str, Any]:
    """What a server has."""
    if value(database.row("SELECT to_regclass('sm.state') IS NULL")):
        raise Failure("there is no schema sm in this database: smplan-pg adopt, or serve, makes it", 1)
    with database.transaction() as tx:
        state = tx.execute("SELECT name, journal, number, known, fenced, settled, copies FROM sm.state").fetchone()
        shards, rows = tx.execute(SHARDS).fetchall(), tx.execute(STREAMS).fetchall()
        names = {it.number: it.name for it in Records(tx).peers().values()}
        for it in shards:
            it["cell"] = Cell(it["cell"]).name.lower()
            it["members"] = sorted(names.get(number, str(number)) for number in Records(tx).members(it["shard"]))
        copied = tx.execute("SELECT c.shard, s.name AS server, round(extract(epoch FROM now() - since))::int AS seconds FROM sm.copied c JOIN sm.servers s ON s.number = c.server").fetchall()
        asides = tx.execute("SELECT schema, shard, since, why FROM sm.asides ORDER BY since").fetchall()
    return {"server": state, "shards": shards, "streams": rows, "copied": copied, "asides": asides, "wrong": wrong_of(state or {}, shards, rows)}


def wrong_of(state: Row, shards: List[Row], rows: List[Row]) -> List[str]:
    """What an operator should look at."""
    found = [] if state.get("known") else ["the server is Unknown: it waits for its slots from a controller"]
    found += [f"{it['shard']} is not whole here: it is copied, or waits for it" for it in shards if not it["is_whole"] and it["cell"] != "absent"]
    found += [f"{it['shard']} is a secondary that follows nobody now" for it in shards if it["cell"] == "secondary" and not it["follows"]]
    found += [f"the stream {it['slot_name']} is lost: max_slot_wal_keep_size was too small; its follower copies anew" for it in rows if it["wal_status"] == "lost"]
    found += [f"the stream {it['slot_name']} holds {it['behind'] >> 20} MB of log back" for it in rows if not it["active"] and (it["behind"] or 0) > 1 << 30]
    return found


def lines_of(told: Dict[str, Any]) -> List[str]:
    """A status in words."""
    it = told["server"]
    several = f", {it['copies']} copies of each write" if it["copies"] > 1 else ""
    lines = [f"server {it['name']}: " + ("fenced" if it["fenced"] else f"base {it['number']}" if it["known"] else "Unknown") + several]
    for row in told["shards"]:
        more = f", follows {row['source']}" if row["cell"] != "primary" and row["source"] else ""
        more += f", followed by {', '.join(row['members'])}" if row["cell"] == "primary" and row["members"] else ""
        more += f", {it['copies']} copies told" if row["cell"] == "primary" and row["is_told"] else ""
        lines.append(f"  {row['shard']:<24} {row['cell']:<10} position {row['view']}/{row['position']}{more}{'' if row['is_whole'] else ', not whole'}")
    lines += [f"  {row['server']} copies {row['shard']} from here, for {row['seconds']} s" for row in told["copied"]]
    lines += [f"  set aside: {row['schema']} ({row['shard']}, {row['since']:%F %T}: {row['why']})" for row in told["asides"]]
    return lines + [f"  look: {row}" for row in told["wrong"]]


def drop(database: Database, shards: List[str], aside: bool, everything: bool) -> int:
    """Makes shards plain schemas again; deletes what was set aside; removes schema sm."""
    if not (shards or aside or everything):
        raise Failure("name schemas, --aside or --all")
    with database.transaction() as tx:
        it = Records(tx)
        for shard in shards:
            if it.slot(shard).cell not in (Cell.UNKNOWN, Cell.ABSENT) or it.slot(shard).at_work:
                raise Failure(f"{shard} is served or followed here: take it out of the service first (drain, or reopen by a document without it)", 1)
            if not has_schema(tx, shard) or not it.is_adopted(shard):
                raise Failure(f"{shard} is no shard here", 1)
            tx.execute("SELECT sm.release(%s)", (shard,))
            tx.execute("DELETE FROM sm.copying WHERE shard = %s", (shard,))
            print(f"{shard} is a plain schema now")
        for row in tx.execute("SELECT schema, shard FROM sm.asides").fetchall() if aside else []:
            tx.execute(said("DROP SCHEMA IF EXISTS {} CASCADE", row["schema"]))
            tx.execute("DELETE FROM sm.asides WHERE schema = %s", (row["schema"],))
            print(f"deleted {row['schema']}, which was {row['shard']}")
        if everything:
            remove_all(it)
    return 0


def come_back(database: Database) -> int:
    """Lets a server that was given up, and is off, forget what it has to serve."""
    with database.transaction() as tx:
        if not value(tx.execute("SELECT pg_try_advisory_xact_lock(1936531058, 0)").fetchone()):
            raise Failure("smplan-pg serve runs: stop it first", 1)
        forget(Records(tx))
    print("it has forgotten its slots: start it, and `smplan-control add-server`; its data is set aside then")
    return 0


def remove_all(it: Records) -> None:
    """Removes schema sm from a server that has no shards."""
    held = [shard for shard, slot in it.slots().items() if slot.cell not in (Cell.UNKNOWN, Cell.ABSENT)]
    adopted = [row["nspname"] for row in it.tx.execute("SELECT nspname FROM pg_namespace n JOIN pg_class c ON relnamespace = n.oid AND relname = 'sm_counters'")]
    if held or adopted:
        raise Failure(f"there are shards here still: {', '.join(sorted({*held, *adopted}))}", 1)
    if it.tx.execute("SELECT FROM pg_extension WHERE extname = 'smplan'").fetchone() is not None:
        it.tx.execute("DROP EXTENSION smplan")
    else:
        it.tx.execute("DROP EVENT TRIGGER sm_ddl; DROP EVENT TRIGGER sm_drop; DROP SCHEMA sm CASCADE")
    print("schema sm is removed")


def settings(shards: int, servers: int) -> str:
    """The lines that postgresql.conf needs for so many shards at a server."""
    most = shards * max(1, servers - 1)
    return "\n".join([
        "wal_level = logical", f"max_replication_slots = {most + 20}", f"max_wal_senders = {most + 20}",
        f"max_logical_replication_workers = {2 * shards + 8}", f"max_worker_processes = {2 * shards + 16}",
        "wal_retrieve_retry_interval = 20ms    # bounds how often the launcher starts a follower: a pause at each handover",
        "logical_decoding_work_mem = 1MB       # copies that come to a server pass its streams in such pieces: "
        "what a write may wait for",
        "wal_init_zero = off                   # a copy makes files of the log: all writes wait while one is filled",
        "wal_sender_timeout = 10s               # a server that is cut off counts no more then, and a few seconds later",
        "max_slot_wal_keep_size = 32GB         # a follower that was away for more than this copies anew"])


