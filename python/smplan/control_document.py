"""The service as a document: what is recorded, and what only a document says of it (want, cap and spread)."""
from __future__ import annotations

import copy
from typing import Any, Dict, Optional, Tuple

Line = Dict[str, Any]

# A replica as a document has it. The old owner of a handover is the owner until the new one has taken over, which has nothing before.
ROLES = {"primary": "primary", "forwarding": "primary", "secondary": "secondary"}


class Unknown(ValueError):
    """The document that is at hand does not say this."""


def document_of_state(state: Line, known: Line) -> Line:
    """Returns what is recorded as a document. `known` says of each shard what it wants; shards and servers of its that are not recorded are left out."""
    told = {it["name"]: it for it in known.get("shards", [])}
    missing = [it["shard"] for it in state["shards"] if it["shard"] not in told]
    if missing:
        raise Unknown(f"the document at hand does not know {', '.join(missing)}, which are recorded")
    return {
        "limit": state["limit"], "log": state["log"]["places"],
        "servers": [
            {"name": it["server"], "region": it["region"], "room": it["room"], **({"down": True} if it["permit"] is not None else {})} for it in state["servers"]
        ],
        "shards": [shard_of(it, told[it["shard"]]) for it in state["shards"]],
    }


def shard_of(recorded: Line, told: Line) -> Line:
    """Returns a shard of the document."""
    cells = [{"server": it["server"], "state": ROLES[it["state"]]} for it in recorded["cells"] if it["state"] in ROLES]
    return {"name": recorded["shard"], "load": recorded["load"], "want": told["want"], "cap": told["cap"], "spread": told["spread"],
            "listed": recorded["listed"], "cells": cells}


def without_servers(document: Line, gone: "list[str]") -> Line:
    """Returns a document for a reopening without some servers: nobody is down in it, and each shard's primary is listed, if it is left."""
    servers = [{name: it for name, it in server.items() if name != "down"} for server in document["servers"] if server["name"] not in gone]
    shards = []
    for shard in document["shards"]:
        cells = [it for it in shard["cells"] if it["server"] not in gone]
        shards.append({**shard, "cells": cells, "listed": next((it["server"] for it in cells if it["state"] == "primary"), None)})
    return {**document, "servers": servers, "shards": shards}


# A number of a document: `shards` or `servers`, the name of one of them, and the member; or none, no name, and `limit` or `log`.
Place = Tuple[Optional[str], str, str]


def rows_of(document: Line, table: Optional[str]) -> Dict[str, Line]:
    """The shards or servers of a document by their names; without a table the document itself under no name."""
    return {"": document} if table is None else {it["name"]: it for it in document[table]}


def with_numbers(document: Line, numbers: Dict[Place, int]) -> Line:
    """Returns a document with other numbers."""
    changed = copy.deepcopy(document)
    rows = {it: rows_of(changed, it) for it in (None, "servers", "shards")}
    for (table, name, member), number in numbers.items():
        rows[table][name][member] = number
    return changed


def number_at(document: Line, place: Place) -> Optional[int]:
    """Returns a number of a document, if it is there."""
    table, name, member = place
    return rows_of(document, table).get(name, {}).get(member)
