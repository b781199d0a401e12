"""Documents with large plans, for the pages."""
from typing import Any, Dict, List, Tuple

STREAMS, LAYERS, SIGNALS = 64, 8, 256


def wired(streams: int = STREAMS, layers: int = LAYERS, signals: int = SIGNALS) -> Dict[str, Any]:
    """Returns a document whose plan has `streams` streams and `signals` signals. The streams stand in layers; each moves a secondary, and those of one layer hand the room
    that they free on to those of the next."""
    servers = [{"name": f"rack-{n:02}", "region": f"zone-{n % 4}", "room": 40} for n in range(2 * streams)]
    shards = [
        {"name": f"shard-{n:02}", "load": 20, "want": 1, "cap": 0, "spread": 1, "cells": [{"server": f"rack-{n:02}", "state": "secondary"}]} for n in range(streams)
    ]
    wires = wires_of(streams, layers, signals)
    code: List[List[Dict[str, Any]]] = [[] for _ in range(streams)]
    for number, (_, to) in enumerate(wires):
        code[to].append({"do": "wait", "signal": number})
    for n in range(streams):
        code[n] += [
            {"do": "add", "shard": f"shard-{n:02}", "server": f"rack-{n + streams:02}", "role": "secondary"},
            {"do": "drop", "shard": f"shard-{n:02}", "server": f"rack-{n:02}"},
        ]
    for number, (start, _) in enumerate(wires):
        code[start].append({"do": "signal", "signal": number})
    plan = {
        "budget": 2 * streams,
        "signals": [{"room": [{"server": f"rack-{start:02}", "amount": 1}]} for start, _ in wires],
        "streams": [{"budget": 2, "holds": holds_of(n, streams), "code": code[n]} for n in range(streams)],
    }
    return {"limit": 1, "servers": servers, "shards": shards, "plan": plan}


def wires_of(streams: int, layers: int, signals: int) -> List[Tuple[int, int]]:
    """Returns from which stream to which each signal goes."""
    size = streams // layers
    pairs = [(n, (n // size + 1) * size + (n + turn) % size) for turn in range(size) for n in range(streams - size)]
    return sorted(pairs[:signals])


def holds_of(n: int, streams: int) -> Dict[str, Any]:
    cells = [
        {"shard": f"shard-{n:02}", "server": f"rack-{n:02}", "state": "secondary"},
        {"shard": f"shard-{n:02}", "server": f"rack-{n + streams:02}", "state": "absent"},
    ]
    return {"cells": cells, "room": [{"server": f"rack-{n + streams:02}", "amount": 20}]}


def draining(replicas: int = STREAMS) -> Dict[str, Any]:
    """Returns a document in which a server with `replicas` replicas is to be emptied: half of them primaries."""
    servers = [{"name": "old-server", "region": "zone-0", "room": 20 * replicas}]
    servers += [{"name": f"new-{n}", "region": f"zone-{n % 3}", "room": 500} for n in range(6)]
    shards = []
    for n in range(replicas):
        is_primary = n % 2 == 0
        cells = [{"server": "old-server", "state": "primary" if is_primary else "secondary"}, {"server": f"new-{n % 6}", "state": "secondary" if is_primary else "primary"}]
        owner = next(it["server"] for it in cells if it["state"] == "primary")
        shards.append({"name": f"customers-{n:02}", "load": 5 + n % 7, "want": 2, "cap": 1, "spread": 1, "listed": owner, "cells": cells})
    return {"limit": 1, "servers": servers, "shards": shards, "drain": "old-server"}
