"""Plans of moves without a planner: a stream for each move, which holds what it needs."""
from __future__ import annotations

from smplan.control import Line


def move_stream(shard: Line, source: str, target: str) -> Line:
    """A stream that moves a replica: a primary is handed over, a secondary is added anew and then dropped."""
    name, load = shard["shard"], shard["load"]
    room = [{"server": target, "amount": load}]
    absent = {"shard": name, "server": target, "state": "absent"}
    has = {it["server"]: it["state"] for it in shard["cells"]}
    if has[source] == "secondary":
        code = [{"do": "add", "shard": name, "server": target, "role": "secondary"}, {"do": "drop", "shard": name, "server": source}]
        cells = [absent, {"shard": name, "server": source, "state": "secondary"}]
        return {"budget": 2, "holds": {"cells": cells, "room": room}, "code": code}
    code = [
        {"do": "prepare_add", "shard": name, "server": target, "other": source},
        {"do": "prepare_drop", "shard": name, "server": source, "other": target},
        {"do": "add", "shard": name, "server": target, "role": "primary"}, {"do": "publish", "shard": name},
        {"do": "drop", "shard": name, "server": source},
    ]
    crown = {"shard": name, "lead": "at", "server": source, "listed": shard["listed"]}
    return {"budget": 4, "holds": {"cells": [absent], "crowns": [crown], "room": room}, "code": code}


def abrupt_stream(shard: Line, source: str, target: str) -> Line:
    """A stream that moves a primary without a handover: it is copied, the old owner ceases, and then the new one begins."""
    name, load = shard["shard"], shard["load"]
    code = [
        {"do": "add", "shard": name, "server": target, "role": "secondary"}, {"do": "unlist", "shard": name},
        {"do": "change", "shard": name, "server": source, "to": "secondary"}, {"do": "change", "shard": name, "server": target, "to": "primary"},
        {"do": "publish", "shard": name}, {"do": "drop", "shard": name, "server": source},
    ]
    crown = {"shard": name, "lead": "at", "server": source, "listed": shard["listed"]}
    holds = {"cells": [{"shard": name, "server": target, "state": "absent"}], "crowns": [crown], "room": [{"server": target, "amount": load}]}
    return {"budget": 4, "holds": holds, "code": code}


def swap_stream(shard: Line, primary: str, secondary: str) -> Line:
    """A stream that makes the primary a secondary, and a secondary the primary; the map names nobody between."""
    name = shard["shard"]
    code = [
        {"do": "unlist", "shard": name}, {"do": "change", "shard": name, "server": primary, "to": "secondary"},
        {"do": "change", "shard": name, "server": secondary, "to": "primary"}, {"do": "publish", "shard": name},
    ]
    cells = [{"shard": name, "server": secondary, "state": "secondary"}]
    crown = {"shard": name, "lead": "at", "server": primary, "listed": shard["listed"]}
    return {"budget": 2, "holds": {"cells": cells, "crowns": [crown]}, "code": code}


def add_stream(shard: Line, target: str) -> Line:
    """A stream that adds a secondary to a shard."""
    name = shard["shard"]
    holds = {"cells": [{"shard": name, "server": target, "state": "absent"}], "room": [{"server": target, "amount": shard["load"]}]}
    return {"budget": 1, "holds": holds, "code": [{"do": "add", "shard": name, "server": target, "role": "secondary"}]}


def promote_stream(shard: Line, server: str) -> Line:
    """A stream that makes a secondary the primary of a shard that has none."""
    name = shard["shard"]
    code = [{"do": "change", "shard": name, "server": server, "to": "primary"}, {"do": "publish", "shard": name}]
    crown = {"shard": name, "lead": "gone", "listed": shard["listed"]}
    return {"budget": 1, "holds": {"cells": [{"shard": name, "server": server, "state": "secondary"}], "crowns": [crown]}, "code": code}


def plan_of(streams: list[Line]) -> Line:
    """A plan of these streams."""
    return {"budget": sum(it["budget"] for it in streams), "streams": streams}
