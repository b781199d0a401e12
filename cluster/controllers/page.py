"""What a controller's page shows."""
from __future__ import annotations

import time
from pathlib import Path
from typing import Any

from smplan.control import Line, Outgoing

from .etcd import EtcdFault
from .journal import LEADER
from .member import Member


def page() -> str:
    """Returns the page, which asks for the figures by itself."""
    return (Path(__file__).parent / "page.html").read_text(encoding="utf-8")


def order_row(kind: str, outgoing: Outgoing) -> Line:
    """What the page tells of a message that is not answered."""
    message = outgoing.message
    call = message.get("call", kind)
    return {
        "to": "map" if call == "publish" else message.get("server") or "map", "what": f"{call} {message.get('shard', '')}".strip(),
        "number": message.get("number", message.get("base", "")), "age": outgoing.age, "tries": outgoing.tries, "said": outgoing.said,
    }


def server_rows(state: Line) -> list[Line]:
    """What the page tells of servers."""
    return [
        {"name": it["server"], "region": it["region"], "room": it["room"], "load": it["load"], "held": it["held"],
         "note": "carried over" if it["carried"] else "down" if it["permit"] is not None else ""}
        for it in state.get("servers", [])
    ]


def shard_rows(state: Line) -> list[Line]:
    """What the page tells of shards. In a handover the old owner serves until the new one is the primary."""
    rows = []
    for it in state.get("shards", []):
        servers = {cell["state"]: cell["server"] for cell in it["cells"]}
        moving = "prepared" in servers or "forwarding" in servers
        title = ", ".join(f"{cell['server']} {cell['state']}" for cell in it["cells"])
        rows.append({"name": it["shard"], "serves": servers.get("primary", servers.get("forwarding")), "moving": moving, "title": title})
    return rows


# Whom a reopening waits for, by where it is.
WAITS = {"fence": "Have not told what they have", "confirm": "Are down, and stay as recorded if it is confirmed now", "settle": "Have not taken what they have from now on"}


def reopening_rows(state: Line) -> list[Line]:
    """What the page tells of a reopening under way: whom it waits for, and what it proposes."""
    reopening = state.get("reopening")
    if reopening is None:
        return []
    rows = [(WAITS[reopening["is"]], ["the map's owner" if it is None else it for it in reopening["waiting"]])]
    proposal = reopening.get("proposal")
    if proposal is not None:
        floors = [f"{it['shard']} ({it['live']} of {it['floor']})" for it in proposal["floors"]]
        primaries = [f"{it['shard']}: {next((cell['server'] for cell in it['cells'] if cell['state'] == 'primary'), 'none')}" for it in proposal["cells"]]
        rows += [("Shards that may be lost", proposal["lost"]), ("Shards with too few live replicas", floors), ("Primaries from then on", primaries)]
    return [{"what": what, "names": ", ".join(names) or "none"} for what, names in rows]


def waiting_rows(member: Member, state: Line) -> list[Line]:
    """What the page tells of servers that are given up, and may serve yet."""
    if member.controller is None:
        return []
    names, seconds = member.controller.may_still_serve(state)
    return [{"what": f"Are given up, and may serve for {seconds:.1f} s yet unless they are off", "names": ", ".join(sorted(names))}] if names else []


def alarm_rows(member: Member) -> list[Line]:
    """What the page tells of what is wrong."""
    return [{"about": it.about, "what": it.what, "text": it.text, "age": time.monotonic() - it.since} for it in member.alarms.now()]


async def leader_of(member: Member) -> str | None:
    """Who leads, as etcd tells."""
    if member.leads:
        return member.settings.name
    try:
        entry = await member.etcd.get(LEADER)
    except EtcdFault:
        return None
    return entry.value if entry else None


async def figures_of(member: Member) -> Line:
    """Returns everything that the page shows. Who does not lead sends no messages, and tells no `orders`: it does not know which are outstanding."""
    controller, leads = member.controller, member.leads
    state: dict[str, Any] = {} if controller is None else (await controller.ask({"do": "state"})).get("state", {})
    orders = [] if controller is None else [order_row(key[0], it) for key, it in controller.outgoing.items()]
    figures = {
        "name": member.settings.name, "leads": leads, "leader": await leader_of(member), "place": member.journal.place,
        "terms": member.past.terms, "servers": server_rows(state), "shards": shard_rows(state), "plans": plan_rows(state),
        "restarts": restart_rows(state), "is": state.get("is", "new"),
        "counts": {} if controller is None else {**controller.counts, **member.journal.counts, **member.owner.counts},
        "reopening": reopening_rows(state) + waiting_rows(member, state), "epoch": state.get("epoch"), "alarms": alarm_rows(member), "given": member.alarms.given,
    }
    if leads:
        figures["orders"] = sorted(orders, key=lambda it: -it["age"])
    condition = {"open": f"Epoch {state.get('epoch')}", "reopening": "A reopening is under way"}.get(state.get("is", "new"), "Nothing is opened yet")
    messages = f"{len(orders)} message{'' if len(orders) == 1 else 's'} outstanding" if leads else "messages are known to the controller that leads"
    return figures | {"summary": f"{condition}, line {member.journal.place} of the journal, {messages}."}


def plan_rows(state: Line) -> list[Line]:
    """What the page tells of plans that are running."""
    rows = []
    for it in state.get("plans", []):
        if it["is"] == "running":
            done = sum(stream["is"] == "done" for stream in it["streams"])
            rows.append({"plan": it["plan"], "name": it["name"], "streams": len(it["streams"]), "done": done})
    return rows


def restart_rows(state: Line) -> list[Line]:
    """What the page tells of servers that are down."""
    return [{"server": it["server"], "permit": it["permit"]} for it in state.get("servers", []) if it["permit"] is not None]
