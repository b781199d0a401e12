"""Bugs that can be planted in controllers and in the map's owner (`--bug NAME`), so that the checkers can be seen to find them."""
from __future__ import annotations

from smplan.control import Controller, Line

BUGS = {
    "feed-before-store": "a line is fed and acted on before it is stored",
    "map-write-without-compare": "an entry of the map is written without a look at what stands there",
    "map-names-prepared": "the map names a new owner as soon as it is prepared",
    "map-write-left-out": "every third entry of the map is called done, and not written",
    "map-settled-without-entries": "the map's owner takes a settle without its entries",
    "any-reply-counts": "an order counts as answered by any reply, or by none",
    "map-not-fenced": "a reopening passes the map's owner by",
    "confirm-moves-primary": "a settle makes another replica the primary than the one that told it is",
    "confirm-before-lease-ends": "a reopening is confirmed while a server may serve that it gives up",
    "restart-without-approval": "servers are restarted without leave",
    "new-journal-without-reopening": "a new journal is opened over servers of an old one, under its name, without a reopening",
}


def moved_primaries(settles: list[Line]) -> list[Line]:
    """Makes of each shard's replicas the last one the primary."""
    last = {it["shard"]: settle["server"] for settle in settles for it in settle.get("slots", []) if it["cell"] != "absent"}
    moved = []
    for settle in settles:
        slots = [
            it if it["cell"] == "absent" else {**it, "cell": "primary" if last[it["shard"]] == settle["server"] else "secondary"}
            for it in settle.get("slots", [])
        ]
        moved.append({**settle, "slots": slots} if "slots" in settle else settle)
    return moved


def move_primaries(controller: Controller) -> None:
    """Plants the bug in a controller: what it sends is not what was confirmed."""
    of_reply = controller.messages_of

    def messages_of(reply: Line) -> list[tuple[str, Line]]:
        return of_reply({**reply, "settle": moved_primaries(reply.get("settle") or [])})

    controller.messages_of = messages_of  # type: ignore[method-assign]
