"""What a controller serves over HTTP, for operators and for scrapers: lines, outstanding messages, figures."""
from __future__ import annotations

import json
from typing import Any, Awaitable, Dict

from .control import ASKING, Controller, Line, Outgoing, SessionEnded, StoreLost, StoreRefused
from .control_http import Page, Route
from .control_metrics import metrics_of


def told_of(kind: str, outgoing: Outgoing) -> Dict[str, Any]:
    """Returns what is told of a message that is not answered."""
    return {"kind": kind, "message": outgoing.message, "age": outgoing.age, "tries": outgoing.tries, "said": outgoing.said}


def line_of(body: bytes) -> Line:
    """Reads the line that a request brings."""
    try:
        line = json.loads(body)
    except RecursionError:
        raise ValueError("the line is too deep") from None
    if not isinstance(line, dict):
        raise ValueError("a line is one JSON object")
    return line


def routes_of(controller: Controller) -> Dict[str, Route]:
    """Returns the routes: `POST /do` stores and feeds a line, `POST /ask` feeds one that only asks, `POST /restarted` ends a restart, `{"permit":7}`."""
    async def told(doing: Awaitable[Line]) -> Page:
        try:
            return Page.of(await doing)
        except StoreRefused as why:
            return Page.of({"fault": str(why)}, 413)
        except (StoreLost, SessionEnded) as why:
            return Page.of({"fault": str(why)}, 409)

    async def do(body: bytes) -> Page:
        try:
            return await told(controller.do(line_of(body)))
        except ValueError as why:
            return Page.of({"fault": str(why)}, 400)

    async def restarted(body: bytes) -> Page:
        try:
            return await told(controller.restarted(line_of(body)["permit"]))
        except (ValueError, KeyError) as why:
            return Page.of({"fault": f"this is no permit: {why}"}, 400)

    async def ask(body: bytes) -> Page:
        try:
            line = line_of(body)
            if line.get("do") not in ASKING:
                return Page.of({"fault": "this line may change something: POST /do"}, 400)
            return Page.of(await controller.ask(line))
        except SessionEnded as why:
            return Page.of({"fault": str(why)}, 503)
        except ValueError as why:
            return Page.of({"fault": str(why)}, 400)

    async def outgoing(_: bytes) -> Page:
        return Page.of([told_of(key[0], it) for key, it in controller.outgoing.items()])

    async def metrics(_: bytes) -> Page:
        return Page((await metrics_of(controller)).encode(), "text/plain; version=0.0.4; charset=utf-8")

    return {"POST /do": do, "POST /ask": ask, "POST /restarted": restarted, "GET /outgoing": outgoing, "GET /metrics": metrics}
