"""`python3 -m cluster.controllers`: one controller process."""
from __future__ import annotations

import argparse
import asyncio
import json
import shlex
import time

from smplan.control import Pace
from smplan.control_http import Page, Route, serve
from smplan.control_metrics import metric, metrics_of
from smplan.control_serve import routes_of

from cluster.wire import Address, Cluster, listen

from .member import Member, Settings
from .page import figures_of, page


def arguments() -> argparse.Namespace:
    """Reads the command line."""
    parser = argparse.ArgumentParser(prog="cluster.controllers", description="A controller of the cluster, which leads or follows.")
    parser.add_argument("--name", required=True)
    parser.add_argument("--cluster", required=True, metavar="FILE", help="where everybody is")
    parser.add_argument("--program", default="smpland -", help="the session's command line")
    parser.add_argument("--listen", required=True, metavar="HOST:PORT", help="where servers ask for their slots")
    parser.add_argument("--http", required=True, metavar="HOST:PORT", help="where the page and the operators' lines are served")
    parser.add_argument("--lease", type=int, default=2, metavar="SECONDS")
    parser.add_argument("--timeout", type=float, default=5.0, metavar="SECONDS", help="how long an order may take before it is sent again")
    parser.add_argument("--confirm", action="store_true", help="confirm what a reopening proposes")
    parser.add_argument("--bug", action="append", default=[], help="plant a bug, for the checkers' own test")
    return parser.parse_args()


def routes(member: Member) -> dict[str, Route]:
    """What is served over HTTP."""
    async def state(_: bytes) -> Page:
        return Page.of(await figures_of(member))

    async def leads(_: bytes) -> Page:
        return Page.of({"name": member.settings.name, "leads": member.leads})

    async def off(body: bytes) -> Page:
        try:
            names = json.loads(body)["servers"]
        except (ValueError, KeyError, TypeError) as why:
            return Page.of({"fault": f"these are no servers: {why}"}, 400)
        if not member.leads:
            return Page.of({"fault": "this controller does not lead"}, 409)
        member.controller.given_up.off |= set(names)
        return Page.of({"off": sorted(member.controller.given_up.off)})

    async def metrics(_: bytes) -> Page:
        samples = [({"about": it.about, "what": it.what}, time.monotonic() - it.since) for it in member.alarms.now()]
        alarms = metric("alarm_seconds", "gauge", "for how long something is wrong", samples)
        return Page(("\n".join(alarms) + "\n" + await metrics_of(member.controller)).encode(), "text/plain; version=0.0.4; charset=utf-8")

    async def front(_: bytes) -> Page:
        return Page(page().encode(), "text/html; charset=utf-8")

    assert member.controller is not None
    return {**routes_of(member.controller), "GET /state": state, "GET /leads": leads, "GET /metrics": metrics, "POST /off": off, "GET /": front}


async def run(told: argparse.Namespace) -> None:
    """Runs the process."""
    started = time.monotonic()

    def log(text: str) -> None:
        print(f"{time.monotonic() - started:8.3f} {told.name} {text}", flush=True)

    settings = Settings(
        told.name, tuple(shlex.split(told.program)), Cluster.read(told.cluster), told.lease,
        pace=Pace(timeout=told.timeout), confirm=told.confirm, bugs=frozenset(told.bug), log=log,
    )
    member = Member(settings)
    http = Address.of(told.http)
    await member.start()
    await serve(http.host, http.port, routes(member))
    await listen(Address.of(told.listen), member.answer)
    print("ready", flush=True)
    await member.run()


if __name__ == "__main__":
    asyncio.run(run(arguments()))
