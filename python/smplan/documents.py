"""`put-plan` and `next`: from a plan or a report back to a document."""
import argparse
import json
from typing import Any, Dict

from .failure import Failure
from .faults import answered
from .files import document_from, name_of, read_bytes, read_document, read_value
from .model import Document, Json
from .reading import names_in, plan_faults
from .reports import Report, read_report

# The members that stay as they are from one document to the next.
STANDING = ("limit", "log")


def with_plan(document: Json, plan: Json) -> Json:
    """Returns a document with this plan. The plans of a list are left out, since no command takes both."""
    return {name: it for name, it in document.items() if name != "plans"} | {"plan": plan}


def put_plan(arguments: argparse.Namespace) -> int:
    value = read_value(arguments.document)
    document_from(value, arguments.document)
    plan = read_value(arguments.plan)
    fault = answered(plan_faults(plan, names_in(value), "$"))
    if fault:
        raise Failure(f"{name_of(arguments.plan)} is no plan for {name_of(arguments.document)}: {fault.place}: {fault.what}", 1)
    print(json.dumps(with_plan(value, plan), indent=2 if arguments.pretty else None))
    return 0


def under_way(report: Report) -> Dict[str, str]:
    """Returns the shards with a handover under way, each with what its servers say."""
    found = {}
    for shard in report.lists.get("shards", []):
        cells = [it for it in shard["cells"] if "other" in it]
        if cells:
            found[shard["name"]] = ", ".join(f"{it['server']} is {it['state']} {'from' if it['state'] == 'prepared' else 'to'} {it['other']}" for it in cells)
    return found


def next_document(document: Document, report: Report) -> Json:
    """Returns the document of the placement at the end of a report: its servers and shards, without plans, calls and events."""
    servers = {it["name"]: it for it in report.lists.get("servers", [])}
    shards = {it["name"]: it for it in report.lists.get("shards", [])}
    if set(servers) != set(document.servers) or set(shards) != set(document.shards):
        raise Failure("the report is of another document: its servers or shards have other names", 1)
    for name, cells in under_way(report).items():
        raise Failure(f"the shard {name} is in a handover ({cells}), for which a document has no words: end it or give it up first", 1)
    value = document.value
    now: Json = {name: value[name] for name in STANDING if name in value}
    now["servers"] = [
        {name: it for name, it in server.items() if name != "down"} | ({"down": True} if servers[server["name"]]["state"] == "down" else {})
        for server in value["servers"]
    ]
    now["shards"] = [
        shard | {"listed": shards[shard["name"]]["listed"], "cells": shards[shard["name"]]["cells"]} for shard in value["shards"]
    ]
    return now


def print_next(arguments: argparse.Namespace) -> int:
    document = read_document(arguments.document)
    report = read_report(read_bytes(arguments.report).decode(errors="replace"), arguments.report)
    if not report.has_placement and (document.servers or document.shards):
        why = f", since it says: {report.refusal}" if report.refusal else ""
        raise Failure(f"the report has no placement at its end{why}", 1)
    print(json.dumps(next_document(document, report), indent=2))
    return 0


def add_parser(subparsers: Any) -> None:
    """Adds the commands `put-plan` and `next`."""
    put = subparsers.add_parser(
        "put-plan",
        epilog="example: smplan plan < placement.json | smplan-tools put-plan placement.json | smplan check",
        help="put a plan into its document",
        description="Prints the document with the plan in it. Exit status 1: there is no plan, or it names what the document has not.",
    )
    put.add_argument("document", metavar="DOCUMENT", help="the document that the plan was made for")
    put.add_argument("plan", nargs="?", default="-", metavar="PLAN", help="what 'smplan plan' printed (standard input)")
    put.add_argument("--pretty", action="store_true", help="print a line for each member")
    put.set_defaults(run=put_plan)
    after = subparsers.add_parser(
        "next",
        epilog="example: smplan run < placement.json | smplan-tools next placement.json > next.json",
        help="print the document of the placement at the end of a report",
        description="Prints the document for the placement at the end of a report of 'calls', 'play' or 'run': the same servers and shards with their new "
        "replicas and listings, without plans, calls and events. Versions of the map, handovers and calls are numbered anew from there.",
    )
    after.add_argument("document", metavar="DOCUMENT", help="the document that the report is of")
    after.add_argument("report", nargs="?", default="-", metavar="REPORT", help="the report (standard input)")
    after.set_defaults(run=print_next)
