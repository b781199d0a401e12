"""`export kafka`: a plan as batches for `kafka-reassign-partitions`."""
from __future__ import annotations

import argparse
import json
import re
from dataclasses import dataclass
from pathlib import Path
from typing import Any, Dict, List, Tuple

from .failure import Failure
from .files import name_of, read_document
from .model import CALLS, Document, Instruction, Json, Plan, Spot

ADDS = ("add", "prepare_add")


@dataclass(frozen=True)
class Replicas:
    """A shard's replicas, the primary's server first, as Kafka lists its preferred leader."""

    servers: Tuple[str, ...]


@dataclass(frozen=True)
class Step:
    """A call of a plan, and the batch that it falls into."""

    batch: int
    call: Instruction


# ---- which calls may go beside each other

def befores(plan: Plan) -> Dict[Spot, List[Spot]]:
    """Returns for each instruction those right before it: the one above it in its stream, and for a wait who posts its signal."""
    found: Dict[Spot, List[Spot]] = {}
    for number, stream in enumerate(plan.streams):
        for position, it in enumerate(stream.code):
            above = [Spot(number, position - 1)] if position else []
            found[Spot(number, position)] = above + (plan.spots("signal", it.signal) if it.do == "wait" else [])
    return found


def steps(plan: Plan) -> List[Step]:
    """Returns the calls of a plan in an order that it allows. A replica that is added behind one that was dropped belongs to the next batch: its room, or
    the number of replicas, may come from there."""
    before = befores(plan)
    halves: Dict[Spot, int] = {}
    found: List[Step] = []
    while len(halves) < len(before):
        ready = [it for it, those in before.items() if it not in halves and all(one in halves for one in those)]
        if not ready:
            raise Failure("the streams of this plan wait for each other; 'smplan check' says where", 1)
        for spot in ready:
            it, half = plan.at(spot), max((halves[one] for one in before[spot]), default=0)
            half += half % 2 if it.do in ADDS else 1 - half % 2 if it.do == "drop" else 0
            halves[spot] = half
            found += [Step(half // 2, it)] if it.do in CALLS else []
    return sorted(found, key=lambda it: it.batch)


def after(replicas: Replicas, call: Instruction) -> Replicas:
    """Returns a shard's replicas after a call; a new primary, as of a handover, comes first."""
    others = tuple(it for it in replicas.servers if it != call.server)
    if call.do == "drop":
        return Replicas(others)
    is_primary = call.role == "primary"
    if call.do in ("add", "change") and is_primary:
        return Replicas((call.server, *others))
    return Replicas((*others, call.server)) if call.do == "add" else replicas


def batches(document: Document, plan: Plan) -> List[Dict[str, Replicas]]:
    """Returns for each batch the partitions that change, with their replicas after it."""
    now = {name: Replicas(tuple(it.server for it in sorted(shard.cells, key=lambda it: it.state))) for name, shard in document.shards.items()}
    found: List[Dict[str, Replicas]] = []
    before = dict(now)
    for number in range(1 + max((it.batch for it in steps(plan)), default=-1)):
        for step in (it for it in steps(plan) if it.batch == number):
            now[step.call.shard] = after(now[step.call.shard], step.call)
        changed = {name: it for name, it in now.items() if it != before[name]}
        found += [changed] if changed else []
        before = dict(now)
    return found


# ---- as Kafka reads it

def broker(server: str) -> int:
    """Returns a broker's id: the digits at the end of its server's name."""
    digits = re.search(r"[0-9]+$", server)
    if not digits:
        raise Failure(f"the name of the server {server} does not end with a broker's id")
    return int(digits[0])


def brokers(document: Document) -> Dict[str, int]:
    """Returns each server's id; no two have the same."""
    found: Dict[str, int] = {}
    for name in document.servers:
        same = [it for it, number in found.items() if number == broker(name)]
        if same:
            raise Failure(f"the servers {same[0]} and {name} would both be broker {broker(name)}")
        found[name] = broker(name)
    return found


def partition(shard: str) -> Tuple[str, int]:
    """Returns a shard's topic and the number of its partition, as in `orders-0`."""
    topic, _, number = shard.rpartition("-")
    if not topic or not number.isdecimal():
        raise Failure(f"the shard {shard} is not named TOPIC-PARTITION")
    return topic, int(number)


def reassignment(batch: Dict[str, Replicas], ids: Dict[str, int]) -> Json:
    """Returns a batch as Kafka reads it."""
    rows = []
    for shard, replicas in batch.items():
        topic, number = partition(shard)
        rows.append({"topic": topic, "partition": number, "replicas": [ids[it] for it in replicas.servers]})
    return {"version": 1, "partitions": rows}


def export(arguments: argparse.Namespace) -> int:
    document = read_document(arguments.document)
    if document.plan is None:
        raise Failure(f"{name_of(arguments.document)} has no plan; 'smplan plan' makes one, and 'smplan-tools put-plan' puts it in", 1)
    ids = brokers(document)
    texts = [json.dumps(reassignment(it, ids)) for it in batches(document, document.plan)]
    if arguments.folder is None:
        print("\n".join(texts) if texts else "nothing is to be moved")
        return 0
    for number, text in enumerate(texts, 1):
        path = Path(arguments.folder) / f"batch-{number}.json"
        try:
            path.write_text(text + "\n", encoding="utf-8")
        except OSError as why:
            raise Failure(f"{path}: {why.strerror}") from None
        print(path)
    return 0


def add_parser(subparsers: Any) -> None:
    """Adds the command `export`."""
    parser = subparsers.add_parser("export", help="print a plan for another system", description="Prints a plan for another system.")
    systems = parser.add_subparsers(metavar="SYSTEM", required=True)
    kafka = systems.add_parser(
        "kafka", help="batches for kafka-reassign-partitions",
        epilog="example: smplan-tools export kafka --folder batches drain.json",
        description="Prints batches for 'kafka-reassign-partitions --execute', each to be begun once '--verify' says that the one before is complete. Shards "
        "are named TOPIC-PARTITION, and a server's name ends with its broker's id.",
    )
    kafka.add_argument("--folder", metavar="FOLDER", help="write the batches there, as batch-1.json and so on (a line each, to standard output)")
    kafka.add_argument("document", nargs="?", default="-", metavar="DOCUMENT", help="a document with a plan (standard input)")
    kafka.set_defaults(run=export)
