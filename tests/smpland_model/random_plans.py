"""Random plans over what is recorded, as lines have them, and some in which something is wrong."""
from __future__ import annotations

import random
from copy import deepcopy
from typing import Any

from driving_model.generator import PlanMaker
from smpland_model.controller import NamedController
from smpland_model.numbering import Numbering

from plain_commands import plan_json

Json = dict[str, Any]
OF_SERVERS = ("server", "other", "from", "to", "listed")


def named(value: Any, numbering: Numbering) -> Any:
    """Returns a plan in which servers and shards have their names in place of the model's."""
    if isinstance(value, list):
        return [named(it, numbering) for it in value]
    if not isinstance(value, dict):
        return value
    told = {}
    for member, it in value.items():
        if member == "shard":
            told[member] = numbering.shards[int(it[1:])]
        elif member in OF_SERVERS and isinstance(it, str) and it[1:].isdigit():
            told[member] = numbering.servers[int(it[1:])]
        else:
            told[member] = named(it, numbering)
    return told


def random_plan(controller: NamedController, dice: random.Random, is_small: bool = False) -> Json | None:
    """Returns a plan that may begin now, if one is found."""
    if is_small:
        return small_plan(controller, dice)
    begin = PlanMaker(controller, dice, dice.random() < 0.3).make("name")
    return begin and named(plan_json(begin.plan), controller.numbering)


def small_plan(controller: NamedController, dice: random.Random) -> Json | None:
    """Returns a plan that adds a secondary where there is none."""
    record, numbering = controller.record, controller.numbering
    if not numbering.shards or not numbering.servers:
        return None
    shard, server = dice.randrange(len(numbering.shards)), dice.randrange(len(numbering.servers))
    names = {"shard": numbering.shards[shard], "server": numbering.servers[server]}
    room = {"server": names["server"], "amount": record.document.loads[shard]}
    holds = {"cells": [names | {"state": "absent"}], "room": [room]}
    return {"budget": 1, "streams": [{"budget": 1, "holds": holds, "code": [{"do": "add"} | names | {"role": "secondary"}]}]}


def bent(plan: Json, dice: random.Random) -> Json:
    """Returns a plan in which something is wrong, or may be."""
    plan = deepcopy(plan)
    stream = dice.choice(plan["streams"])
    change = dice.choice(CHANGES)
    change(plan, stream, dice)
    return plan


def with_other_budget(plan: Json, stream: Json, dice: random.Random) -> None:
    """Takes from the plan's budget, or gives a stream more than all places of a log."""
    more = dice.choice([-1, 1, 70])
    stream["budget"] = max(0, stream["budget"] + more)
    plan["budget"] = max(0, plan["budget"] + dice.choice([more, 0]))


def with_lost_instruction(_plan: Json, stream: Json, dice: random.Random) -> None:
    """Leaves an instruction out."""
    if stream["code"]:
        del stream["code"][dice.randrange(len(stream["code"]))]


def with_other_order(_plan: Json, stream: Json, dice: random.Random) -> None:
    """Shuffles a stream's code."""
    dice.shuffle(stream["code"])


def with_more_rights(_plan: Json, stream: Json, dice: random.Random) -> None:
    """Asks for more room, or for spare replicas."""
    for it in stream["holds"].get("room", []):
        it["amount"] += dice.choice([1, 9])
    shards = [it["shard"] for it in stream["code"] if "shard" in it]
    if shards and dice.random() < 0.5:
        stream["holds"]["spare"] = [{"shard": shards[0], "amount": 3}]


def with_other_state(_plan: Json, stream: Json, _dice: random.Random) -> None:
    """Says that cells are what they are not."""
    for it in stream["holds"].get("cells", []):
        it["state"] = "secondary" if it["state"] == "absent" else "absent"


def with_stream_twice(plan: Json, stream: Json, _dice: random.Random) -> None:
    """Has a stream twice."""
    plan["streams"].append(stream)
    plan["budget"] += stream["budget"]


def with_signal_twice(plan: Json, stream: Json, _dice: random.Random) -> None:
    """Waits twice for a signal."""
    first = len(plan.setdefault("signals", []))
    plan["signals"].append({})
    stream["code"] += [{"do": "signal", "signal": first}, {"do": "wait", "signal": first}, {"do": "wait", "signal": first}]


def with_knot(plan: Json, stream: Json, _dice: random.Random) -> None:
    """Has two streams that wait for each other."""
    first = len(plan.setdefault("signals", []))
    plan["signals"] += [{}, {}]
    ends = [{"do": "wait", "signal": first}, {"do": "signal", "signal": first + 1}]
    stream["code"] = [ends[0], *stream["code"], ends[1]]
    other = [{"do": "wait", "signal": first + 1}, {"do": "signal", "signal": first}]
    plan["streams"].append({"budget": 0, "holds": {}, "code": other})


CHANGES = [
    with_other_budget, with_lost_instruction, with_other_order, with_more_rights, with_other_state, with_other_state,
    with_stream_twice, with_signal_twice, with_knot,
]
