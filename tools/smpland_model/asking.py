"""The lines that ask, and change nothing."""
from __future__ import annotations

from collections.abc import Callable
from typing import Any

from driving_model import replies
from driving_model.cells import SECONDARY, Verb
from driving_model.controller import Answer
from driving_model.messages import MAP, Order
from driving_model.record import PlanState, Record, StreamState
from smpland_model.audits import Audit
from smpland_model.controller import NamedController, refuse
from smpland_model.history import History
from smpland_model.messages import Writer, hexadecimal
from smpland_model.planning import Planner
from smplan.model import Move, plan_of

Json = dict[str, Any]


class Asking:
    """Answers the lines that ask."""

    def __init__(
        self, controller: NamedController, writer: Writer, history: History, read_inside: Callable[[Json], None],
        program: str | None,
    ) -> None:
        self.controller, self.writer, self.history, self.read_inside = controller, writer, history, read_inside
        self.audits = Audit(controller, writer, history)
        self.planner = Planner(controller, program)
        self.answers: dict[str, Callable[[Json], Json]] = {
            "hello": self.hello, "orders": self.orders, "map": self.map, "document": self.document,
            "state": self.state, "moves": self.moves, "drain": self.drain, "check": self.check, "since": self.since, "audit": self.audit,
            "failed": self.failed,
        }

    @property
    def record(self) -> Record:
        """What is recorded; refuses if nothing was opened yet."""
        if self.controller.record is None:
            raise refuse("Reopening" if self.controller.reopening else "NotOpened")
        return self.controller.record

    def hello(self, _command: Json) -> Json:
        """Tells who answers, and how far its journal is."""
        controller = self.controller
        epoch = None if controller.record is None else controller.epoch
        return {"hello": {
            "program": "smpland", "format": 3, "journal": hexadecimal(controller.journal), "epoch": epoch,
            "place": self.history.place,
        }}

    def orders(self, _command: Json) -> Json:
        """Tells the present orders, and what a reopening waits for."""
        controller, writer = self.controller, self.writer
        told: Json = {"orders": writer.orders(controller.orders()), "fence": [], "settle": [], "notice": []}
        reopening = controller.reopening
        if reopening is None:
            told["notice"] = [
                {"server": writer.server(it), "journal": hexadecimal(controller.journal), "fence": controller.fence}
                for it in sorted(controller.carried)
            ]
        elif reopening.settles:
            told["settle"] = [writer.settle(it) for it in reopening.settles if it.server in reopening.unsettled]
        else:
            told["fence"] = [writer.fence(it) for it in controller.fences() if it.server in reopening.missing]
        return told

    # The placement and the plans.

    def map(self, _command: Json) -> Json:
        """Tells the published map as it is recorded."""
        record, writer = self.record, self.writer
        return {"map": [
            {
                "shard": writer.shard(it), "to": writer.server(record.listed[it]),
                "version": self.controller.base + record.versions[it],
            }
            for it in self.shards()
        ]}

    def document(self, _command: Json) -> Json:
        """Tells the service as a document."""
        record = self.record
        servers = [self.documented_server(it) for it in self.servers()]
        shards = [self.documented_shard(it) for it in self.shards()]
        limit, log = record.limit, record.document.log
        return {"document": {"limit": limit, "log": log, "servers": servers, "shards": shards}}

    def documented_server(self, number: int) -> Json:
        """Tells a server as a document has it."""
        row = self.controller.document.servers[self.writer.server(number)]
        return {"name": row.name, "region": row.region, "room": row.room, "down": number in self.record.permits}

    def documented_shard(self, number: int) -> Json:
        """Tells a shard as a document has it. In a handover one server has it, and the map's entry counts if it names that."""
        row, owner = self.controller.document.shards[self.writer.shard(number)], self.writer.owner(number)
        roles = {it: self.controller.cell(number, it) for it in self.servers()}
        cells = [
            {"server": self.writer.server(it), "state": "primary" if it == owner else "secondary"}
            for it, cell in roles.items() if it == owner or cell == SECONDARY
        ]
        listed = self.record.listed[number]
        return {
            "name": row.name, "load": row.load, "want": row.want, "cap": row.want - self.record.floors[number],
            "spread": row.spread, "listed": self.writer.server(listed) if listed == owner else None, "cells": cells,
        }

    def shards(self) -> list[int]:
        """Returns the numbers of the recorded shards, in the order of the document in force."""
        return [self.controller.numbering.shard_numbers[it] for it in self.controller.document.shards]

    def servers(self) -> list[int]:
        """Returns the numbers of the recorded servers, in the order of the document in force."""
        return [self.controller.numbering.server_numbers[it] for it in self.controller.document.servers]

    def state(self, command: Json) -> Json:
        """Tells all that is recorded, or one shard, or one plan."""
        if "shard" in command:
            self.record
            return {"state": {"shard": self.shard(self.controller.numbering.shard_numbers[command["shard"]])}}
        if "plan" in command:
            plans = self.record.plans
            if command["plan"] >= len(plans):
                raise refuse("UnknownPlan", plan=command["plan"])
            return {"state": {"plan": self.plan(command["plan"], plans[command["plan"]])}}
        return {"state": self.whole()}

    def whole(self) -> Json:
        """Tells all that is recorded."""
        controller, record = self.controller, self.controller.record
        told = self.hello({})["hello"]
        del told["program"], told["format"]
        told |= {"fence": controller.fence, "is": self.condition()}
        if record:
            log = record.document.log
            free = record.free_places()
            told |= {
                "limit": record.limit, "log": {"places": log, "used": record.log, "free": free},
                "servers": [self.server(it) for it in self.servers()],
                "shards": [self.shard(it) for it in self.shards()],
                "plans": [self.plan(it, plan) for it, plan in enumerate(record.plans)],
            }
        if controller.reopening:
            told["reopening"] = self.reopening()
        return told

    def condition(self) -> str:
        """Tells in one word whether anything may begin."""
        if self.controller.reopening:
            return "reopening"
        return "open" if self.controller.record else "new"

    def reopening(self) -> Json:
        """Tells how far a reopening is."""
        reopening = self.controller.reopening
        waits_for = reopening.unsettled if reopening.settles else reopening.missing
        is_at = "settle" if reopening.settles else "fence" if reopening.waits_for() else "confirm"
        told: Json = {"base": reopening.base, "is": is_at, "waiting": self.writer.waiting(waits_for)}
        if is_at == "confirm":
            told["proposal"] = self.writer.proposal(reopening.propose())
        return told

    def server(self, number: int) -> Json:
        """Tells of a server its room, its load, the room that streams hold, and the permit under which it is down."""
        record, name = self.record, self.writer.server(number)
        load = record.load(number)
        held = record.document.rooms[number] - load - record.free_room(number, record.held())
        return {
            "server": name, "region": self.controller.document.servers[name].region,
            "room": record.document.rooms[number], "load": load, "held": held,
            "permit": record.permits.get(number), "carried": number in self.controller.carried,
        }

    def shard(self, number: int) -> Json:
        """Tells of a shard its cells, and its entry in the map."""
        record = self.record
        return {
            "shard": self.writer.shard(number), "load": record.document.loads[number], "live": record.live(number),
            "floor": record.floors[number], "copies": self.controller.copies[number],
            "listed": self.writer.server(record.listed[number]), "version": self.controller.base + record.versions[number],
            "cells": self.writer.row({it: self.controller.cell(number, it) for it in self.servers()}),
        }

    def plan(self, number: int, plan: PlanState) -> Json:
        """Tells of a plan how far its streams are."""
        names = [name for name, it in self.controller.begun.items()
                 if (it.epoch, it.reply.plan) == (self.controller.epoch, number)]
        streams = [self.stream(number, it, stream, plan) for it, stream in enumerate(plan.streams)]
        return {"plan": number, "name": names[0], "is": self.plan_is(plan), "streams": streams}

    @staticmethod
    def plan_is(plan: PlanState) -> str:
        """Tells in one word whether a plan goes on."""
        return "broken_off" if plan.is_broken_off else "ended" if plan.is_done else "running"

    def stream(self, plan: int, number: int, stream: StreamState, state: PlanState) -> Json:
        """Tells of a stream where it is, and what it waits for."""
        told = {"at": stream.at, "of": len(stream.stream.code)}
        if stream.is_done or state.is_broken_off:
            return told | {"is": "done" if stream.is_done else "broken_off"}
        if stream.instruction.verb is Verb.WAIT:
            return told | {"is": "waiting", "signal": stream.instruction.signal}
        return told | {"is": "ordered", "number": self.controller.base + stream.since + 1}

    # Plans that are not begun.

    def check(self, command: Json) -> Json:
        """Tells whether a plan would begin now."""
        self.controller.need_open()
        self.read_inside(command)
        plan = plan_of(command["plan"])
        self.controller.check(plan)
        return {"accepted": {"calls": plan.calls, "streams": len(plan.streams)}}

    def moves(self, command: Json) -> Json:
        """Makes a plan of moves."""
        self.controller.need_open()
        self.read_inside(command)
        return {"plan": self.planner.of_moves([Move(it["shard"], it["from"], it["to"]) for it in command["moves"]])}

    def drain(self, command: Json) -> Json:
        """Makes a plan that empties a server."""
        self.controller.need_open()
        return {"plan": self.planner.of_drain(command["server"])}

    # What happened.

    def audit(self, command: Json) -> Json:
        """Tells whether a server has what is recorded."""
        if command["place"] > self.history.place:
            return self.audits.told(command, "later")
        self.controller.need_open()
        self.read_inside(command)
        return self.audits.audit(command)

    def since(self, command: Json) -> Json:
        """Tells what was ordered, published and ended after a place."""
        record, place, history = self.record, command["place"], self.history
        if place > history.place:
            return {"since": {"place": history.place, "is": "later"}}
        orders = [it for it in self.controller.orders() if history.ordered[it.plan, it.stream] > place]
        shards = [it for it in self.map({})["map"] if history.published.get(it["shard"], 0) > place]
        ended = [it for it, at in sorted(history.ended.items()) if at > place and it < len(record.plans)]
        return {"since": {
            "place": history.place, "orders": self.writer.orders(orders), "published": shards, "ended": ended,
        }}

    def failed(self, command: Json) -> Json:
        """Tells what is to be done about a present order that its server did not take."""
        order = self.present(command)
        answer = command["answer"]
        server = order.server if isinstance(order, Order) else MAP
        restore = self.controller.restores.get(server)
        if answer == "not_ready" and restore is not None and restore.base >= self.controller.base:
            return {"failed": {"cause": "unknown", "then": "restore", "nonce": hexadecimal(restore.nonce)}}
        causes = {
            "old": ("ahead", "audit"), "refused": ("differs", "audit"), "foreign": ("foreign", "reopen"),
            "not_ready": ("unknown", "reopen"),
        }
        cause, then = causes[answer]
        return {"failed": {"cause": cause, "then": then}}

    def present(self, command: Json) -> Any:
        """Returns the present order that a line names."""
        controller = self.controller
        plan, stream, number = command["plan"], command["stream"], command["number"]
        if controller.reopening:
            raise Answer(replies.Ignored("old"))
        plans = controller.need_open().plans
        if plan >= len(plans) or stream >= len(plans[plan].streams):
            raise Answer(replies.Ignored("unknown"))
        state = plans[plan].streams[stream]
        due = controller.base + state.since + 1
        order = controller.order(plan, stream)
        if state.is_done or number < due:
            raise Answer(replies.Ignored("old"))
        if order is None or number > due:
            raise Answer(replies.Ignored("unknown"))
        return order
