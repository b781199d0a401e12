"""The laws, each a function that says what it found against itself, or None.

Those of `STANDING` hold after every event. The others are looked at where they may be broken, by the world.
"""
from __future__ import annotations

from collections.abc import Callable
from typing import TYPE_CHECKING

from .cells import ABSENT, Kind, is_live, led, serving
from .commands import Approve, Begin, Command
from .decisions import leave_fault, plan_fault
from .messages import Order
from .record import Record
from .replies import Approved, Begun, Reply

if TYPE_CHECKING:
    from .world import Host, World


class Violation(Exception):
    """A law is broken: its name, and what was found."""

    def __init__(self, law: str, found: str) -> None:
        super().__init__(f"{law}: {found}")
        self.law, self.found = law, found


class Sight:
    """What the standing laws look at: the world, each shard's cells, and who serves it."""

    def __init__(self, world: World) -> None:
        self.world = world
        self.rows = [world.row(it) for it in world.shards]
        self.serving = [serving(it) for it in self.rows]


def one_serves(sight: Sight) -> str | None:
    """At most one server serves a shard."""
    for shard, servers in enumerate(sight.serving):
        if len(servers) > 1:
            return f"shard {shard} is served by {servers}: {sight.rows[shard]}"
    return None


def writes_stay(sight: Sight) -> str | None:
    """A primary has every acknowledged write, but for those that were lost with all who had them."""
    world = sight.world
    for shard, servers in enumerate(sight.serving):
        for server in servers:
            missing = world.writes.acknowledged[shard].difference(world.hosts[server].data[shard])
            if missing and sight.rows[shard][server].kind is Kind.PRIMARY:
                return f"shard {shard}: the primary {server} has not the acknowledged writes {sorted(missing)}"
    return None


def map_names_who_serves(sight: Sight) -> str | None:
    """Whom the map names serves the shard, forwards to the one that does, or is fenced, or the map's owner is."""
    world = sight.world
    if world.map_owner.is_fenced:
        return None
    for shard, entry in enumerate(world.map_owner.entries):
        named, row, servers = entry.server, sight.rows[shard], sight.serving[shard]
        if named is None or not servers or not world.hosts[named].is_up or world.hosts[named].server.is_fenced:
            continue
        forwards = row[named].kind is Kind.FORWARDING and row[named].party in servers
        if named not in servers and not forwards:
            return f"the map names server {named} for shard {shard}, which has {row[named]}; {servers} serve"
    return None


def map_never_goes_back(sight: Sight) -> str | None:
    """An entry of the map changes to a greater version alone."""
    world = sight.world
    for shard, entry in enumerate(world.map_owner.entries):
        shown = world.shown[shard]
        if entry != shown and entry.version <= shown.version:
            return f"the map of shard {shard} goes from {shown} to {entry}"
    world.shown = list(world.map_owner.entries)
    return None


def floors_are_kept(sight: Sight) -> str | None:
    """A shard has no fewer live replicas than its floor, if only servers that are recorded down forget."""
    world, controller = sight.world, sight.world.controller
    if world.are_floors_excused or not controller.is_open:
        return None
    down = controller.record.permits
    counted = [it.number for it in world.hosts if it.number not in down and not world.is_away(it)]
    for shard, row in enumerate(sight.rows):
        live = sum(is_live(row, it) for it in counted)
        if live < controller.record.floors[shard]:
            return f"shard {shard} has {live} of {controller.record.floors[shard]} replicas: {row}, down {sorted(down)}"
    return None


def servers_have_what_is_recorded(sight: Sight) -> str | None:
    """A server has what is recorded, or what its present order makes of it."""
    world, controller = sight.world, sight.world.controller
    if not controller.is_open:
        return None
    orders = {(it.shard, it.server): it for it in controller.orders() if isinstance(it, Order)}
    for number in controller.record.document.servers:
        host = world.hosts[number]
        if not host.is_up or host.server.base < controller.fence:
            continue
        for shard, slot in enumerate(host.server.slots):
            recorded, order = controller.cell(shard, number), orders.get((shard, number))
            if slot.cell != recorded and not (
                order and order.number == slot.last and led(recorded, order.call) == slot.cell
            ):
                return f"server {number} has {slot.cell} of shard {shard}, recorded is {recorded}"
    return None


def loads_fit(sight: Sight) -> str | None:
    """A server's load is within its room."""
    world = sight.world
    for number, room in enumerate(world.rooms):
        load = sum(world.loads[it] for it, row in enumerate(sight.rows) if row[number] != ABSENT)
        if load > room:
            return f"server {number} has a load of {load}"
    return None


def log_fits(sight: Sight) -> str | None:
    """What was begun finds its places in the log."""
    controller = sight.world.controller
    if controller.is_open and controller.record.free_places() < 0:
        return f"the log has {controller.record.free_places()} free places"
    return None


STANDING: tuple[Callable[[Sight], str | None], ...] = (
    one_serves, writes_stay, map_names_who_serves, map_never_goes_back, floors_are_kept,
    servers_have_what_is_recorded, loads_fit, log_fits,
)


def check_standing(sight: Sight) -> None:
    """Raises the first law that is broken."""
    for law in STANDING:
        found = law(sight)
        if found:
            raise Violation(law.__name__, found)


def executes_where_it_serves(world: World, host: Host, shard: int, act: str) -> None:
    """A request is executed at the one serving server, from its start to its end."""
    servers = serving(world.row(shard))
    cell = host.cell(shard)
    others = [it for it in servers if it != host.number]
    # (a prepared server whose party has forgotten may end what was passed on to it)
    is_left = cell.kind is Kind.PREPARED and not world.hosts[cell.party].is_up
    if others or (not servers and not is_left):
        raise Violation("executes_where_it_serves", f"server {host.number} {act} of shard {shard}, {servers} serve")


def one_list_of_writes(world: World, host: Host, shard: int, write: int) -> None:
    """Each write is executed upon the whole list of those before it."""
    executed = world.writes.history[shard]
    if host.data[shard] != executed:
        found = f"server {host.number} executes write {write} of shard {shard} upon {host.data[shard]}, not {executed}"
        raise Violation("one_list_of_writes", found)


def no_order_is_refused(order: Order, host: Host) -> None:
    """No server refuses an order of its journal."""
    found = f"server {host.number} refuses {order.call} of shard {order.shard}: it has {host.cell(order.shard)}"
    raise Violation("no_order_is_refused", found)


def present_orders_are_not_old(order: Order, judgement: str) -> None:
    """No server turns a present order away as old or foreign."""
    found = f"server {order.server} turns the present order {order.number} {order.call} away as {judgement}"
    raise Violation("present_orders_are_not_old", found)


def one_loss_loses_nothing(world: World, server: int, shard: int, writes: set[int]) -> None:
    """What is acknowledged is at two servers, if there is a second one that has to have it."""
    row = world.row(shard)
    others = [
        it for it, cell in enumerate(row) if it != server
        and (cell.kind is Kind.SECONDARY or (cell.kind is Kind.FORWARDING and cell.party == server))
    ]
    alone = [it for it in sorted(writes) if not any(it in world.hosts[other].data[shard] for other in others)]
    if others and alone:
        found = f"writes {alone} of shard {shard} are acknowledged, and {others} lack them"
        raise Violation("one_loss_loses_nothing", found)


def effect_once(world: World, order: Order) -> None:
    """An order has its effect once."""
    key = (order.journal, order.number, order.server, order.shard)
    if key in world.effects:
        raise Violation("effect_once", f"order {order.number} of shard {order.shard} has its effect twice")
    world.effects.add(key)


def permit_once(world: World, permit: int) -> None:
    """A permit ends one restart."""
    if permit in world.ended_permits:
        raise Violation("permit_once", f"permit {permit} ends a second restart")
    world.ended_permits.add(permit)


def own_steps_are_made(world: World) -> None:
    """After each command no unfinished stream stands before a local step."""
    controller = world.controller
    for plan, number, stream in controller.record.running() if controller.is_open else ():
        if controller.goes_by_itself(controller.record.plans[plan], stream):
            raise Violation("own_steps_are_made", f"stream {number} of plan {plan} stands before {stream.instruction}")


def name_once(world: World, reply: Reply, command: Command) -> None:
    """A name of this epoch or of the one before begins nothing again, nor does a `by`."""
    if not isinstance(reply, (Begun, Approved)):
        return
    name = command.name if isinstance(command, Begin) else f"by {command.by}"
    before, controller = world.names.get(name), world.controller
    if before in (controller.epoch, controller.epoch_before) and world.journals == 1:
        found = f"{name} was given in epoch {before}, and gets {reply} in epoch {controller.epoch}"
        raise Violation("name_once", found)
    world.names[name] = controller.epoch


def record_ahead(world: World) -> Record:
    """The record in which each order that has had its effect is answered."""
    controller, record = world.controller, world.controller.record.copy()
    for order in controller.orders():
        if isinstance(order, Order):
            had_effect = (order.journal, order.number, order.server, order.shard) in world.effects
        else:
            had_effect = world.map_owner.entries[order.shard].version >= order.version
        if had_effect:
            plan = record.plans[order.plan]
            record.step(plan, plan.streams[order.stream])
    return record


def decisions_are_right(world: World, command: Command) -> None:
    """An approval gets the same answer, and a start is accepted alike, on the record and on what servers have."""
    controller = world.controller
    if not controller.is_open or not isinstance(command, (Begin, Approve)):
        return
    records = (controller.record, record_ahead(world))
    if isinstance(command, Begin):
        recorded, ahead = (plan_fault(it, command.plan) for it in records)
        is_alike = (recorded is None) == (ahead is None)
    else:
        recorded, ahead = (leave_fault(it, command.server) for it in records)
        is_alike = recorded == ahead
    if not is_alike:
        raise Violation("decisions_are_right", f"{command} gets {recorded} on the record, {ahead} on what servers have")


def one_primary_is_told(world: World) -> None:
    """Of the inventories of a reopening at most one has a shard as primary."""
    reopening = world.controller.reopening
    if reopening is None or reopening.waits_for():
        return
    for shard in world.shards:
        survey = reopening.survey(shard)
        told = sorted(it for it in survey.sure | survey.silent if survey.row[it].kind is Kind.PRIMARY)
        if len(told) > 1:
            raise Violation("one_primary_is_told", f"servers {told} tell that they are primary of shard {shard}")
