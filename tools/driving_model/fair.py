"""A fair end: everything comes, all work is done, and whoever is Unknown is restored, until nothing is left to do.

Then all plans have ended, no server is Unknown or fenced for ever, and servers and map have what is recorded.
"""
from __future__ import annotations

from . import commands
from .laws import Violation
from .operations import Operator
from .world import World

MOST_TURNS = 400


def finish_all(world: World, operator: Operator) -> None:
    """Makes fair turns until all is done."""
    world.say("--- from here on all is fair")
    for host in world.hosts:
        if not host.is_alive and not host.is_lost:
            host.start()
    idle = reopened = 0
    for _ in range(MOST_TURNS):
        before = fingerprint(world)
        make_turn(world, operator)
        idle = idle + 1 if fingerprint(world) == before else 0
        if idle < 4:
            continue
        if is_done(world):
            check_end(world)
            return
        if reopened == 3 or not needs_reopening(world):
            raise Violation("all_ends", f"nothing goes on: {world.controller.outgoing()[:4]}")
        idle, reopened = 0, reopened + 1
        operator.reopen(is_plain=True)
    raise Violation("all_ends", f"not all has ended after {MOST_TURNS} fair turns")


def fingerprint(world: World) -> tuple:
    """What a turn may change."""
    servers = [(it.is_known, it.base, it.is_fenced, repr(it.slots)) for it in (host.server for host in world.hosts)]
    return len(world.journal), servers, repr([it.data for it in world.hosts])


def make_turn(world: World, operator: Operator) -> None:
    """Everything that may come comes."""
    for message in world.controller.outgoing():
        world.deliver(message, is_eager=world.random.random() < 0.5)
        world.check()
    for host in world.hosts:
        for write in [] if host.is_lost else list(host.running):
            world.finish(host, write)
        world.check()
    for seal in world.writes.seals[-8:]:
        world.deliver_seal(seal)
    for shard in world.shards:
        for _ in range(4):
            world.follow(shard)
    for host in world.hosts:
        for order in list(host.workers):
            world.work(host, order)
            world.check()
    for answer in world.network.answers.items[-40:]:
        world.do(answer)
        world.check()
    ask_and_return(world)
    go_on(world, operator)
    world.check()


def ask_and_return(world: World) -> None:
    """Whoever is Unknown asks, and whoever is recorded down is called up."""
    for host in world.hosts:
        if not host.is_lost and not host.server.is_known:
            world.do(host.ask())
    record = world.controller.record
    for server, permit in sorted(record.permits.items()) if record and world.controller.is_open else ():
        if world.hosts[server].is_up:
            world.do(world.hosts[server].restarted(permit))


def go_on(world: World, operator: Operator) -> None:
    """The reopening under way goes on."""
    if world.controller.reopening is None:
        return
    for answer in list(world.network.inventories.items):
        world.do(answer)
    reopening = world.controller.reopening
    if reopening and not reopening.settles and not reopening.missing and not operator.confirm(False):
        operator.confirm(False)
    for answer in list(world.network.settlements.items):
        world.do(answer)


def needs_reopening(world: World) -> bool:
    """A reopening under way is stuck, a recorded server is lost, or one is Unknown."""
    record = world.controller.record
    if world.controller.reopening or record is None:
        return True
    return any(not it.is_up for it in world.hosts if it.number in record.document.servers or not it.is_lost)


def is_done(world: World) -> bool:
    """No reopening is under way, no plan is running, and no recorded server is Unknown."""
    controller = world.controller
    if not controller.is_open or any(True for _ in controller.record.running()):
        return False
    recorded = (world.hosts[it] for it in controller.record.document.servers)
    return all(it.server.is_known for it in recorded if not it.is_lost)


def check_end(world: World) -> None:
    """At the end nobody is fenced or down for ever, and servers and map have what is recorded."""
    controller = world.controller
    for number in sorted(controller.record.document.servers):
        host = world.hosts[number]
        if host.is_lost:
            continue
        if host.server.is_fenced and world.rules.journal_named:
            raise Violation("all_ends", f"server {number} stays fenced at {host.server.base}")
        if number in controller.record.permits:
            raise Violation("all_ends", f"the restart of server {number} cannot be ended")
        for shard, slot in enumerate(host.server.slots):
            recorded = controller.cell(shard, number)
            if host.server.base >= controller.fence and slot.cell != recorded:
                found = f"server {number} has {slot.cell} of shard {shard}, recorded is {recorded}"
                raise Violation("the_end_is_recorded", found)
    for shard, entry in enumerate(world.map_owner.entries):
        listed = controller.record.listed[shard]
        if not world.map_owner.is_fenced and entry.server != listed and world.rules.publication_awaited:
            found = f"the map names {entry.server} for shard {shard}, recorded is {listed}"
            raise Violation("the_end_is_recorded", found)
