"""A fair end, as in `driving_model`; copies come, words and questions too."""
from __future__ import annotations

from driving_model.cells import Verb
from driving_model.fair import MOST_TURNS, ask_and_return, check_end, go_on, is_done
from driving_model.fair import needs_reopening as may_need_reopening
from driving_model.laws import Violation

from .messages import Order
from .operations import Operator
from .world import World


def finish_all(world: World, operator: Operator) -> None:
    """Makes fair turns until all is done."""
    world.say("--- from here on all is fair")
    world.is_fair = True
    for host in world.hosts:
        if not host.is_alive and not host.is_lost:
            host.start()
        if host.is_cut_off:
            world.reconnect(host)
    idle = reopened = 0
    for _ in range(MOST_TURNS):
        before = fingerprint(world)
        make_turn(world, operator)
        idle = idle + 1 if fingerprint(world) == before else 0
        if idle < 4:
            continue
        if is_done(world) and not is_down(world):
            check_end(world)
            return
        if reopened == 3 or not needs_reopening(world):
            raise Violation("all_ends", f"nothing goes on: {world.controller.outgoing()[:4]}")
        idle, reopened = 0, reopened + 1
        operator.reopen(is_plain=True)
    raise Violation("all_ends", f"not all has ended after {MOST_TURNS} fair turns")


def fingerprint(world: World) -> tuple:
    """What a turn may change."""
    servers = [(it.is_known, it.base, it.is_fenced, repr(it.slots)) for it in (host.server for host in world.hosts)]
    copies = [[(at.copy.all, at.copy.part and at.copy.part.position) for at in it.at] for it in world.hosts]
    return len(world.journal), servers, repr(copies)


def make_turn(world: World, operator: Operator) -> None:
    """Everything that may come comes."""
    for message in world.controller.outgoing():
        world.deliver(message, is_eager=world.random.random() < 0.5)
        world.check()
    for host in world.hosts:
        for write in [] if host.is_lost else list(host.running):
            world.finish(host, write)
        world.check()
    for seal in world.writes.seals[-8:]:
        world.deliver_seal(seal)
    for shard in world.shards:
        for host in world.hosts:
            world.ask(host, shard)
        for _ in range(4):
            world.follow(shard)
        world.acknowledge(shard)
        world.raise_copies(shard)
    for host in world.hosts:
        for order in list(host.workers):
            world.ask(host, order.shard)
            world.work(host, order)
            world.check()
    answers = [*world.network.answers.items[-40:], *world.network.copied[-8:]]
    for answer in answers:
        world.do(answer)
        world.check()
    ask_and_return(world)
    go_on(world, operator)
    world.check()


def needs_reopening(world: World) -> bool:
    """A reopening is what may help: also where a `change` or a server that is down waits for a copy that is lost."""
    if may_need_reopening(world) or is_down(world):
        return True
    orders = [it for it in world.controller.outgoing() if isinstance(it, Order)]
    if any(it.call.verb is Verb.CHANGE for it in orders):
        world.coverage["a change waits for a reopening"] += 1
        return True
    if world.rules.is_built and any(it.call.verb is Verb.DROP and it.terms.primary is None for it in orders):
        # (without a primary nobody of a view of this epoch gets leave)
        world.coverage["a drop waits for a reopening"] += 1
        return True
    return False


def is_down(world: World) -> bool:
    """A recorded server that is there is recorded down."""
    record = world.controller.record
    return record is not None and any(not world.hosts[it].is_lost for it in record.permits)
