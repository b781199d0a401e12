"""The laws on data, each a function that says what it found against itself, or None; and those of `driving_model`.

Only here, and where a play or a fault puts data, are writes compared: no rule does so.
"""
from __future__ import annotations

from collections.abc import Callable
from typing import TYPE_CHECKING

from driving_model import laws as driving
from driving_model.cells import ABSENT, Kind
from driving_model.laws import Sight, Violation
from driving_model.messages import MAP
from driving_model.record import primary_of

from .messages import Order

if TYPE_CHECKING:
    from .host import Host
    from .reopening import Reopening, Survey
    from .world import World


def writes_stay(sight: Sight) -> str | None:
    """A primary has every acknowledged write, but for those whose loss was named before it was confirmed."""
    return primary_lacks(sight, sight.world.writes.acknowledged, "acknowledged")


def seen_stays(sight: Sight) -> str | None:
    """What a reply has shown is with the primary, but for what was named."""
    return primary_lacks(sight, sight.world.writes.seen, "shown")


def primary_lacks(sight: Sight, writes: list[set[int]], what: str) -> str | None:
    """Some primary lacks one of these writes."""
    world = sight.world
    for shard, servers in enumerate(sight.serving):
        for server in servers:
            missing = writes[shard].difference(world.hosts[server].copy(shard).writes)
            if missing and sight.rows[shard][server].kind is Kind.PRIMARY:
                return f"shard {shard}: the primary {server} has not the writes {sorted(missing)} that were {what}"
    return None


def enough_have_it(sight: Sight) -> str | None:
    """The invariant that carries `writes_stay`: of n servers that may have acknowledged writes of a shard at most n
    less the number of copies have a whole copy that lacks one."""
    world = sight.world
    for shard in world.shards:
        writes = world.writes.acknowledged[shard]
        counted = members_and_copies(world, shard) if writes else None
        if counted is None:
            continue
        there, least = counted
        for write in writes:
            lacking = [it.number for it in there if it.has_copy(shard) and write not in it.copy(shard).writes]
            if len(lacking) > len(there) - least:
                hosts = [it.number for it in there]
                return f"write {write} of shard {shard} is to have {least} copies: {lacking} of {hosts} lack it"
    return None


def members_and_copies(world: World, shard: int) -> tuple[list[Host], int] | None:
    """Who may have acknowledged writes of a shard, and at how many of them each one is. None if its loss was named."""
    controller = world.controller
    reopening, record = controller.reopening, controller.record
    if reopening:
        members, least, firm = reopening.members_of(shard), reopening.least(shard), reopening.firm(shard)
        if reopening.settles:
            if shard in reopening.perhaps:
                return None
            least = min(least, reopening.copies[shard])
            members |= {it for it, cell in enumerate(reopening.cells[shard]) if cell != ABSENT}
            firm |= reopening.gone(shard)
    elif record:
        ordered = {it.server for it in controller.orders() if isinstance(it, Order) and it.shard == shard}
        firm = set(record.replicas(shard))
        members, least = firm | ordered, record.copies[shard]
    else:
        return None
    hosts = [world.hosts[it] for it in sorted(members)]
    return [it for it in hosts if it.number in firm or not it.is_up or it.cell(shard) != ABSENT], least


def copies_agree(sight: Sight) -> str | None:
    """The other part of the invariant: a whole copy that is a beginning of another one by views and positions is one by
    its writes, and a primary has the greatest copy of all that are there."""
    world = sight.world
    for shard in world.shards:
        having = [it for it in world.hosts if it.has_copy(shard)]
        for one in having:
            for other in having:
                mine, theirs = one.copy(shard), other.copy(shard)
                if theirs.begins_with(mine.all) and mine.writes != theirs.writes[:mine.position]:
                    return f"shard {shard}: {one.number} has {mine}, {other.number} has {theirs}"
        for server in sight.serving[shard] if having else ():
            mine = world.hosts[server].copy(shard).all
            best = max(having, key=lambda it: it.copy(shard).all)
            is_primary = sight.rows[shard][server].kind is Kind.PRIMARY
            if is_primary and (mine is None or best.copy(shard).all > mine):
                return f"shard {shard}: the primary {server} has {mine}, server {best.number} has more"
    return None


def fewer_losses_lose_nothing(sight: Sight) -> str | None:
    """An acknowledged write is at as many copies as were asked for, less those that were lost with their disks."""
    writes = sight.world.writes
    for shard in sight.world.shards:
        for write in writes.acknowledged[shard]:
            there = [it.number for it in sight.world.hosts if it.has_all(shard, {write})]
            if len(there) + writes.destroyed.get(write, 0) < writes.promised[write]:
                return f"write {write} of shard {shard} is at {there} of {writes.promised[write]} copies"
    return None


def live_replicas_have_copies(sight: Sight) -> str | None:
    """No server counts as up, and as a replica of a shard that has a primary, that was restored without a copy of
    it."""
    world, controller = sight.world, sight.world.controller
    if not controller.is_open or world.are_floors_excused or world.rules.is_small:
        return None
    for host in world.hosts:
        if host.number in controller.record.permits or not host.answers:
            continue
        for shard in world.shards:
            replica, is_it = host.at[shard], host.cell(shard) == controller.record.cells[shard][host.number] != ABSENT
            if replica.came_bare and is_it and not host.has_copy(shard) and replica.terms.primary is not None:
                return f"server {host.number} counts as a replica of shard {shard}, and has no copy"
    return None


STANDING: tuple[Callable[[Sight], str | None], ...] = (
    *(it for it in driving.STANDING if it is not driving.writes_stay),
    writes_stay, seen_stays, enough_have_it, copies_agree, fewer_losses_lose_nothing, live_replicas_have_copies,
)


def check_standing(sight: Sight) -> None:
    """Raises the first law that is broken."""
    for law in STANDING:
        found = law(sight)
        if found:
            raise Violation(law.__name__, found)


def last_copy_stays(world: World, host: Host, shard: int) -> None:
    """Nobody who has all acknowledged writes, whole or in doubt, deletes the last copy of one by an order or a
    settle."""
    copy, writes = host.copy(shard), world.writes.acknowledged[shard]
    if host.is_lost or not (copy.is_whole or copy.is_doubted) or not writes <= set(copy.writes):
        return
    for write in writes:
        others = (it for it in world.hosts if it is not host and not it.is_lost)
        having = [it for it in others if it.copy(shard).is_whole or it.copy(shard).is_doubted]
        if not any(write in it.copy(shard).writes for it in having):
            found = f"server {host.number} deletes the last copy of write {write} of shard {shard}"
            raise Violation("last_copy_stays", found)


def named_writes_stay(world: World, host: Host, shard: int, gone: frozenset[int]) -> None:
    """Nobody deletes the last copy of a write whose loss was named: it came back with a server that was given up."""
    others = [it for it in world.hosts if not it.is_lost]
    for write in gone & world.writes.named[shard]:
        if not any(write in it.copy(shard).kept() | it.at[shard].aside for it in others):
            found = f"server {host.number} deletes write {write} of shard {shard}, whose loss was named"
            raise Violation("named_writes_stay", found)


def best_copy_wins(world: World, reopening: Reopening) -> None:
    """If a server that has answered has all acknowledged writes of a shard, its new primary has them."""
    for shard, row in enumerate(reopening.cells):
        successor, writes = primary_of(row), world.writes.acknowledged[shard]
        answered = [world.hosts[it] for it in sorted(reopening.targets - {MAP})]
        if shard in reopening.perhaps:
            answered = [it for it in answered if it.number in reopening.inventories]
            if world.rules.is_small:
                # (a copy counts as it was told)
                survey = reopening.survey(shard)
                answered = [it for it in answered if it.number in survey.copies and is_as_told(survey, it, shard)]
                answered = [it for it in answered if writes <= has_told(survey, it, shard)]
            if world.rules.is_built and is_of_first_view(reopening, shard, successor):
                # (there the claim comes before the position)
                continue
        having = [it.number for it in answered if writes and it.has_all(shard, writes)]
        if successor is None or successor in reopening.missing or not having or world.hosts[successor].has_all(shard, writes):
            continue
        if is_as_told(reopening.survey(shard), world.hosts[successor], shard):
            raise Violation("best_copy_wins", f"server {successor} gets shard {shard}, and {having} have more of {writes}")


def has_told(survey: Survey, host: Host, shard: int) -> set[int]:
    """The writes of the copy that the server has told."""
    return set(host.copy(shard).writes[:survey.copies[host.number].position])


def is_of_first_view(reopening: Reopening, shard: int, successor: int | None) -> bool:
    """The new primary has told a copy of view 0, or none."""
    told = reopening.survey(shard).copies.get(successor)
    return told is None or told.view == 0


def is_as_told(survey: Survey, host: Host, shard: int) -> bool:
    """The server's copy is still what it told."""
    copy, told = host.copy(shard), survey.copies.get(host.number)
    if host.is_lost:
        return False
    if told:
        return told in (copy.all, copy.told(), copy.told(tells_part=True))
    return survey.doubted.get(host.number) == copy.doubted()
