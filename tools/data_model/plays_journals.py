"""Worked plays on a journal that has used its last epoch: the service stops, and another journal opens what each server
has, with low numbers."""
from __future__ import annotations

from dataclasses import replace

from driving_model.cells import ABSENT, Kind, PRIMARY, SECONDARY
from driving_model.commands import Open
from driving_model.map_owner import Entry
from driving_model.messages import BASE_STEP, Fence, LAST_EPOCH, Settle
from driving_model.plans import CrownRight, change

from .copies import Began, NONE
from .play import ALL, Play, Row, TWO
from .rules import Rules
from .worked import Worked

# The last base that a journal has.
LAST_BASE = LAST_EPOCH * BASE_STEP


def begin_last_view(play: Play) -> None:
    """The reopening of the last epoch has begun a view, which all that have a copy have taken over."""
    for host in play.world.hosts:
        if host.copy(0).is_whole:
            host.copy(0).put(host.copy(0).writes, [Began(0, 0), Began(LAST_BASE, 0)], True)


def renew_copies(play: Play) -> None:
    """Copies like the greatest one get the view 0; others are set aside."""
    world = play.world
    greatest = max(it.copy(0).all or NONE for it in world.hosts)
    for host in world.hosts:
        copy = host.copy(0)
        if world.rules.unlike_set_aside and copy.all != greatest:
            world.take_away(host, 0)
        elif world.rules.views_cleared and copy.is_whole:
            copy.put(copy.writes, [Began(0, 0)], True)


def open_anew(play: Play, row: Row) -> None:
    """The service has stopped. Each server forgets its slots, and another journal opens this row."""
    world = play.world
    world.are_floors_excused = True
    renew_copies(play)
    for host in world.hosts:
        world.forget(host)
    world.take_new_journal()
    play.do(Open(replace(play.document, cells=(row,)), world.journals, 0))
    owner, listed = world.map_owner, play.controller.record.listed[0]
    owner.journal, owner.base, owner.is_fenced = world.journals, 0, False
    owner.entries = [Entry(listed, 0 if world.rules.versions_cleared else owner.entries[0].version)]
    # (readers begin anew, too)
    world.shown = list(owner.entries)
    for host in world.hosts:
        play.restore(host.number)
    world.are_floors_excused = False


def turns(play: Play) -> None:
    """Enough turns for a plan."""
    for _ in range(12):
        play.turn()


def there_and_back(rules: Rules) -> None:
    """One copy is asked for. The other server becomes primary, and acknowledges a write alone, which the former one
    lacks; then that is to be primary again."""
    play = Play(rules, TWO, want=2, cap=2)
    play.write(7, copies=(1,))
    begin_last_view(play)
    open_anew(play, TWO)
    play.change_to_secondary()
    turns(play)
    play.change_to_primary(1)
    turns(play)
    play.write(8, copies=(), primary=1)
    play.begin((change(0, 1, Kind.SECONDARY),), (CrownRight(0), play.controller.record.crown(0)))
    turns(play)
    play.change_to_primary(0)
    turns(play)


def copy_of_another_list(rules: Rules) -> None:
    """A secondary still has a write of an earlier list, which is not acknowledged. Two copies are asked for, and the
    primary is lost."""
    play = Play(rules, ALL, want=3, cap=2, copies=2)
    for server in (0, 1):
        play.host(server).copy(0).put([7], [Began(0, 0), Began(LAST_BASE, 1)], True)
    play.host(2).copy(0).put([7, 9], [Began(0, 0)], True)
    play.world.writes.history[0] = [7]
    play.write(8, copies=(1,))
    open_anew(play, ALL)
    turns(play)
    play.write(10, copies=(2,))
    play.fail_over(0, (ABSENT, SECONDARY, SECONDARY))


def copy_that_lags(rules: Rules) -> None:
    """A secondary was down by leave, and is there again; it lacks a write that the primary has acknowledged alone. The
    new journal asks for two copies, and the primary is lost."""
    play = Play(rules, TWO, want=2, cap=1, copies=2)
    play.approve(1)
    for lower in play.controller.lowers():
        play.deliver(lower)
    play.write(7, copies=())
    open_anew(play, TWO)
    play.fail_over(0, (ABSENT, SECONDARY, ABSENT))


def settle_of_the_old_journal(rules: Rules) -> None:
    """The last reopening of the old journal had settled a primary, which has handed the shard over since. An old
    controller sends this server its fence and its settle again."""
    play = Play(rules, (SECONDARY, PRIMARY, ABSENT), want=2, cap=1)
    play.reopening(set(), (SECONDARY, PRIMARY, ABSENT))
    fences = play.sent_to(1, Fence)
    play.settle()
    late = [replace(it, base=LAST_BASE) for it in (*fences, *play.sent_to(1, Settle))]
    play.hand(1, 2)
    turns(play)
    open_anew(play, (SECONDARY, ABSENT, PRIMARY))
    for message in late if not rules.journal_ended else ():
        play.deliver(message)


def map_of_the_old_journal(rules: Rules) -> None:
    """The map had an entry of a high version. The shard is handed over."""
    play = Play(rules, TWO, want=2, cap=1)
    play.world.map_owner.entries = [Entry(0, LAST_BASE + 1)]
    open_anew(play, TWO)
    play.hand(0, 2)
    turns(play)


PLAYS = (
    Worked(settle_of_the_old_journal, "journal_ended", beside=("fence_bounded",)),
    Worked(there_and_back, "views_cleared"),
    Worked(copy_of_another_list, "unlike_set_aside"),
    Worked(copy_that_lags, "unlike_set_aside"),
    Worked(map_of_the_old_journal, "versions_cleared"),
)
