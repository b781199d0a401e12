"""Worked plays: schedules that random ones meet too rarely. Each breaks without the rule that it names."""
from __future__ import annotations

from collections.abc import Callable
from dataclasses import dataclass

from . import commands
from .cells import ABSENT, GONE, Kind, Lead, PRIMARY, SECONDARY, Stage
from .clients import Write
from .laws import Violation
from .leases import answer_that_comes_late, given_up_while_it_serves
from .messages import Fence, MAP, Order, Restore, Settle
from .plans import CellRight, Crown, CrownRight, RoomRight, add, change, drop, unlist
from .play import Play
from .replies import Approved
from .rules import Rules, SOUND


def carried_over_after_a_settle(rules: Rules) -> None:
    """A secondary that is recorded down answers a reopening, is confirmed as primary and serves. Another reopening
    replaces the first, which it does not answer: if it were carried over as a secondary, two would be primary."""
    play = Play(rules, (PRIMARY, SECONDARY, SECONDARY), want=3)
    play.do(commands.Approve(1, "by"))
    play.world.lose(play.world.hosts[0], is_for_good=True)
    play.reopen(frozenset({1, 2}), frozenset({0}))
    play.turn()
    play.confirm(ABSENT, PRIMARY, SECONDARY)
    play.deliver(play.sent_to(1, Settle)[-1])
    play.reopen(frozenset({1, 2}), frozenset({0}))
    play.turn(silent=frozenset({1}))
    play.confirm(ABSENT, SECONDARY, PRIMARY)
    play.turn(silent=frozenset({1}))


def fence_and_settle_after_forgetting(rules: Rules) -> None:
    """A settled server gives its shard away and forgets: the old fence and the old settle come again."""
    play = Play(rules, (PRIMARY, ABSENT, ABSENT), want=1)
    play.reopen()
    play.turn()
    play.confirm(PRIMARY, ABSENT, ABSENT)
    play.turn()
    old = play.sent_to(0, Fence, Settle)
    play.hand(0, 1)
    for _ in range(8):
        play.turn()
    play.world.lose(play.world.hosts[0])
    for message in old:
        play.deliver(message)


def pass_of_an_earlier_epoch(rules: Rules) -> None:
    """A request that was passed on in the first handover of an epoch comes in the first one of the next, before its
    `prepare_drop`."""
    play = Play(rules, (PRIMARY, ABSENT, ABSENT), want=1)
    play.hand(0, 1)
    play.turn()
    play.turn()
    play.request(0, Write(0, 7))
    late = play.world.writes.passed[-1]
    for _ in range(8):
        play.turn()
    play.hand(1, 0)
    for _ in range(9):
        play.turn()
    play.do(commands.NewEpoch())
    play.hand(0, 1)
    play.turn()
    play.request(late.passed.to, late.write, late.passed)


def late_fence_of_an_opening(rules: Rules) -> None:
    """A server is carried over, comes back, and meets the fence of the opening that is in force: nobody settles it."""
    play = Play(rules, (PRIMARY, SECONDARY, ABSENT), want=2)
    play.do(commands.Approve(1, "by"))
    play.reopen()
    play.turn(silent=frozenset({1}))
    play.confirm(PRIMARY, SECONDARY, ABSENT)
    play.turn(silent=frozenset({1}))
    play.deliver(play.sent_to(1, Fence)[0])
    play.finish_all()


def restart_of_a_server_carried_over(rules: Rules) -> None:
    """A server that was carried over is called up with the slots of the epoch before, and counts as a live replica. It
    turns Unknown by the next order, while another server is down by leave."""
    play = Play(rules, (PRIMARY, SECONDARY, SECONDARY), want=3, cap=1)
    approved = play.do(commands.Approve(1, "by"))
    assert isinstance(approved, Approved)
    play.reopen()
    play.turn(silent=frozenset({1}))
    play.confirm(PRIMARY, SECONDARY, SECONDARY)
    play.turn(silent=frozenset({1}))
    play.do(play.world.hosts[1].restarted(approved.permit))
    play.do(commands.Approve(2, "another"))
    code = (unlist(0), change(0, 0, Kind.SECONDARY), change(0, 1, Kind.PRIMARY))
    crown = Crown(Lead(Stage.AT, 0), 0)
    play.begin(code, (CellRight(0, 1), SECONDARY), (CrownRight(0), crown))
    for _ in range(3):
        play.turn()


def late_ask_of_a_server_carried_over(rules: Rules) -> None:
    """A server that is down by leave loses its slots twice, and is carried over by a reopening. Then its first ask comes
    late: the restore that is told has an old nonce, and the server stays Unknown. It is no live replica."""
    play = Play(rules, (PRIMARY, SECONDARY, SECONDARY), want=3, cap=1)
    approved = play.do(commands.Approve(1, "by"))
    assert isinstance(approved, Approved)
    host = play.world.hosts[1]
    play.world.lose(host)
    late = host.ask()
    play.world.lose(host)
    play.reopen()
    play.turn(silent=frozenset({1}))
    play.confirm(PRIMARY, SECONDARY, SECONDARY)
    play.turn(silent=frozenset({1}))
    play.do(late)
    for restore in play.sent_to(1, Restore):
        play.deliver(restore)
    play.do(host.restarted(approved.permit))
    play.do(commands.Approve(2, "another"))
    play.finish_all()


def late_fence_before_a_restart_ends(rules: Rules) -> None:
    """A server that was carried over meets the fence of the opening in force, and is called up with its old slots."""
    play = Play(rules, (PRIMARY, SECONDARY, SECONDARY), want=3, cap=1)
    approved = play.do(commands.Approve(1, "by"))
    assert isinstance(approved, Approved)
    play.reopen()
    play.turn(silent=frozenset({1}))
    play.confirm(PRIMARY, SECONDARY, SECONDARY)
    play.turn(silent=frozenset({1}))
    play.deliver(play.sent_to(1, Fence)[0])
    play.do(play.world.hosts[1].restarted(approved.permit))
    play.do(commands.Approve(2, "another"))
    play.turn()
    play.finish_all()


def fence_while_a_passed_request_runs(rules: Rules) -> None:
    """A passed request runs at the new owner of a handover that a reopening gives back to the old one."""
    play = Play(rules, (PRIMARY, ABSENT, ABSENT), want=1)
    play.hand(0, 1)
    play.turn()
    play.turn()
    write = Write(0, 7)
    play.request(0, write)
    play.world.deliver_seal(play.world.writes.seals[-1])
    play.request(1, write, play.world.writes.passed[-1].passed)
    play.reopen()
    play.turn()
    if play.controller.reopening.missing:
        play.world.finish(play.world.hosts[1], write)
        play.turn()
        play.confirm()
        play.turn()
        return
    play.confirm(PRIMARY, ABSENT, ABSENT)
    play.turn()
    play.world.finish(play.world.hosts[1], write)


def order_before_a_restore(rules: Rules) -> None:
    """A server has done an order, forgets and is restored; the order comes again."""
    play = Play(rules, (PRIMARY, ABSENT, ABSENT), want=1)
    play.begin((add(0, 1, Kind.SECONDARY),), (CellRight(0, 1), ABSENT), (RoomRight(1), 1))
    old = play.sent_to(1, Order)
    play.turn()
    play.lose_and_ask(1)
    play.deliver(play.sent_to(1, Restore)[-1])
    play.deliver(old[-1])


def restore_in_a_reopening(rules: Rules) -> None:
    """An old owner whose `prepare_drop` is not recorded tells that it forwards, and forgets. Restored as recorded, it
    would be primary beside the new owner, to which the reopening gives the shard."""
    play = Play(rules, (PRIMARY, ABSENT, ABSENT), want=1)
    play.hand(0, 1)
    play.turn()
    play.deliver(play.sent_to(0, Order)[-1])
    play.world.deliver_seal(play.world.writes.seals[-1])
    play.fence_all()
    play.lose_and_ask(0)
    for restore in play.sent_to(0, Restore):
        play.deliver(restore)
    play.confirm(ABSENT, PRIMARY, ABSENT)
    play.deliver(play.sent_to(1, Settle)[-1])


def restore_behind_a_fence(rules: Rules) -> None:
    """A primary forgets and asks. The answer comes only when a reopening has fenced it and given its shard away."""
    play = Play(rules, (PRIMARY, SECONDARY, ABSENT), want=2)
    play.lose_and_ask(0)
    late = play.sent_to(0, Restore)[-1]
    play.fence_all()
    play.confirm(ABSENT, PRIMARY, ABSENT)
    play.deliver(play.sent_to(1, Settle)[-1])
    play.deliver(late)


def restore_of_a_server_given_up(rules: Rules) -> None:
    """A primary forgets, asks and crashes. A reopening gives it up as lost, and its shard to a secondary. Then it starts,
    and meets the restore of before."""
    play = Play(rules, (PRIMARY, SECONDARY, ABSENT), want=2)
    play.lose_and_ask(0)
    late, host = play.sent_to(0, Restore)[-1], play.world.hosts[0]
    host.is_alive = False
    play.reopen(frozenset({1, 2}), frozenset({0}))
    play.turn()
    play.confirm(ABSENT, PRIMARY, ABSENT)
    play.turn()
    host.start()
    play.deliver(late)


def settle_comes_again(rules: Rules) -> None:
    """A settle comes again when a later order has changed its slots."""
    play = Play(rules, (PRIMARY, ABSENT, ABSENT), want=1)
    play.reopen()
    play.turn()
    play.confirm()
    play.turn()
    play.begin((add(0, 1, Kind.SECONDARY),), (CellRight(0, 1), ABSENT), (RoomRight(1), 1))
    play.turn()
    play.deliver(play.sent_to(1, Settle)[-1])


def secondary_tells_too_early(rules: Rules) -> None:
    """A secondary and a half-prepared server tell the same position. The primary executes on and forgets, so that the
    secondary alone has all that was acknowledged."""
    play = Play(rules, (PRIMARY, SECONDARY, ABSENT), want=2)
    play.hand(0, 2)
    play.turn()
    play.write(7, copies=(1, 2))
    play.reopen()
    for server in (1, 2, MAP):
        play.deliver(Fence(server, play.controller.reopening.base, play.controller.journal))
    play.take_inventories()
    play.write(8, copies=(1,))
    play.world.lose(play.world.hosts[0])
    play.turn()
    play.confirm()
    play.turn()


def silent_secondary_has_all(rules: Rules) -> None:
    """The primary of a handover that has just begun is lost. A secondary with all that was acknowledged is recorded
    down and silent, and the new owner, which has nothing, is the one party that answers."""
    play = Play(rules, (PRIMARY, SECONDARY, ABSENT), want=2)
    play.do(commands.Approve(1, "by"))
    play.hand(0, 2)
    play.turn()
    play.write(7, copies=(1,))
    play.world.lose(play.world.hosts[0], is_for_good=True)
    play.reopen(frozenset({1, 2}), frozenset({0}))
    play.turn(silent=frozenset({1}))
    play.confirm()
    play.turn(silent=frozenset({1}))


def name_in_the_next_epoch(rules: Rules) -> None:
    """A plan that goes there and back is begun again under its name in the next epoch."""
    play = Play(rules, (PRIMARY, ABSENT, ABSENT), want=1)
    play.begin((add(0, 1, Kind.SECONDARY), drop(0, 1)), (CellRight(0, 1), ABSENT), (RoomRight(1), 1))
    begin = play.world.journal[-1]
    for _ in range(3):
        play.turn()
    play.do(commands.NewEpoch())
    play.do(begin)


def primary_is_moved_by_a_reopening(rules: Rules) -> None:
    """All fences are answered, and the primary executes on. A secondary is confirmed as primary, and settled first."""
    play = Play(rules, (PRIMARY, SECONDARY, ABSENT), want=2)
    play.fence_all()
    play.confirm(SECONDARY, PRIMARY, ABSENT)
    for settle in play.sent_to(1, Settle):
        play.deliver(settle)


def work_behind_a_fence(rules: Rules) -> None:
    """The new owner is at work on its `add` when the fence comes, and ends when the shard was given back."""
    play = Play(rules, (PRIMARY, ABSENT, ABSENT), want=1)
    play.hand(0, 1)
    play.turn()
    play.turn()
    order = play.sent_to(1, Order)[-1]
    play.world.deliver(order)
    play.fence_all()
    play.confirm(PRIMARY, ABSENT, ABSENT)
    play.deliver(play.sent_to(0, Settle)[-1])
    play.world.work(play.world.hosts[1], order)
    play.world.check()


def pass_behind_a_fence(rules: Rules) -> None:
    """A request that was passed on comes when the reopening has given the shard back to the old owner."""
    play = Play(rules, (PRIMARY, ABSENT, ABSENT), want=1)
    play.hand(0, 1)
    play.turn()
    play.turn()
    play.request(0, Write(0, 7))
    late = play.world.writes.passed[-1]
    play.fence_all()
    play.confirm(PRIMARY, ABSENT, ABSENT)
    play.deliver(play.sent_to(0, Settle)[-1])
    play.request(1, late.write, late.passed)


def pass_behind_a_settle(rules: Rules) -> None:
    """A request that was passed on comes when the new owner has taken a settle by which it gives the shard up."""
    play = Play(rules, (PRIMARY, ABSENT, ABSENT), want=1)
    play.hand(0, 1)
    play.turn()
    play.turn()
    play.request(0, Write(0, 7))
    late = play.world.writes.passed[-1]
    play.fence_all()
    play.confirm(PRIMARY, ABSENT, ABSENT)
    play.turn()
    play.request(1, late.write, late.passed)


def new_owner_has_less(rules: Rules) -> None:
    """In a handover to server 0 the old owner alone has all that was acknowledged."""
    play = Play(rules, (ABSENT, PRIMARY, ABSENT), want=1)
    play.hand(1, 0)
    play.turn()
    play.write(7, copies=(), primary=1)
    play.deliver(play.sent_to(1, Order)[-1])
    play.fence_all()
    play.confirm()
    play.turn()


def crash_at_work(rules: Rules) -> None:
    """A server crashes at work, and comes back with its slots."""
    play = Play(rules, (PRIMARY, ABSENT, ABSENT), want=1)
    play.begin((add(0, 1, Kind.SECONDARY),), (CellRight(0, 1), ABSENT), (RoomRight(1), 1))
    play.world.deliver(play.sent_to(1, Order)[-1])
    host = play.world.hosts[1]
    host.stop()
    host.start()
    play.finish_all()


def restore_by_a_deposed_controller(rules: Rules) -> None:
    """A controller that lacks the last entries of the journal is asked for the slots of a server that has forgotten."""
    play = Play(rules, (PRIMARY, ABSENT, ABSENT), want=1)
    length = len(play.world.journal)
    play.begin((add(0, 1, Kind.SECONDARY),), (CellRight(0, 1), ABSENT), (RoomRight(1), 1))
    play.turn()
    play.lose_and_ask(1)
    deposed = play.world.replay(length)
    told = play.controller if rules.restore_whole_journal else deposed
    play.deliver(told.restore_of(1, play.world.hosts[1].server.nonce))


def old_owner_is_left_out(rules: Rules) -> None:
    """The old owner of a handover, which alone has what was acknowledged, is left out of a reopening's document. Later
    the shard gets a new primary."""
    play = Play(rules, (PRIMARY, ABSENT, ABSENT), want=1, cap=1)
    play.hand(0, 1)
    play.turn()
    play.write(7, copies=())
    play.deliver(play.sent_to(0, Order)[-1])
    play.reopen(frozenset({1, 2}))
    play.turn()
    play.confirm()
    play.turn()
    rights = {CrownRight(0): Crown(GONE, None), CellRight(0, 1): ABSENT, RoomRight(1): 1}
    play.begin((add(0, 1, Kind.PRIMARY),), *rights.items())
    play.turn()


def server_of_a_replaced_document(rules: Rules) -> None:
    """A new journal adopts three servers. Another reopening replaces this one, and leaves the primary out."""
    play = Play(rules, (PRIMARY, SECONDARY, ABSENT), want=2)
    play.world.take_new_journal()
    play.do(commands.Reopen(play.document, frozenset(), play.world.journals, epoch=1))
    play.reopen(frozenset({1, 2}))
    play.turn()
    play.confirm(ABSENT, PRIMARY, ABSENT)
    play.turn()


@dataclass(frozen=True, slots=True)
class Worked:
    """A play with the rule that it shows to be needed: it breaks a law without the rule, and none with it. The rules
    `beside` are taken away in both cases."""

    play: Callable[[Rules], None]
    rule: str
    beside: tuple[str, ...] = ()

    @property
    def name(self) -> str:
        """The play's name."""
        return self.play.__name__


PLAYS = (
    Worked(carried_over_after_a_settle, "carried_unsettled"),
    Worked(fence_and_settle_after_forgetting, "settle_nonce"),
    Worked(pass_of_an_earlier_epoch, "handover_base"),
    Worked(late_fence_of_an_opening, "fenced_is_stale"),
    Worked(late_fence_of_an_opening, "stale_unknown"),
    Worked(restart_of_a_server_carried_over, "restart_settled"),
    Worked(late_ask_of_a_server_carried_over, "restart_settled"),
    Worked(late_fence_before_a_restart_ends, "restart_unfenced"),
    Worked(fence_while_a_passed_request_runs, "fence_waits"),
    Worked(order_before_a_restore, "restore_base_high"),
    Worked(restore_in_a_reopening, "restore_at_rest"),
    Worked(restore_behind_a_fence, "restore_above_fence", beside=("settle_nonce",)),
    Worked(restore_of_a_server_given_up, "start_nonce"),
    Worked(settle_comes_again, "settle_once"),
    Worked(secondary_tells_too_early, "survivor_rank"),
    Worked(silent_secondary_has_all, "carried_copy"),
    Worked(name_in_the_next_epoch, "names_kept"),
    Worked(primary_is_moved_by_a_reopening, "primary_stays"),
    Worked(work_behind_a_fence, "fence_ends_work"),
    Worked(pass_behind_a_fence, "frozen_handovers"),
    Worked(pass_behind_a_settle, "settle_whole"),
    Worked(new_owner_has_less, "survivor_position"),
    Worked(old_owner_is_left_out, "leaver_is_empty"),
    Worked(server_of_a_replaced_document, "replaced_fenced"),
    Worked(crash_at_work, "work_abandoned"),
    Worked(restore_by_a_deposed_controller, "restore_whole_journal"),
    Worked(given_up_while_it_serves, "lease_ends"),
    Worked(given_up_while_it_serves, "lease_waited"),
    Worked(answer_that_comes_late, "lease_from_asking"),
)


def played(worked: Worked, with_rule: bool) -> Violation | None:
    """What a play comes to, with its rule or without it."""
    away = worked.beside if with_rule else (*worked.beside, worked.rule)
    try:
        worked.play(SOUND.without(*away))
    except Violation as violation:
        return violation
    return None
