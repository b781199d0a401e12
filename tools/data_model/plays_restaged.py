"""Plays of `driving_model` that need other steps over data: rules for data refuse a step of theirs, or help them
out."""
from __future__ import annotations

from driving_model.cells import ABSENT, PRIMARY, SECONDARY
from driving_model.clients import Write
from driving_model.commands import Reopen
from driving_model.messages import Fence, Order, Restore, Settle

from .play import ALONE, Play, TWO
from .rules import Rules, rule_names
from .worked import Worked, must


def late_fence_of_an_opening(rules: Rules) -> None:
    """A server is carried over, comes back, and meets the fence of the opening that is in force: nobody settles it."""
    play = Play(rules, TWO, want=2)
    play.approve(1)
    play.reopening(set(), TWO, silent=frozenset({1}))
    play.settle(silent=frozenset({1}))
    play.deliver(play.sent_to(1, Fence)[0])
    for _ in range(3):
        play.turn()
        if not play.host(1).server.is_known:
            play.restore(1)
    must(play.host(1).server.is_known and not play.host(1).server.is_fenced, "a server stays fenced")


def fence_while_a_passed_request_runs(rules: Rules) -> None:
    """A passed request runs at the new owner of a handover that a reopening gives back to the old one."""
    play = Play(rules, ALONE, want=1)
    play.hand(0, 1)
    play.turn()
    play.turn()
    write = Write(0, 7)
    play.request(0, write)
    play.world.deliver_seal(play.world.writes.seals[-1])
    play.request(1, write, play.world.writes.passed[-1].passed)
    play.fence_all()
    if play.controller.reopening.missing:
        play.world.finish(play.host(1), write)
        return
    play.confirm(PRIMARY, SECONDARY, ABSENT)
    play.deliver(play.sent_to(0, Settle)[-1])
    play.world.finish(play.host(1), write)


def restore_in_a_reopening(rules: Rules) -> None:
    """An old owner whose `prepare_drop` is not recorded tells that it forwards, and loses its slots. Restored as
    recorded, it would be primary beside the new owner, to which the reopening gives the shard."""
    play = Play(rules, ALONE, want=1)
    play.hand(0, 1)
    play.turn()
    play.deliver(play.sent_to(0, Order)[-1])
    play.world.deliver_seal(play.world.writes.seals[-1])
    play.fence_all()
    play.world.lose(play.host(0), keeps_data=True)
    play.restore(0)
    play.confirm(SECONDARY, PRIMARY, ABSENT)
    play.deliver(play.sent_to(1, Settle)[-1])


def restore_behind_a_fence(rules: Rules) -> None:
    """A primary loses its slots, and asks. The answer comes only when a reopening has fenced it and given its shard
    away."""
    play = Play(rules, TWO, want=2)
    play.world.lose(play.host(0), keeps_data=True)
    play.do(play.host(0).ask())
    late = play.sent_to(0, Restore)[-1]
    play.fence_all()
    play.confirm(SECONDARY, PRIMARY, ABSENT)
    play.deliver(play.sent_to(1, Settle)[-1])
    play.deliver(late)


def restore_of_a_server_given_up(rules: Rules) -> None:
    """A primary loses its slots, asks and crashes. A reopening gives it up as lost, and its shard to a secondary. Then
    it starts, and meets the restore of before."""
    play = Play(rules, TWO, want=2)
    play.world.lose(play.host(0), keeps_data=True)
    play.do(play.host(0).ask())
    late = play.sent_to(0, Restore)[-1]
    play.host(0).is_alive = False
    play.reopening({0}, (ABSENT, SECONDARY, ABSENT))
    play.settle()
    play.host(0).start()
    play.deliver(late)


def work_behind_a_fence(rules: Rules) -> None:
    """The new owner is at work on its `add` when the fence comes, and ends when the shard was given back."""
    play = Play(rules, ALONE, want=1)
    play.hand(0, 1)
    play.turn()
    play.turn()
    order = play.sent_to(1, Order)[-1]
    play.world.deliver(order)
    play.fence_all()
    play.confirm(PRIMARY, SECONDARY, ABSENT)
    play.deliver(play.sent_to(0, Settle)[-1])
    play.world.work(play.host(1), order)
    play.world.check()


def pass_behind_a_fence(rules: Rules) -> None:
    """A request that was passed on comes when the reopening has given the shard back to the old owner."""
    play = Play(rules, ALONE, want=1)
    play.hand(0, 1)
    play.turn()
    play.turn()
    play.request(0, Write(0, 7))
    late = play.world.writes.passed[-1]
    play.fence_all()
    play.confirm(PRIMARY, SECONDARY, ABSENT)
    play.deliver(play.sent_to(0, Settle)[-1])
    play.request(1, late.write, late.passed)


def secondary_is_left_out(rules: Rules) -> None:
    """A shard has no primary. The secondary that alone has what was acknowledged is left out of a reopening's
    document."""
    play = Play(rules, TWO, want=2, cap=2)
    play.write(7, copies=())
    play.change_to_secondary()
    for _ in range(3):
        play.step()
    play.reopen(frozenset({1, 2}))
    for fence in play.controller.fences():
        play.deliver(fence)
    play.take_inventories()
    play.settle()


def server_of_a_replaced_document(rules: Rules) -> None:
    """A new journal adopts three servers. Other reopenings replace this one, and leave the primary out."""
    play = Play(rules, TWO, want=2)
    play.world.take_new_journal()
    play.do(Reopen(play.document, frozenset(), play.world.journals, epoch=1))
    for _ in range(2):
        play.reopen(frozenset({1, 2}))
        for fence in play.controller.fences():
            play.deliver(fence)
        play.take_inventories()
    play.confirm(ABSENT, PRIMARY, ABSENT)
    for settle in play.sent_to(1, Settle):
        play.deliver(settle)


def secondary_given_up_by_a_settle(rules: Rules) -> None:
    """A secondary that has no copy is left without its cell by a reopening."""
    play = Play(rules, TWO, want=2)
    play.world.lose(play.host(1))
    play.restore(1)
    play.fence_all()
    play.confirm(PRIMARY, ABSENT, ABSENT)
    for _ in range(2):
        play.turn()


ALL_PLAYS = (
    Worked(late_fence_of_an_opening, "fenced_is_stale"),
    Worked(late_fence_of_an_opening, "stale_unknown"),
    Worked(fence_while_a_passed_request_runs, "fence_waits"),
    Worked(restore_in_a_reopening, "restore_at_rest"),
    Worked(restore_behind_a_fence, "restore_above_fence", beside=("settle_nonce",)),
    Worked(restore_of_a_server_given_up, "start_nonce"),
    Worked(work_behind_a_fence, "fence_ends_work"),
    Worked(pass_behind_a_fence, "frozen_handovers"),
    Worked(secondary_is_left_out, "leaver_is_empty"),
    Worked(server_of_a_replaced_document, "replaced_fenced"),
    Worked(secondary_given_up_by_a_settle, "settle_whole"),
)
# Those of rules that `driving_model` has.
PLAYS = tuple(it for it in ALL_PLAYS if it.rule in rule_names())
