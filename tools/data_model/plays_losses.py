"""Worked plays on losses: what a server says of its data, what a reopening compares and names, and the number of
copies."""
from __future__ import annotations

from driving_model.cells import ABSENT, Kind, PRIMARY, SECONDARY
from driving_model.clients import Write
from driving_model.commands import Begin, Reopen
from driving_model.messages import BASE_STEP, Fence, MAP, Restore, Settle
from driving_model.plans import (
    CellRight, CrownRight, Instruction, Plan, RoomRight, SpareRight, Stream, add, drop, handover, unlist,
)

from .copies import Began
from .play import ALL, ALONE, Play, Row, TWO
from .rules import Rules
from .worked import Worked, must


def disk_of_a_primary(rules: Rules) -> None:
    """A primary's disk is replaced; it asks for its slots, and is made primary over nothing."""
    play = Play(rules, TWO, want=2, cap=1)
    play.write(7, copies=(1,))
    play.world.lose(play.host(0))
    play.restore(0)


def disk_lost_while_it_asks(rules: Rules) -> None:
    """An Unknown primary asks with its data, and loses them before the restore comes."""
    play = Play(rules, TWO, want=2, cap=1)
    play.write(7, copies=(1,))
    host = play.host(0)
    play.world.lose(host, keeps_data=True)
    play.do(host.ask())
    play.world.lose(host)
    for restore in play.sent_to(0, Restore):
        play.deliver(restore)


def restored_with_nothing(rules: Rules) -> None:
    """A secondary's disk is replaced, and it is restored. The only copy's server may not be taken down now."""
    play = Play(rules, TWO, want=2, cap=1)
    play.write(7, copies=(1,))
    play.world.lose(play.host(1))
    play.world.are_floors_excused = False
    play.restore(1)


def disk_that_went_back(rules: Rules) -> None:
    """A secondary's disk has gone back behind a write that it had told, and it knows. The primary is lost."""
    play = Play(rules, TWO, want=2, copies=2)
    play.write(7, copies=(1,))
    play.world.dice.randint = lambda low, high: low
    play.world.go_back(play.host(1))
    play.fail_over(0, (ABSENT, SECONDARY, ABSENT))


def only_disk_in_doubt(rules: Rules) -> None:
    """The one server of a shard knows that its disk may have gone back. It had not."""
    play = Play(rules, ALONE, want=1)
    play.write(7, copies=())
    play.world.dice.randint = lambda low, high: high
    play.world.go_back(play.host(0))
    play.reopening(set(), ALONE)
    play.settle()


def silent_secondary_has_all(rules: Rules) -> None:
    """Three copies are asked for. A secondary is to go down by leave, so two are enough; it has a write with the
    primary, and goes down. The primary is lost, and the other secondary lags."""
    play = Play(rules, ALL, want=3, cap=2, copies=3)
    play.approve(1)
    for lower in play.controller.lowers():
        play.deliver(lower)
    play.write(7, copies=(1,))
    play.host(1).is_alive = False
    play.lose(0)
    play.reopening({0}, (ABSENT, SECONDARY, SECONDARY), silent=frozenset({1}))
    play.settle(silent=frozenset({1}))


def primary_alone_had_it(rules: Rules) -> None:
    """One copy is asked for, and the primary alone has an acknowledged write when it is lost."""
    play = Play(rules, TWO, want=2, cap=1)
    play.write(7, copies=())
    play.fail_over(0, (ABSENT, SECONDARY, ABSENT))


def confirmed_unread(rules: Rules) -> None:
    """The same; who confirms has not read that the shard may lack writes."""
    play = Play(rules, TWO, want=2, cap=1)
    play.write(7, copies=())
    play.lose(0)
    play.reopening({0}, (ABSENT, SECONDARY, ABSENT))
    play.confirm(lost=frozenset())
    for settle in play.sent_to(1, Settle):
        play.deliver(settle)


def returned_after_its_loss(rules: Rules, row: Row) -> None:
    """The primary alone had 7, and is lost, which was named. It comes back with its data."""
    play = Play(rules, TWO, want=2, cap=1)
    play.write(7, copies=())
    play.fail_over(0, (ABSENT, SECONDARY, ABSENT))
    play.write(8, copies=(), primary=1)
    play.come_back(0)
    play.reopening(set(), (ABSENT, PRIMARY, ABSENT))
    play.confirm(*row)
    for settle in play.sent_to(0, Settle):
        play.deliver(settle)
    for _ in range(9):
        play.world.follow(0)


def copy_that_a_settle_takes_away(rules: Rules) -> None:
    """It comes back, and a reopening brings it nothing: it deletes what it has."""
    returned_after_its_loss(rules, (ABSENT, PRIMARY, ABSENT))


def copy_that_is_made_anew(rules: Rules) -> None:
    """It comes back as a secondary, and copies the new primary's list over what it has."""
    returned_after_its_loss(rules, (SECONDARY, PRIMARY, ABSENT))


def copy_of_another_view(rules: Rules) -> None:
    """Of two secondaries one has the writes of the last primary, and the other one more, of a list before. Two copies
    were asked for, and the primary is lost."""
    play = Play(rules, ALL, want=3, copies=2)
    first, second, third = (play.host(it).copy(0) for it in range(3))
    first.put([7], [Began(0, 0), Began(1, 1)], True)
    second.put([7, 8, 9], [Began(0, 0)], True)
    third.put([7], [Began(0, 0), Began(1, 1)], True)
    play.world.writes.history[0] = [7]
    play.execute(0, 10)
    first.flush()
    play.copy(2, 0)
    play.tell_all()
    play.acknowledge()
    play.fail_over(0, (ABSENT, SECONDARY, SECONDARY))


def view_of_a_later_journal(rules: Rules) -> None:
    """A journal that is lost had made a view. Another one adopts the servers, which have lost their slots, too low."""
    play = Play(rules, TWO, want=2, cap=1)
    play.write(7, copies=(1,))
    for server in (0, 1):
        play.host(server).copy(0).put([7], [Began(0, 0), Began(9 * BASE_STEP, 1)], True)
        play.world.lose(play.host(server), keeps_data=True)
    play.world.take_new_journal()
    play.do(Reopen(play.document, frozenset(), play.world.journals, epoch=1))
    for fence in play.controller.fences():
        play.deliver(fence)
    play.take_inventories()
    play.reopening(set(), TWO)
    if not play.controller.reopening.missing:
        play.settle()


def unknown_with_all(rules: Rules) -> None:
    """A secondary with all writes has lost its slots alone. The primary is lost; another secondary lags."""
    play = Play(rules, ALL, want=3, cap=2)
    play.write(7, copies=(1,))
    play.world.lose(play.host(1), keeps_data=True)
    play.fail_over(0, (ABSENT, SECONDARY, SECONDARY))


def secondary_lags_behind_a_prepared(rules: Rules) -> None:
    """A handover has begun, and the new owner has all; a secondary lags. The primary is lost. Who goes by roles takes
    the secondary."""
    play = Play(rules, TWO, want=2, cap=1)
    play.hand(0, 2)
    play.turn()
    play.write(7, copies=())
    play.copy(1, 0)
    play.write(8, copies=(1,))
    play.fail_over(0, (ABSENT, SECONDARY, ABSENT))


def told_before_the_primary_stopped(rules: Rules) -> None:
    """The secondaries answer a fence; the primary executes on with the one that has less. Then its disk is replaced,
    and it answers as an Unknown server."""
    play = Play(rules, ALL, want=3, copies=2)
    play.write(7, copies=(1,))
    play.reopen()
    for server in (1, 2, MAP):
        play.deliver(Fence(server, play.controller.reopening.base, play.controller.journal))
    play.take_inventories()
    play.write(8, copies=(2,))
    play.world.lose(play.host(0))
    for fence in play.controller.fences():
        play.deliver(fence)
    play.take_inventories()
    play.settle()


def order_not_recorded(rules: Rules) -> None:
    """The primary and a secondary that was just added, which is not recorded yet, have a write. Both are lost; the
    recorded secondary lags."""
    play = Play(rules, TWO, want=2, copies=2)
    play.add_secondary(2)
    order = play.controller.orders()[0]
    play.world.deliver(order)
    play.copy(2, 0)
    play.world.work(play.host(2), order)
    play.write(7, copies=(2,))
    play.lose(0)
    play.lose(2)
    play.reopening({0, 2}, (ABSENT, SECONDARY, ABSENT))
    play.settle()


def fewer_copies_for_a_while(rules: Rules) -> None:
    """The primary is cut off, one secondary has lost its disk; a reopening lets the other one serve with one copy. It
    is lost while another reopening replaces this one; the old primary is there again."""
    play = Play(rules, ALL, want=3, copies=2)
    play.write(7, copies=(1,))
    play.lose(0)
    play.world.lose(play.host(2))
    play.reopening({0}, (ABSENT, SECONDARY, SECONDARY))
    play.confirm()
    for message in play.sent_to(1, Settle) + play.sent_to(2, Settle):
        play.deliver(message)
    play.copy(2, 1)
    play.write(8, copies=(), primary=1)
    play.lose(1)
    play.come_back(0)
    play.reopening({1}, (SECONDARY, ABSENT, SECONDARY))
    play.settle()


def party_gives_up_its_copy(rules: Rules) -> None:
    """Old and new owner have a write, for which two copies are asked. A reopening gives the shard to one of them; the
    other one takes its settle first."""
    play = Play(rules, TWO, want=2, copies=2)
    play.hand(0, 2)
    play.turn()
    play.write(7, copies=(2,))
    for order in play.controller.orders():
        play.deliver(order)
    play.reopening(set(), (ABSENT, ABSENT, ABSENT))
    play.confirm()
    settles = play.sent_to(0, Settle) + play.sent_to(2, Settle)
    for settle in sorted(settles, key=lambda it: it.slots[0].cell == PRIMARY):
        play.deliver(settle)


def two_copies_of_unlike_ones(rules: Rules) -> None:
    """The primary is lost. Of two secondaries one has all, and the other one less; the settlement counts both."""
    play = Play(rules, ALL, want=3, copies=2)
    play.write(7, copies=(1, 2))
    play.write(8, copies=(1,))
    play.fail_over(0, (ABSENT, SECONDARY, SECONDARY))


def reopened_before_a_restart(rules: Rules) -> None:
    """Two copies are asked for. A secondary may go down, and is still there when the primary is lost; it has all, like
    the other one, which becomes primary. Then it goes down."""
    play = Play(rules, ALL, want=3, cap=2, copies=2)
    play.write(7, copies=(1, 2))
    play.approve(1)
    play.lose(0)
    play.reopening({0}, (ABSENT, SECONDARY, SECONDARY))
    play.confirm(ABSENT, SECONDARY, PRIMARY)
    for _ in range(2):
        for settle in play.controller.outgoing():
            play.deliver(settle)
        play.take_answers()
    play.host(1).is_alive = False
    play.write(8, copies=(), primary=2)
    must(8 in play.world.writes.acknowledged[0], "nothing is acknowledged while a server restarts by leave")


def a_counted_replica_goes(rules: Rules) -> None:
    """The primary and a secondary have a write; the secondary is lost, and a reopening goes on without it."""
    play = Play(rules, ALL, want=3, copies=2)
    play.write(7, copies=(1,))
    play.fail_over(1, (PRIMARY, ABSENT, SECONDARY))


def restart_stops_nobody(rules: Rules) -> None:
    """Two copies are asked for, and the one secondary goes down by leave."""
    play = Play(rules, TWO, want=2, copies=2)
    play.approve(1)
    play.host(1).is_alive = False
    for lower in play.controller.lowers():
        play.deliver(lower)
    play.write(7, copies=())
    must(7 in play.world.writes.acknowledged[0], "nothing is acknowledged")


def lowered_by_a_late_word(rules: Rules) -> None:
    """A secondary was down by leave, and fewer copies were asked for. It is back, and the primary asks for all again,
    and says so. The word that lowered comes again; the primary acknowledges a write alone, and is lost."""
    play = Play(rules, TWO, want=2, copies=2)
    permit = play.approve(1)
    late = play.controller.lowers()
    for lower in late:
        play.deliver(lower)
    play.do(play.host(1).restarted(permit))
    raise_again(play)
    for lower in late:
        play.deliver(lower)
    play.write(7, copies=())
    play.fail_over(0, (ABSENT, SECONDARY, ABSENT))


def raise_again(play: Play) -> None:
    """The primary asks for all copies again, and the controller hears of it."""
    play.raise_copies()
    for copied in play.world.network.copied:
        play.do(copied)


def restart_of_one_that_is_still_there(rules: Rules) -> None:
    """Two copies are asked for, and the one secondary may go down. It is still there, and has all; then it goes."""
    play = Play(rules, TWO, want=2, copies=2)
    play.approve(1)
    raise_again(play)
    play.host(1).is_alive = False
    play.write(7, copies=())
    must(7 in play.world.writes.acknowledged[0], "nothing is acknowledged while a server restarts by leave")


def raise_that_is_forgotten(rules: Rules) -> None:
    """A secondary was down by leave, and is back. The primary asks for all copies again, says so, and crashes."""
    play = Play(rules, TWO, want=2, copies=2)
    permit = play.approve(1)
    for lower in play.controller.lowers():
        play.deliver(lower)
    play.do(play.host(1).restarted(permit))
    raise_again(play)
    play.crash(0)
    play.write(7, copies=())
    play.fail_over(0, (ABSENT, SECONDARY, ABSENT))


def copied_of_an_earlier_permit(rules: Rules) -> None:
    """A secondary was down by leave twice. What the primary said after the first time comes again after the second."""
    play = Play(rules, TWO, want=2, copies=2)
    for _ in range(2):
        permit = play.approve(1)
        for lower in play.controller.lowers():
            play.deliver(lower)
        play.do(play.host(1).restarted(permit))
        if not play.world.network.copied:
            raise_again(play)
    play.do(play.world.network.copied[0])
    play.write(7, copies=())
    play.fail_over(0, (ABSENT, SECONDARY, ABSENT))


def copied_before_another_primary(rules: Rules) -> None:
    """A secondary was down by leave, and is back; the primary asks for both copies again, and says so. Before this
    comes, the shard is handed to another server, and back, where one copy is asked for."""
    play = Play(rules, TWO, want=2, copies=2)
    permit = play.approve(1)
    for lower in play.controller.lowers():
        play.deliver(lower)
    play.do(play.host(1).restarted(permit))
    play.raise_copies()
    late = play.world.network.copied[0]
    for old, new in ((0, 2), (2, 0)):
        play.hand(old, new)
        for _ in range(8):
            play.turn()
    play.do(late)
    play.write(7, copies=())
    play.fail_over(0, (ABSENT, SECONDARY, ABSENT))


def copied_in_a_handover(rules: Rules) -> None:
    """A handover is under way, whose new owner was prepared while one copy was asked for. The primary says that all are
    there again; the new owner acknowledges alone, and is lost with the old one."""
    play = Play(rules, TWO, want=2, copies=2)
    permit = play.approve(1)
    for lower in play.controller.lowers():
        play.deliver(lower)
    play.hand(0, 2)
    play.turn(silent=frozenset({1}))
    play.do(play.host(1).restarted(permit))
    raise_again(play)
    play.deliver(play.controller.orders()[0])
    for seal in play.world.writes.seals:
        play.world.deliver_seal(seal)
    play.world.writes.new_write(0)
    play.request(0, play.world.writes.requests[-1])
    passed = play.world.writes.passed[-1]
    play.request(2, passed.write, passed.passed)
    play.world.finish(play.host(2), passed.write)
    play.host(2).copy(0).flush()
    play.acknowledge()
    play.lose(0)
    play.lose(2)
    play.reopening({0, 2}, (ABSENT, SECONDARY, ABSENT))
    play.settle()


def drop_that_gets_no_leave(rules: Rules) -> None:
    """Two copies are asked for, and a plan drops one of two replicas: it would wait for leave for ever."""
    play = Play(rules, TWO, want=2, cap=1, copies=2)
    play.write(7, copies=(1,))
    play.drop(1)
    for _ in range(4):
        play.step()
    must(not any(True for _ in play.controller.record.running()), "a drop waits for leave for ever")


def drop_behind_a_handover(rules: Rules) -> None:
    """The same for a stream that hands the shard over first: the new owner takes the place of the old one."""
    play = Play(rules, TWO, want=2, cap=1, copies=2)
    play.write(7, copies=(1,))
    rights = (CrownRight(0), play.controller.record.crown(0)), (CellRight(0, 2), ABSENT), (RoomRight(2), 1)
    play.begin((*handover(0, 0, 2), drop(0, 1)), *rights, (CellRight(0, 1), SECONDARY), (SpareRight(0), 1))
    for _ in range(9):
        play.turn()
    must(not any(True for _ in play.controller.record.running()), "a drop waits for leave for ever")


def first_replicas(rules: Rules) -> None:
    """A shard has no replica. Of two streams one adds its primary, and the other one a secondary: each order names the
    other server."""
    play = Play(rules, (ABSENT, ABSENT, ABSENT), want=2, cap=2)
    crown = (CrownRight(0), play.controller.record.crown(0))
    primary = {crown[0]: crown[1], CellRight(0, 0): ABSENT, RoomRight(0): 1}
    secondary = {CellRight(0, 1): ABSENT, RoomRight(1): 1}
    streams = Stream(primary, (add(0, 0, Kind.PRIMARY),)), Stream(secondary, (add(0, 1, Kind.SECONDARY),))
    play.do(Begin("both", Plan(streams)))
    for _ in range(4):
        play.turn()
    must(not any(True for _ in play.controller.record.running()), "two servers wait for each other")


def first_primary_waits(rules: Rules) -> None:
    """The primary becomes a secondary, and another server is to be added as the primary: it may not begin beside."""
    play = Play(rules, TWO, want=3, cap=3)
    play.change_to_secondary()
    for _ in range(3):
        play.turn()
    rights = (CrownRight(0), play.controller.record.crown(0)), (CellRight(0, 2), ABSENT), (RoomRight(2), 1)
    play.begin((add(0, 2, Kind.PRIMARY),), *rights)
    for _ in range(4):
        play.turn()
    must(not any(True for _ in play.controller.record.running()), "a first primary waits for ever")


def added_late(play: Play, last: int, *before: Instruction) -> None:
    """Another stream first does this and adds a replica of another shard, and then one of this shard at server 2. The
    last replica's drop, while a request runs there, has begun before that; its order names nobody else."""
    rights = (CellRight(1, 2), ABSENT), (CellRight(0, 2), ABSENT), (RoomRight(2), 2)
    more = ((CellRight(0, 1), SECONDARY), (SpareRight(0), 1)) if before else ()
    play.begin((*before, add(1, 2, Kind.SECONDARY), add(0, 2, Kind.SECONDARY)), *rights, *more)
    for _ in before:
        play.step_of_plan(1)
    write = Write(0, 7)
    for _ in range(9):
        if play.world.row(0)[last] == PRIMARY and not play.host(last).running:
            play.request(last, write)
        play.step_of_plan(0)
        for seal in play.world.writes.seals:
            play.world.deliver_seal(seal)
        if play.world.row(0)[last].kind is not Kind.PRIMARY:
            play.copy(last, 0)
    for shard in (1, 0):
        for order in play.controller.orders():
            if order.server == 2:
                play.world.deliver(order)
                play.world.follow_one(play.host(2), play.host(last if shard == 0 else 0), shard)
                play.world.work(play.host(2), order)
        play.take_answers()
    play.world.finish(play.host(last), write)
    play.host(last).copy(0).flush()
    play.acknowledge()
    play.work([play.host(last)])


def added_beside_one_handed_over(rules: Rules) -> None:
    """A stream hands a shard's one replica over, and drops it at the new owner."""
    play = Play(rules, ALONE, want=2, cap=2, beside=(ALONE,))
    rights = (CrownRight(0), play.controller.record.crown(0)), (CellRight(0, 1), ABSENT), (RoomRight(1), 1)
    play.begin((*handover(0, 0, 1), unlist(0), drop(0, 1)), *rights, (SpareRight(0), 1))
    added_late(play, 1)


def added_behind_a_drop(rules: Rules) -> None:
    """One stream drops the primary; another one drops the secondary before it adds a replica."""
    play = Play(rules, TWO, want=2, cap=2, beside=(ALONE,))
    play.drop_primary()
    added_late(play, 0, drop(0, 1))


def added_beside_the_last(rules: Rules) -> None:
    """A shard's one replica is to be dropped, while a request runs there. Another plan adds a secondary, which copies
    it. The request ends, and is acknowledged; then the drop is done, whose order named nobody else."""
    play = Play(rules, ALONE, want=2, cap=2)
    write = Write(0, 7)
    play.request(0, write)
    play.drop_primary()
    for _ in range(2):
        play.step()
    play.add_secondary(1)
    for order in play.controller.orders():
        if order.server == 1:
            play.world.deliver(order)
            play.copy(1, 0)
            play.work([play.host(1)])
    play.world.finish(play.host(0), write)
    play.host(0).copy(0).flush()
    play.acknowledge()
    play.work([play.host(0)])


PLAYS = (
    Worked(disk_of_a_primary, "primary_has_data"),
    Worked(disk_lost_while_it_asks, "loss_renews"),
    Worked(restored_with_nothing, "empty_is_down"),
    Worked(disk_that_went_back, "doubt_told"),
    Worked(only_disk_in_doubt, "doubt_kept"),
    Worked(silent_secondary_has_all, "members_awaited"),
    Worked(primary_alone_had_it, "loss_named", beside=("loss_confirmed",)),
    Worked(confirmed_unread, "loss_confirmed"),
    Worked(copy_that_a_settle_takes_away, "set_aside"),
    Worked(copy_that_is_made_anew, "set_aside"),
    Worked(copy_of_another_view, "views_compared"),
    Worked(view_of_a_later_journal, "views_below"),
    Worked(unknown_with_all, "unknown_data_counts"),
    Worked(secondary_lags_behind_a_prepared, "position_wins"),
    Worked(told_before_the_primary_stopped, "asked_after"),
    Worked(order_not_recorded, "ordered_counted"),
    Worked(fewer_copies_for_a_while, "replaced_counted"),
    Worked(party_gives_up_its_copy, "copies_kept"),
    Worked(two_copies_of_unlike_ones, "copies_at_successor"),
    Worked(reopened_before_a_restart, "down_uncounted"),
    Worked(a_counted_replica_goes, "copies_left"),
    Worked(restart_stops_nobody, "down_lowers"),
    Worked(lowered_by_a_late_word, "lower_numbered"),
    Worked(restart_of_one_that_is_still_there, "raised_by_those_that_stay"),
    Worked(raise_that_is_forgotten, "raise_stored"),
    Worked(copied_of_an_earlier_permit, "copied_named"),
    Worked(copied_before_another_primary, "primary_renumbers"),
    Worked(copied_in_a_handover, "copied_at_rest"),
    Worked(drop_that_gets_no_leave, "drops_leave_copies"),
    Worked(drop_behind_a_handover, "drops_leave_copies"),
    Worked(added_beside_the_last, "last_is_alone"),
    Worked(added_beside_one_handed_over, "last_is_alone"),
    Worked(added_behind_a_drop, "last_is_alone"),
    Worked(first_replicas, "first_is_alone"),
    Worked(first_primary_waits, "first_is_alone"),
)
