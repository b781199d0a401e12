"""Worked plays on writes and copies: what leaves a server, who is counted, and how copies come."""
from __future__ import annotations

from driving_model.cells import ABSENT, PRIMARY, SECONDARY
from driving_model.messages import BASE_STEP, Fence

from .copies import Began
from .play import ALL, ALONE, Play, TWO
from .rules import Rules
from .worked import Worked, must


def crash_loses_what_a_follower_has(rules: Rules) -> None:
    """The primary executes 8, which comes to a secondary, and loses it by a crash. It goes on with 9 in its place. The
    secondary tells two writes, and is counted for 9."""
    play = Play(rules, ALL, want=3, cap=1)
    play.write(7, copies=(1, 2))
    play.execute(0, 8)
    play.copy(1, 0)
    play.crash(0)
    play.write(9, copies=())
    play.fail_over(0, (ABSENT, SECONDARY, SECONDARY))


def acknowledged_in_memory(rules: Rules) -> None:
    """A primary acknowledges a write alone that is not durable yet, and crashes."""
    play = Play(rules, ALONE, want=1)
    play.execute(0, 7)
    play.acknowledge()
    play.crash(0)
    play.world.check()


def acknowledged_at_one(rules: Rules) -> None:
    """Two copies are asked for, and the primary acknowledges alone; it is lost."""
    play = Play(rules, TWO, want=2, copies=2)
    play.write(7, copies=())
    play.fail_over(0, (ABSENT, SECONDARY, ABSENT))


def read_of_what_is_lost(rules: Rules) -> None:
    """A read shows a write that nobody but the primary has, and that was never acknowledged. The primary is lost."""
    play = Play(rules, TWO, want=2, copies=2)
    play.write(7, copies=())
    play.world.read(play.host(0), 0)
    play.fail_over(0, (ABSENT, SECONDARY, ABSENT))


def told_before_it_is_durable(rules: Rules) -> None:
    """A secondary tells a write that is not durable there, and loses it by a crash. The primary is lost."""
    play = Play(rules, TWO, want=2, copies=2)
    play.execute(0, 7)
    play.host(0).copy(0).flush()
    play.copy(1, 0)
    play.world.tell(0, play.world.row(0))
    for word in list(play.world.words):
        play.world.hear_word(word)
    play.acknowledge()
    play.crash(1)
    play.fail_over(0, (ABSENT, SECONDARY, ABSENT))


def part_of_a_copy(rules: Rules) -> None:
    """A secondary with a new disk copies anew, of which a part has come when the primary is lost. The other secondary
    has all that was acknowledged, and tells less."""
    play = Play(rules, ALL, want=3, copies=2)
    play.write(7, copies=(2,))
    play.world.lose(play.host(1))
    play.restore(1)
    for write in (8, 9):
        play.execute(0, write)
    play.host(0).copy(0).flush()
    play.copy(1, 0, most=2)
    play.fail_over(0, (ABSENT, SECONDARY, SECONDARY))


def counted_before_its_commit(rules: Rules) -> None:
    """A secondary is added, has copied all, and follows a write that the other one lacks; its order has not committed
    yet. The primary is lost."""
    play = Play(rules, TWO, want=3, cap=1, copies=2)
    play.write(7, copies=(1,))
    play.add_secondary(2)
    play.deliver_orders()
    play.write(8, copies=(2,))
    play.fail_over(0, (ABSENT, SECONDARY, ABSENT))


def position_without_its_view(rules: Rules) -> None:
    """A secondary of an older list, which is longer, tells two writes; the primary has two of another list. It is
    lost."""
    play = Play(rules, TWO, want=2, copies=2)
    play.write(7, copies=(1,))
    primary, secondary = play.host(0).copy(0), play.host(1).copy(0)
    primary.put([7], [Began(0, 0), Began(1, 1)], True)
    secondary.put([7, 8], [Began(0, 0)], True)
    play.execute(0, 9)
    play.tell_all()
    play.acknowledge()
    play.fail_over(0, (ABSENT, SECONDARY, ABSENT))


def counted_at_an_earlier_view(rules: Rules) -> None:
    """A list goes on in a view that is lost, and named; another server takes up the list before it, and counts a
    secondary that has all of it, but not its own view. It is lost, and the server of the lost view is back: its view is
    the later one."""
    play = Play(rules, ALL, want=3, copies=2)
    play.write(7, copies=(1, 2))
    play.execute(0, 8)
    play.host(0).copy(0).flush()
    play.copy(1, 0)
    for server in (0, 1):
        play.lose(server)
    play.reopening({0, 1}, (ABSENT, ABSENT, SECONDARY))
    play.settle()
    play.write(9, copies=(), primary=2)
    play.come_back(0)
    play.come_back(1)
    play.fail_over(2, (SECONDARY, SECONDARY, ABSENT))
    play.tell_all()
    play.acknowledge()
    play.come_back(2)
    play.fail_over(0, (ABSENT, SECONDARY, SECONDARY))


def counted_by_an_old_word(rules: Rules) -> None:
    """Three copies are asked for. A secondary has told a write that the other one lacks, and loses its disk. A
    reopening leaves it out, and two copies are enough: the primary still counts it."""
    play = Play(rules, ALL, want=3, cap=1, copies=3)
    play.write(7, copies=(1,))
    play.world.lose(play.host(1))
    play.reopening(set(), (PRIMARY, ABSENT, SECONDARY))
    play.settle()
    play.acknowledge()
    play.fail_over(0, (ABSENT, ABSENT, SECONDARY))


def heard_before_it_handed_over(rules: Rules) -> None:
    """A primary hands over, and drops its copy. It is to be primary again; meanwhile the secondary that has all leaves,
    too. The primary still knows what that told it before, and lets the other owner go. The secondary that is left
    lags."""
    play = Play(rules, (PRIMARY, SECONDARY, SECONDARY, ABSENT), want=3, cap=2, copies=2)
    play.write(7, copies=(1, 2))
    play.write(8, copies=(1,))
    for owner, new_owner in ((0, 3), (3, 0)):
        play.hand(owner, new_owner)
        play.deliver_orders()
        play.copy(new_owner, owner)
        play.work([play.host(new_owner)])
        play.take_answers()
        if owner == 3:
            play.drop(1)
            for _ in range(3):
                play.step_of_plan(2)
        for _ in range(9):
            play.turn(copies=False)
    play.fail_over(0, (ABSENT, ABSENT, SECONDARY, SECONDARY))


def new_disk_of_a_follower(rules: Rules) -> None:
    """A secondary has started twice. Then its disk is replaced, and it has copied anew."""
    play = Play(rules, TWO, want=2, copies=2)
    for _ in range(2):
        play.crash(1)
    play.write(7, copies=(1,))
    play.world.lose(play.host(1))
    play.restore(1)
    play.write(8, copies=(1,))
    must(8 in play.world.writes.acknowledged[0], "a replica that has all is not counted")


def counted_though_given_up(rules: Rules) -> None:
    """A secondary that the controller does not reach is given up, and goes on to follow. The primary counts it for a
    write; the other secondary lags. The primary is lost."""
    play = Play(rules, ALL, want=3, cap=1, copies=2)
    play.host(1).is_cut_off = True
    play.reopening({1}, (PRIMARY, ABSENT, SECONDARY))
    play.settle()
    play.raise_copies()
    for copied in play.world.network.copied:
        play.do(copied)
    play.write(7, copies=(1,))
    play.lose(0)
    play.reopening({0, 1}, (ABSENT, ABSENT, SECONDARY))
    play.settle()


def handed_while_down(rules: Rules) -> Play:
    """Two copies are asked for. A secondary is to go down by leave; it is still there, and the primary has asked for both
    again. The shard is handed to a new owner, which lacks a write that the old one and the secondary have."""
    play = Play(rules, TWO, want=2, copies=2)
    play.approve(1)
    play.raise_copies()
    for copied in play.world.network.copied:
        play.do(copied)
    play.hand(0, 2)
    play.deliver_orders()
    play.copy(2, 0)
    play.work([play.host(2)])
    play.take_answers()
    play.write(7, copies=(1,))
    play.deliver(play.controller.orders()[0])
    return play


def copied_from_a_new_owner_below_its_cut(rules: Rules) -> None:
    """The secondary's disk is replaced, and it copies from the new owner."""
    play = handed_while_down(rules)
    play.world.lose(play.host(1))
    play.restore(1)
    for _ in range(3):
        play.world.follow_one(play.host(1), play.host(2), 0)
    play.world.check()


def copied_from_an_old_owner(rules: Rules) -> None:
    """The new owner reaches its cut, and has a write more with the secondary. Then that one's disk is replaced, and it
    copies from the old owner, which has not followed yet."""
    play = handed_while_down(rules)
    play.world.deliver_seal(play.world.writes.seals[-1])
    play.copy(2, 0)
    play.request(0, play.world.writes.new_write(0))
    passed = play.world.writes.passed[-1]
    play.request(2, passed.write, passed.passed)
    play.world.finish(play.host(2), passed.write)
    play.host(2).copy(0).flush()
    play.copy(1, 2)
    play.tell_all()
    play.acknowledge()
    play.world.lose(play.host(1))
    play.restore(1)
    for _ in range(3):
        play.world.follow_one(play.host(1), play.host(0), 0)
    play.world.check()


def stream_lost_by_who_has_more(rules: Rules) -> None:
    """A secondary has lost its stream, and has more than the new owner that it follows, which is below its cut."""
    play = Play(rules.without("anew_of_acknowledger"), (PRIMARY, SECONDARY, ABSENT), want=2, copies=2)
    play.hand(0, 2)
    play.turn()
    play.write(7, copies=(1,))
    play.deliver(play.controller.orders()[0])
    play.host(1).at[0].has_lost_stream = True
    for _ in range(3):
        play.world.follow_one(play.host(1), play.host(2), 0)
    play.world.check()


def returned(rules: Rules) -> Play:
    """The primary and a secondary are lost; the other one, which has nothing, becomes primary, as was named. Both come
    back, the former primary with its data, and are taken as secondaries again."""
    play = Play(rules, ALL, want=3, cap=2)
    play.write(7, copies=(1,))
    play.write(8, copies=(1,))
    play.lose(0)
    play.lose(1)
    play.reopening({0, 1}, (ABSENT, ABSENT, SECONDARY))
    play.settle()
    play.come_back(0)
    play.come_back(1, with_data=False)
    play.reopening(set(), (SECONDARY, SECONDARY, PRIMARY))
    play.settle()
    return play


def going_on_behind_another_list(rules: Rules) -> None:
    """The server that came back follows the new primary from its old position on. Then that is lost."""
    play = returned(rules)
    for write in (9, 10, 11):
        play.write(write, copies=(), primary=2)
    for server in (0, 1):
        play.copy(server, 2)
    play.tell_all()
    play.acknowledge()
    play.fail_over(2, (SECONDARY, SECONDARY, ABSENT))


def new_owner_is_behind(rules: Rules) -> None:
    """The old owner follows the new one, which has not reached the cut yet."""
    play = Play(rules, ALONE, want=1)
    play.hand(0, 1)
    play.turn()
    play.write(7, copies=())
    play.deliver(play.controller.orders()[0])
    play.copy(0, 1)
    play.world.say("the old owner has followed")
    play.world.check()


def copied_anew_in_place(rules: Rules) -> None:
    """A secondary has lost its stream, and copies anew what it has: it deletes a copy that was counted."""
    play = Play(rules, ALL, want=3, copies=2)
    play.write(7, copies=(1,))
    play.host(1).at[0].has_lost_stream = True
    sent = play.host(0).copy(0).sent(True)
    play.world.dice.choice = lambda items: 0
    play.world.copy_anew(play.host(1), 0, sent)
    play.world.check()


def stray_fence(rules: Rules) -> None:
    """A fence of a number that was mistyped comes to a server. Nobody settles it."""
    play = Play(rules, TWO, want=2)
    play.world.deliver(Fence(1, (1 << 31) * BASE_STEP, 77))
    play.finish_all()


def view_before_its_writes(rules: Rules) -> None:
    """A secondary that lags follows another one that became primary by `change`, and has its view, but not all writes
    before that. The primary is lost; the former one has them."""
    play = Play(rules, ALL, want=3, cap=1, copies=2)
    play.write(7, copies=(1, 2))
    play.write(8, copies=(1,))
    play.change_to_secondary()
    for _ in range(2):
        play.step()
    play.change_to_primary(1)
    for _ in range(3):
        play.step()
    play.follow(2, 1, most=1)
    play.tell_all()
    play.fail_over(1, (SECONDARY, ABSENT, SECONDARY))


PLAYS = (
    Worked(crash_loses_what_a_follower_has, "durable_first"),
    Worked(acknowledged_in_memory, "own_durable"),
    Worked(acknowledged_at_one, "enough_acknowledge"),
    Worked(read_of_what_is_lost, "replies_wait"),
    Worked(told_before_it_is_durable, "told_flushed"),
    Worked(part_of_a_copy, "part_untold"),
    Worked(counted_before_its_commit, "told_committed"),
    Worked(position_without_its_view, "told_at_view"),
    Worked(counted_at_an_earlier_view, "told_at_view"),
    Worked(counted_by_an_old_word, "counted_settled"),
    Worked(counted_though_given_up, "counted_settled"),
    Worked(heard_before_it_handed_over, "work_ends_connections"),
    Worked(new_disk_of_a_follower, "numbers_rise"),
    Worked(copied_from_a_new_owner_below_its_cut, "anew_of_acknowledger", beside=("raised_by_those_that_stay",)),
    Worked(copied_from_an_old_owner, "anew_of_acknowledger", beside=("raised_by_those_that_stay",)),
    Worked(stream_lost_by_who_has_more, "lesser_waits"),
    Worked(going_on_behind_another_list, "views_resumed"),
    Worked(view_before_its_writes, "views_in_turn"),
    Worked(new_owner_is_behind, "lesser_waits"),
    Worked(copied_anew_in_place, "anew_beside"),
    Worked(stray_fence, "fence_bounded"),
)
