"""Worked plays on questions between replicas: leave to drop, and who may become primary."""
from __future__ import annotations

from driving_model.cells import ABSENT, GONE, Kind, Lead, PRIMARY, SECONDARY, Stage
from driving_model.messages import Order
from driving_model.plans import CellRight, Crown, CrownRight, RoomRight, add, change, unlist

from .play import ALL, ALONE, Play, TWO
from .rules import Rules
from .worked import Worked, must


def asking(rules: Rules) -> Play:
    """Three replicas have 7, two copies are asked for; a secondary is to be dropped, and is at work."""
    play = Play(rules, ALL, want=3, copies=2)
    play.write(7, copies=(1, 2))
    play.drop(1)
    play.deliver_orders()
    return play


def abandon(play: Play, server: int) -> None:
    """A server gives its order up, which comes again later; it tells what it has."""
    play.world.give_up(play.host(server))
    play.tell_all()


def drop_without_its_primary(rules: Rules) -> None:
    """A secondary is to be dropped. The primary is lost before; the secondary has all."""
    play = Play(rules, TWO, want=2, cap=1)
    play.write(7, copies=(1,))
    play.drop(1)
    play.lose(0)
    play.turn()


def leave_while_one_is_down(rules: Rules) -> None:
    """Two copies are asked for: the primary and a secondary have 7. The other secondary is down by leave, so one is
    enough to acknowledge; but the first one may not go."""
    play = Play(rules, ALL, want=3, cap=2, copies=2)
    play.write(7, copies=(1,))
    permit = play.approve(2)
    play.crash(2)
    play.host(2).is_alive = False
    for lower in play.controller.lowers():
        play.deliver(lower)
    play.drop(1)
    for _ in range(3):
        play.step(0, 1)
    assert permit in play.controller.record.permits.values()


def handed_over_where_one_is_missing(rules: Rules) -> None:
    """Three copies are wanted, and there are two replicas, and a third one while the shard is handed over, and back."""
    play = Play(rules, TWO, want=3, copies=3)
    play.write(7, copies=(1,))
    for old, new in ((0, 2), (2, 0)):
        play.hand(old, new)
        for _ in range(9):
            play.turn()
            play.raise_copies()
            for copied in play.world.network.copied:
                play.do(copied)
    must(play.world.row(0)[0] == PRIMARY, "an old owner waits for leave for ever")


def moved_where_one_is_missing(rules: Rules) -> None:
    """The same where a secondary is moved: it is dropped once another one has all."""
    play = Play(rules, TWO, want=3, cap=3, copies=3)
    play.write(7, copies=(1,))
    play.move_secondary(1, 2)
    for _ in range(9):
        play.turn(silent=frozenset({1}))
        play.raise_copies()
        play.deliver_orders()
    play.finish_all()


def drop_without_a_primary_where_one_is_missing(rules: Rules) -> None:
    """Three copies are wanted, and there are two replicas. The primary becomes a secondary; a third replica is added,
    and then one of the others is dropped."""
    play = Play(rules, TWO, want=3, cap=3, copies=3)
    play.write(7, copies=(1,))
    play.change_to_secondary()
    for _ in range(3):
        play.turn()
    play.move_secondary(1, 2)
    for _ in range(9):
        play.turn()
    must(play.world.row(0)[1] == ABSENT, "a secondary waits for leave for ever")


def leave_after_a_start(rules: Rules) -> None:
    """The primary and a secondary have a write. The primary starts again, and hears of the other secondary, which lags;
    it acknowledges what that has. Then the first one asks for leave."""
    play = Play(rules, ALL, want=3, copies=2)
    play.write(7, copies=(1, 2))
    play.write(8, copies=(1,))
    play.crash(0)
    play.drop(1)
    play.deliver_orders()
    question = play.question(1, 0)
    play.tell_all()
    play.acknowledge()
    answer = play.answer(question)
    if answer:
        play.world.take_answer(answer)
    play.work([play.host(1)])


def leave_by_a_new_owner_below_its_cut(rules: Rules) -> None:
    """The old owner and a secondary have a write. The new owner is handed the shard, and has not got it yet. It gives
    the secondary leave, since another one has all that it has."""
    play = Play(rules, (PRIMARY, SECONDARY, SECONDARY, ABSENT), want=3, copies=2)
    play.hand(0, 3)
    play.turn()
    play.write(7, copies=(1,))
    play.deliver(play.controller.orders()[0])
    play.take_answers()
    play.drop(1)
    play.deliver_orders()
    play.tell_all()
    play.work([play.host(1)])


def tells_while_it_asks(rules: Rules) -> None:
    """A leaver asks, and tells a write on a new connection, for which it is counted. Then the answer to its question
    comes."""
    play = asking(rules)
    answer = play.answer(play.question(1, 0))
    play.host(1).at[0].connection += 1
    play.write(8, copies=(1,))
    play.world.take_answer(answer)
    play.work([play.host(1)])


def counted_though_it_leaves(rules: Rules) -> None:
    """A leaver told that it has 8, and asks. Its question comes first, then its word: the primary counts it, and it
    goes."""
    play = Play(rules, ALL, want=3, copies=2)
    play.write(7, copies=(1, 2))
    play.execute(0, 8)
    play.host(0).copy(0).flush()
    play.copy(1, 0)
    play.host(1).copy(0).flush()
    play.world.words.clear()
    play.world.tell(0, play.world.row(0))
    late = [it for it in play.world.words if it.by == 1]
    play.drop(1)
    play.deliver_orders()
    answer = play.answer(play.question(1, 0))
    for word in late:
        play.world.hear_word(word)
    play.acknowledge()
    play.world.take_answer(answer)
    play.work([play.host(1)])


def counted_by_what_was_said_before_a_start(rules: Rules) -> None:
    """A leaver told that it has 8, asks, and gets leave. The primary starts anew, and knows nothing of it; then the
    word comes, and the answer."""
    play = Play(rules, ALL, want=3, copies=2)
    play.write(7, copies=(1, 2))
    play.execute(0, 8)
    play.host(0).copy(0).flush()
    play.copy(1, 0)
    play.host(1).copy(0).flush()
    play.world.words.clear()
    play.world.tell(0, play.world.row(0))
    late = [it for it in play.world.words if it.by == 1]
    play.drop(1)
    play.deliver_orders()
    answer = play.answer(play.question(1, 0))
    play.crash(0)
    for word in late:
        play.world.hear_word(word)
    play.acknowledge()
    play.world.take_answer(answer)
    play.work([play.host(1)])


def primary_goes_while_it_is_asked(rules: Rules) -> None:
    """A secondary is to be dropped, and waits for the primary's leave. The primary becomes a secondary, and only then
    the question could be answered."""
    play = Play(rules, ALL, want=3, copies=2)
    play.write(7, copies=(1, 2))
    play.drop(1)
    play.deliver_orders()
    play.change_to_secondary()
    for _ in range(4):
        play.step_of_plan(1)
    for _ in range(3):
        play.step()
    must(play.world.row(0)[1] == ABSENT, "a drop waits for a primary that is none")


def leave_by_an_old_message(rules: Rules) -> None:
    """Two copies are asked for, of five replicas. The primary becomes a secondary; another one is to be dropped, by an
    order that knows of no primary. The former one is primary again, and counts the other one for a write that the last
    replica lacks. Only now the order comes: others give leave. Then the primary lets these go, too, since it counts who
    is gone."""
    play = Play(rules, (PRIMARY, SECONDARY, SECONDARY, SECONDARY, SECONDARY), want=5, cap=4, copies=2)
    play.write(7, copies=(1, 2, 3, 4))
    play.change_to_secondary()
    for _ in range(3):
        play.step()
    play.drop(1)
    late = play.sent_to(1, Order)[-1]
    play.change_to_primary(0)
    for _ in range(3):
        play.step_of_plan(2)
    play.write(8, copies=(1, 2, 3))
    play.world.deliver(late)
    for leaver, asked in ((1, (2, 3)), (2, (0,)), (3, (0,))):
        if leaver > 1:
            play.drop(leaver)
            play.world.deliver(play.sent_to(leaver, Order)[-1])
        for answer in filter(None, [play.answer(play.question(leaver, it)) for it in asked]):
            play.world.take_answer(answer)
        play.work([play.host(leaver)])
        play.take_answers()


def answer_comes_late(rules: Rules) -> None:
    """A leaver has asked, abandoned its order, and told a write anew; it asks again, and the first answer comes."""
    play = asking(rules)
    late = play.answer(play.question(1, 0))
    abandon(play, 1)
    play.write(8, copies=(1,))
    play.deliver_orders()
    play.question(1, 0)
    play.world.take_answer(late)
    for order in list(play.host(1).workers):
        play.world.work(play.host(1), order)
    play.world.check()


def question_comes_late(rules: Rules) -> None:
    """A leaver asks, abandons its order, tells, and asks again: the primary gives leave for the new connection. Then
    the first question comes late, and a word of between: is the leaver counted again?"""
    play = asking(rules)
    first = play.question(1, 0)
    abandon(play, 1)
    play.execute(0, 8)
    play.host(0).copy(0).flush()
    play.copy(1, 0)
    play.host(1).copy(0).flush()
    play.world.words.clear()
    play.world.tell(0, play.world.row(0))
    late = [it for it in play.world.words if it.by == 1]
    play.deliver_orders()
    answer = play.answer(play.question(1, 0))
    play.answer(first)
    for word in late:
        play.world.hear_word(word)
    play.acknowledge()
    play.world.take_answer(answer)
    for order in list(play.host(1).workers):
        play.world.work(play.host(1), order)
    play.world.check()


def leave_that_came_to_nothing(rules: Rules) -> None:
    """A leaver got leave, and abandoned its order. It is counted again."""
    play = asking(rules)
    play.answer(play.question(1, 0))
    abandon(play, 1)
    play.write(8, copies=(1,))
    must(8 in play.world.writes.acknowledged[0], "a replica that stays is not counted")


def two_that_ask_each_other(rules: Rules) -> None:
    """The primary and the one secondary are both to be dropped."""
    play = Play(rules, TWO, want=2, cap=2)
    play.write(7, copies=(1,))
    play.drop_primary()
    play.drop(1)
    for _ in range(3):
        play.deliver_orders()
        play.take_answers()
    questions = [play.question(0, 1), play.question(1, 0)]
    answers = [play.answer(it) for it in questions]
    for answer in filter(None, answers):
        play.world.take_answer(answer)
    for _ in range(4):
        play.step()
    must(play.world.row(0).count(ABSENT) >= 2, "two replicas wait for each other")


def change_of_an_empty_secondary(rules: Rules) -> None:
    """The primary becomes a secondary. The other one's disk is replaced; it is to become the primary."""
    play = Play(rules, TWO, want=2, cap=2)
    play.write(7, copies=(1,))
    play.change_to_secondary()
    for _ in range(3):
        play.turn()
    play.change_to_primary(1)
    play.world.lose(play.host(1))
    play.host(1).server.restore(play.controller.restore_of(1, play.host(1).server.nonce))
    for _ in range(2):
        play.step()


def change_with_one_dead(rules: Rules) -> None:
    """The primary becomes a secondary, one secondary crashes, and the other is to be primary: two copies are asked
    for."""
    play = Play(rules, ALL, want=3, copies=2)
    play.write(7, copies=(1, 2))
    play.change_to_secondary()
    for _ in range(2):
        play.step()
    play.crash(2)
    play.host(2).is_alive = False
    play.change_to_primary(1)
    for _ in range(3):
        play.step(0, 1)
    must(PRIMARY in play.world.row(0), "nobody becomes primary")


def change_by_the_former_primary(rules: Rules) -> None:
    """The same where one copy is asked for: only the former primary is sure to have all."""
    play = Play(rules, ALL, want=3, cap=2)
    play.write(7, copies=(1, 2))
    play.change_to_secondary()
    for _ in range(2):
        play.step()
    play.crash(2)
    play.host(2).is_alive = False
    play.change_to_primary(1)
    for _ in range(3):
        play.step(0, 1)
    must(PRIMARY in play.world.row(0), "nobody becomes primary")


def change_back(rules: Rules) -> None:
    """The primary becomes a secondary. All others crash, and it is to be primary again."""
    play = Play(rules, TWO, want=2, cap=2)
    play.write(7, copies=(1,))
    play.change_to_secondary()
    for _ in range(2):
        play.step()
    play.crash(1)
    play.host(1).is_alive = False
    play.change_to_primary(0)
    for _ in range(2):
        play.step(0)
    must(PRIMARY in play.world.row(0), "nobody becomes primary")


def without_a_primary(rules: Rules) -> Play:
    """A primary and a secondary have 7, another one lags; one copy is asked for. The primary is dropped by leave, and
    then the first secondary loses its disk, and is restored."""
    play = Play(rules, ALL, want=3, cap=2)
    play.write(7, copies=(1,))
    play.drop_primary()
    for _ in range(4):
        play.step()
    assert play.world.row(0)[0] == ABSENT, play.world.row(0)
    play.world.lose(play.host(1))
    play.restore(1)
    play.do(play.host(1).restarted(play.controller.record.permits[1]))
    return play


def change_counts_none(rules: Rules) -> None:
    """The secondary that has lost all tells that it has nothing; the other one, which lags, is to be primary."""
    play = without_a_primary(rules)
    play.change_to_primary(2)
    play.step()


def copy_from_the_lesser(rules: Rules) -> None:
    """The secondary that has lost all copies from the one that lags, which is the greatest that is there. Then both
    have whole copies, and one is to be primary."""
    play = without_a_primary(rules)
    play.world.is_fair = True
    for _ in range(6):
        play.world.follow(0)
    play.change_to_primary(2)
    play.step()


def copied_while_an_answer_is_late(rules: Rules) -> None:
    """Of four replicas the primary and one whose `add` is not recorded yet have 7. The primary becomes a secondary, and
    loses its disk; the other one is down. It copies from one of two that lag: by the replicas that it was told of none
    has more. Then one of these three is to be primary."""
    play = Play(rules, (PRIMARY, SECONDARY, SECONDARY, ABSENT), want=4, cap=3, copies=3)
    permit = play.approve(1)
    for lower in play.controller.lowers():
        play.deliver(lower)
    play.do(play.host(1).restarted(permit))
    play.add_secondary(3)
    order = play.controller.orders()[0]
    play.world.deliver(order)
    play.copy(3, 0)
    play.world.work(play.host(3), order)
    play.write(7, copies=(3,))
    play.host(3).is_alive = False
    play.change_to_secondary()
    for _ in range(2):
        play.step_of_plan(1)
    play.world.lose(play.host(0))
    play.restore(0)
    play.world.is_fair = True
    for _ in range(6):
        play.world.follow(0)
    play.change_to_primary(2)
    play.step_of_plan(2)


def leave_for_one_without_a_copy(rules: Rules) -> None:
    """The secondary that has lost all is dropped: the one that lags has all that it has. Then that is to be primary."""
    play = without_a_primary(rules)
    play.drop(1)
    for _ in range(2):
        play.step()
    play.change_to_primary(2)
    play.step()


def change_in_the_same_view(rules: Rules) -> None:
    """The primary has a write more that was never acknowledged; it becomes a secondary, and is down. Of the two others
    one becomes primary, and executes another write in its place. The former primary is back, and is counted for
    that."""
    play = Play(rules, ALL, want=3, copies=2)
    play.write(7, copies=(1, 2))
    play.execute(0, 8)
    play.host(0).copy(0).flush()
    play.change_to_secondary()
    for _ in range(2):
        play.step(0)
    play.host(0).is_alive = False
    play.change_to_primary(1)
    play.step(1, 2)
    play.world.writes.history[0] = list(play.host(1).copy(0).writes)
    play.write(9, copies=(), primary=1)
    play.host(0).start()
    play.tell_all()
    play.acknowledge()
    play.fail_over(1, (SECONDARY, ABSENT, SECONDARY))


def first_primary_beside_a_secondary(rules: Rules) -> None:
    """The primary becomes a secondary; another server is added as the primary, and begins empty."""
    play = Play(rules, ALONE, want=1)
    play.write(7, copies=())
    play.change_to_secondary()
    for _ in range(3):
        play.turn()
    rights = (CrownRight(0), Crown(GONE, None)), (CellRight(0, 1), ABSENT), (RoomRight(1), 1)
    play.begin((add(0, 1, Kind.PRIMARY),), *rights)
    play.turn()


PLAYS = (
    Worked(primary_goes_while_it_is_asked, "newest_terms"),
    Worked(drop_without_its_primary, "drop_granted"),
    Worked(leave_while_one_is_down, "leave_of_all"),
    Worked(handed_over_where_one_is_missing, "leave_of_fewer"),
    Worked(handed_over_where_one_is_missing, "raised_by_those_that_stay"),
    Worked(moved_where_one_is_missing, "raised_by_those_that_stay"),
    Worked(drop_without_a_primary_where_one_is_missing, "leave_of_fewer"),
    Worked(leave_after_a_start, "leave_of_earlier"),
    Worked(leave_by_a_new_owner_below_its_cut, "leave_at_cut"),
    Worked(leave_by_an_old_message, "leave_of_present"),
    Worked(tells_while_it_asks, "leaver_silent"),
    Worked(counted_though_it_leaves, "leaver_uncounted"),
    Worked(answer_comes_late, "leave_numbered"),
    Worked(question_comes_late, "connections_numbered"),
    Worked(counted_by_what_was_said_before_a_start, "connections_end"),
    Worked(leave_that_came_to_nothing, "grant_ends"),
    Worked(two_that_ask_each_other, "lower_asks_first"),
    Worked(change_of_an_empty_secondary, "change_compares"),
    Worked(change_with_one_dead, "change_by_count", beside=("former_counts",)),
    Worked(change_by_the_former_primary, "former_counts"),
    Worked(change_back, "former_counts"),
    Worked(change_counts_none, "change_counts_whole"),
    Worked(copy_from_the_lesser, "anew_of_acknowledger"),
    Worked(copied_while_an_answer_is_late, "anew_of_acknowledger"),
    Worked(leave_for_one_without_a_copy, "leave_of_whole"),
    Worked(change_in_the_same_view, "change_begins_view"),
    Worked(first_primary_beside_a_secondary, "begins_alone", beside=("first_is_alone",)),
)
