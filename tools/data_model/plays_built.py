"""Worked plays of the form that is built: what `copied` tells, what a reopening keeps of it, and what is named."""
from __future__ import annotations

from collections.abc import Callable

from driving_model.cells import ABSENT, PRIMARY, SECONDARY
from driving_model.messages import Order

from . import plays_small as small
from .commands import CopiedAt
from .play import Row, TWO
from .rules import BUILT, Rules, rule_names
from .worked import Worked, must

FIVE = (PRIMARY, SECONDARY, SECONDARY, SECONDARY, SECONDARY)


class Play(small.Play):
    """A play in which the primary has said `copied`, and each replica has a first write: a whole copy without any is
    told like none."""

    def __init__(
        self, rules: Rules, row: Row, want: int, cap: int | None = None, copies: int | None = None,
        beside: tuple[Row, ...] = (),
    ) -> None:
        super().__init__(rules, row, want, cap, copies, beside)
        if row[0] == PRIMARY:
            self.write(1, copies=tuple(it for it, cell in enumerate(row) if cell == SECONDARY))


def here(play: Callable[[Rules], None]) -> Callable[[Rules], None]:
    """A play of the small form, over plays of this one."""
    return small.over(play, Play=Play)


def may_not_be_named(play: Play) -> None:
    """Nothing is lost, and nothing is named."""
    must(play.controller.reopening.propose().lost == (), "a loss is named that is none")


# What servers owe.


def fenced_primary_asks_for_less(rules: Rules) -> None:
    """Two copies are there. A reopening fences the primary, which then acknowledges 7 alone; another one replaces it,
    and the primary is lost."""
    play = Play(rules, TWO, want=2, copies=2)
    play.reopening(set(), TWO)
    play.write(7, copies=())
    play.fail_over(0, (ABSENT, SECONDARY, ABSENT))


def leave_by_an_old_message(rules: Rules) -> None:
    """Of five replicas the primary becomes a secondary; another one is to be dropped, by an order that knows of no
    primary, and comes late. The former one is primary again, and counts the other one for 8, which the last replica
    lacks. Now the order comes: others give leave. Then the primary lets these go, too, since it counts who is gone; and
    it is lost."""
    play = Play(rules, FIVE, want=5, cap=3, copies=2)
    play.change_to_secondary()
    for _ in range(3):
        play.step()
    play.drop(1)
    late = play.sent_to(1, Order)[-1]
    play.change_to_primary(0)
    for _ in range(3):
        play.step_of_plan(2)
    play.write(8, copies=(1, 2, 3))
    play.world.deliver(late)
    for leaver, asked in ((1, (2, 3)), (2, (0,)), (3, (0,))):
        if leaver > 1:
            play.drop(leaver)
            play.world.deliver(play.sent_to(leaver, Order)[-1])
        for answer in filter(None, [play.answer(play.question(leaver, it)) for it in asked]):
            play.world.take_answer(answer)
        play.work([play.host(leaver)])
        play.take_answers()
    play.fail_over(0, (ABSENT, ABSENT, ABSENT, ABSENT, SECONDARY))


# What the record holds.


def copied_of_fewer(rules: Rules) -> None:
    """Two copies are there; an earlier word of one comes. The primary is lost."""
    play = Play(rules, TWO, want=2, copies=2)
    play.write(7, copies=(1,))
    play.do(CopiedAt(0, 1, 0, 0, 1))
    play.lose(0)
    play.reopening({0}, (ABSENT, SECONDARY, ABSENT))
    may_not_be_named(play)


# What a reopening keeps.


def handed_in_view_0(rules: Rules) -> None:
    """A shard was handed over, and the map does not show it yet: no order is present. The new owner and a secondary
    have 7, the old owner, which follows, lags. The new one is lost: in view 0 the old one's claim comes first."""
    play = Play(rules, TWO, want=2, cap=0, copies=2)
    play.hand(0, 2)
    for _ in range(3):
        play.turn()
    play.write(7, copies=(1,), primary=2)
    play.fail_over(2, (ABSENT, SECONDARY, ABSENT))


# What is named.


def restored_with_an_empty_disk(rules: Rules) -> None:
    """The primary and a secondary have 7. The secondary's disk is replaced, and it is restored; before it has copied
    anything the primary is lost."""
    play = Play(rules, TWO, want=2, copies=2)
    play.write(7, copies=(1,))
    play.world.lose(play.host(1))
    play.restore(1)
    play.fail_over(0, (ABSENT, SECONDARY, ABSENT))


OWN_PLAYS = (
    Worked(fenced_primary_asks_for_less, "number_until_slots"),
    Worked(leave_by_an_old_message, "leave_of_settled_view"),
    Worked(here(small.a_counted_replica_goes), "kept_begins_anew"),
    Worked(here(small.fewer_are_wanted), "kept_begins_anew"),
    Worked(copied_of_fewer, "copied_only_rises"),
    Worked(here(small.order_not_recorded), "ordered_keeps_one"),
    Worked(handed_in_view_0, "handed_keeps_one"),
    Worked(here(small.replica_of_a_replaced_reopening), "replaced_keeps_one"),
    Worked(here(small.fewer_by_a_replaced_reopening), "replaced_keeps_one"),
    Worked(restored_with_an_empty_disk, "part_gone"),
)


NAMES = frozenset(rule_names(BUILT))
# Plays that put copies by themselves, and so have no first write.
PUT = frozenset({
    "view_of_a_later_journal", "position_without_its_view", "copy_of_another_view", "copy_of_another_list",
})
# Plays in which the built form names, or counts nobody, in any case.
OTHERWISE = frozenset({"told_before_the_primary_was_dropped", "counted_by_an_old_word"})


def carried(worked: Worked) -> Worked:
    """A play of the small form, in the built one."""
    play = worked.play if worked.name in PUT else here(worked.play)
    return Worked(play, worked.rule, tuple(it for it in worked.beside if it in NAMES))


CARRIED = tuple(carried(it) for it in small.PLAYS if it.rule in NAMES and it.name not in OTHERWISE)
PLAYS = OWN_PLAYS + CARRIED
