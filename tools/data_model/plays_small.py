"""Worked plays of the small form: what a primary counts and says, the number of the record, and what is named."""
from __future__ import annotations

from collections.abc import Callable
from dataclasses import replace
from types import FunctionType
from typing import Any

from driving_model.cells import ABSENT, PRIMARY, SECONDARY
from driving_model.commands import Reopen
from driving_model.messages import BASE_STEP, Fence, MAP, Order, Settle

from .commands import CopiedAt
from .copies import Began
from .play import ALL, Play as FullPlay, Row, TWO
from .plays import DATA_PLAYS
from .plays_journals import open_anew
from .rules import Rules, SMALL, rule_names
from .worked import Worked, must


class Play(FullPlay):
    """A play in which as many copies are wanted as it asks for, and the primary has said that they are there."""

    def __init__(
        self, rules: Rules, row: Row, want: int, cap: int | None = None, copies: int | None = None,
        beside: tuple[Row, ...] = (),
    ) -> None:
        super().__init__(rules, row, want, want - copies if copies else cap, copies, beside)
        self.say_copied()

    def say_copied(self) -> list[CopiedAt]:
        """What the primary may say of its copies comes to the controller. Returns it."""
        said = self.copied()
        for copied in said:
            self.do(copied)
        return said

    def copied(self) -> list[CopiedAt]:
        """What the primary may say of its copies, on its way."""
        self.world.network.copied.clear()
        self.raise_copies()
        return list(self.world.network.copied)

    def want_copies(self, copies: int) -> None:
        """The next document asks for as many copies."""
        self.document = replace(self.document, copies=(copies,))

    def reopen_settled(self, row: Row, copies: int) -> None:
        """A reopening of which all are settled asks for as many copies."""
        self.want_copies(copies)
        self.reopening(set(), row)
        self.settle()

    def take_settles(self, *servers: int) -> None:
        """A reopening is confirmed, and its settles come to these servers alone."""
        self.confirm()
        for server in servers:
            for settle in self.sent_to(server, Settle):
                self.deliver(settle)


# What a primary counts, and what a drop needs.


def acknowledged_at_one(rules: Rules) -> None:
    """Two copies are wanted, and there; the primary acknowledges alone, and is lost."""
    play = Play(rules, TWO, want=2, copies=2)
    play.write(7, copies=())
    play.fail_over(0, (ABSENT, SECONDARY, ABSENT))


def leave_by_one_copy(rules: Rules) -> None:
    """The primary and a secondary have 8, another one lags. The first one is dropped; the primary is lost."""
    play = Play(rules, ALL, want=3, copies=2)
    play.write(7, copies=(1, 2))
    play.write(8, copies=(1,))
    play.drop(1)
    for _ in range(2):
        play.step()
    play.fail_over(0, (ABSENT, SECONDARY, SECONDARY))


# What the record holds, and `copied`.




def opened_with_a_lagging_copy(rules: Rules) -> None:
    """A service that never had a controller has acknowledged 7 at its primary alone. It is opened with two copies, and
    the primary is lost."""
    play = FullPlay(rules, TWO, want=2, cap=0, copies=2)
    acknowledge_before(play)
    play.fail_over(0, (ABSENT, SECONDARY, ABSENT))


def acknowledge_before(play: FullPlay) -> None:
    """The primary has acknowledged 7 alone, before it had a controller."""
    play.host(0).copy(0).put([7], [Began(0, 0)], True)
    play.world.writes.history[0] = [7]
    play.world.writes.acknowledge(0, {7}, 1)


def copied_before_it_is_so(rules: Rules) -> None:
    """The same; the primary says at once that two copies are there."""
    play = FullPlay(rules, TWO, want=2, cap=0, copies=2)
    acknowledge_before(play)
    play.raise_copies()
    for copied in play.world.network.copied:
        play.do(copied)
    play.fail_over(0, (ABSENT, SECONDARY, ABSENT))


def restart_stops_nobody(rules: Rules) -> None:
    """The operator asks for two copies where one of two replicas may be missing, and the secondary goes down by
    leave."""
    play = FullPlay(rules, TWO, want=2, cap=1, copies=2)
    play.approve(1)
    play.host(1).is_alive = False
    play.write(7, copies=())
    must(7 in play.world.writes.acknowledged[0], "nothing is acknowledged")


def fewer_are_wanted(rules: Rules) -> None:
    """Two copies were there, and a reopening asks for one. The primary acknowledges alone, and is lost."""
    play = Play(rules, TWO, want=2, copies=2)
    play.reopen_settled(TWO, copies=1)
    play.write(7, copies=())
    play.fail_over(0, (ABSENT, SECONDARY, ABSENT))


def more_are_wanted(rules: Rules) -> None:
    """One copy was wanted, and the primary has acknowledged 7 alone. A reopening asks for two; it is lost."""
    play = FullPlay(rules, TWO, want=2, cap=0, copies=1)
    play.write(7, copies=())
    play.document = replace(play.document, copies=(2,))
    play.reopening(set(), TWO)
    play.settle()
    play.raise_copies()
    for copied in play.world.network.copied:
        play.do(copied)
    play.fail_over(0, (ABSENT, SECONDARY, ABSENT))


def a_counted_replica_goes(rules: Rules) -> None:
    """The primary and a secondary have 7. The secondary is lost, and then the primary; another secondary lags."""
    play = Play(rules, ALL, want=3, copies=2)
    play.write(7, copies=(1,))
    play.fail_over(1, (PRIMARY, ABSENT, SECONDARY))
    play.lose(0)
    play.reopening({0, 1}, (ABSENT, ABSENT, SECONDARY))
    play.settle()


def copied_of_before(rules: Rules) -> None:
    """The same; before the primary is lost, what it said in the epoch before comes again."""
    play = Play(rules, ALL, want=3, copies=2)
    late = play.copied()
    play.write(7, copies=(1,))
    play.fail_over(1, (PRIMARY, ABSENT, SECONDARY))
    for copied in late:
        play.do(copied)
    play.lose(0)
    play.reopening({0, 1}, (ABSENT, ABSENT, SECONDARY))
    play.settle()


def copied_by_a_fenced_one(rules: Rules) -> None:
    """The same; the primary said so once it was fenced, before it was settled: its base is the new one."""
    play = Play(rules, ALL, want=3, copies=2)
    play.write(7, copies=(1,))
    play.lose(1)
    play.reopening({1}, (PRIMARY, ABSENT, SECONDARY))
    play.world.network.copied.clear()
    play.world.raise_copies(0)
    late = list(play.world.network.copied)
    play.settle()
    for copied in late:
        play.do(copied)
    play.lose(0)
    play.reopening({0, 1}, (ABSENT, ABSENT, SECONDARY))
    play.settle()


def copied_of_another_journal(rules: Rules) -> None:
    """Two copies were there under a journal that has ended; then one was wanted, and 7 is at the primary alone. Another
    journal opens with two, and low numbers. What was said under the old one comes; the primary is lost."""
    play = Play(rules, TWO, want=2, copies=2)
    late = play.copied()
    play.reopen_settled(TWO, copies=1)
    play.write(7, copies=())
    play.want_copies(2)
    open_anew(play, TWO)
    for copied in late:
        play.do(copied)
    play.fail_over(0, (ABSENT, SECONDARY, ABSENT))


# What is named.


def secondary_has_lost_its_slots(rules: Rules) -> None:
    """The primary and a secondary have 7, another one lags. The secondary loses slots and data, and the primary is
    lost."""
    play = Play(rules, ALL, want=3, copies=2)
    play.write(7, copies=(1,))
    play.world.lose(play.host(1))
    play.fail_over(0, (ABSENT, SECONDARY, SECONDARY))


def silent_secondary_has_all(rules: Rules) -> None:
    """The primary and a secondary have 7, another one lags. The secondary goes down by leave, and the primary is
    lost."""
    play = Play(rules, ALL, want=3, copies=2)
    play.approve(1)
    play.write(7, copies=(1,))
    play.host(1).is_alive = False
    play.lose(0)
    play.reopening({0}, (ABSENT, SECONDARY, SECONDARY), silent=frozenset({1}))
    play.settle(silent=frozenset({1}))


def told_before_the_primary_stopped(rules: Rules) -> None:
    """The secondaries answer a fence; the primary executes on with one of them. Then its disk is replaced, and it
    answers as an Unknown server."""
    play = Play(rules, ALL, want=3, copies=2)
    play.write(7, copies=(1, 2))
    play.reopen()
    for server in (1, 2, MAP):
        play.deliver(Fence(server, play.controller.reopening.base, play.controller.journal))
    play.take_inventories()
    play.write(8, copies=(2,))
    play.world.lose(play.host(0))
    for fence in play.controller.fences():
        play.deliver(fence)
    play.take_inventories()
    play.settle()


def told_before_the_primary_was_dropped(rules: Rules) -> None:
    """The same where the primary is dropped by leave before its fence comes."""
    play = Play(rules, (PRIMARY, SECONDARY, SECONDARY, SECONDARY), want=4, copies=2)
    play.write(7, copies=(1, 2, 3))
    play.drop_primary()
    play.step(MAP)
    play.reopen()
    for server in (1, 2, 3, MAP):
        play.deliver(Fence(server, play.controller.reopening.base, play.controller.journal))
    play.take_inventories()
    play.write(8, copies=(2, 3))
    order = play.sent_to(0, Order)[-1]
    play.world.deliver(order)
    play.tell_all()
    play.work([play.host(0)])
    must(play.world.row(0)[0] == ABSENT, "the primary gets no leave")
    play.deliver(Fence(0, play.controller.reopening.base, play.controller.journal))
    play.take_inventories()
    play.settle()


def order_not_recorded(rules: Rules) -> None:
    """The primary and a secondary that was just added, which is not recorded yet, have a write. Both are lost; the
    recorded secondary lags."""
    play = Play(rules, TWO, want=2, copies=2)
    play.add_secondary(2)
    order = play.controller.orders()[0]
    play.world.deliver(order)
    play.copy(2, 0)
    play.world.work(play.host(2), order)
    play.write(7, copies=(2,))
    play.lose(0)
    play.lose(2)
    play.reopening({0, 2}, (ABSENT, SECONDARY, ABSENT))
    play.settle()


def replica_of_a_replaced_reopening(rules: Rules) -> None:
    """A reopening brings another secondary, which has a write with the primary; the recorded one lags. Another
    reopening replaces this one, and both are lost."""
    play = Play(rules, TWO, want=2, copies=2)
    play.world.lose(play.host(2))
    play.reopening(set(), ALL)
    play.take_settles(0, 2)
    play.copy(2, 0)
    play.write(7, copies=(2,))
    play.lose(0)
    play.lose(2)
    play.reopening({0, 2}, (ABSENT, SECONDARY, ABSENT))
    play.settle()


def fewer_by_a_replaced_reopening(rules: Rules) -> None:
    """Two copies are there. A reopening asks for one, and the primary acknowledges alone. Another one replaces it, and
    the primary is lost."""
    play = Play(rules, TWO, want=2, copies=2)
    play.want_copies(1)
    play.reopening(set(), TWO)
    play.take_settles(0)
    play.write(7, copies=())
    play.want_copies(2)
    play.fail_over(0, (ABSENT, SECONDARY, ABSENT))


def view_of_a_later_journal(rules: Rules) -> None:
    """A journal that is lost had made a view. Another one adopts the servers too low, and then the primary is lost."""
    play = Play(rules, ALL, want=3, cap=2)
    for server in range(3):
        play.host(server).copy(0).put([7], [Began(0, 0), Began(9 * BASE_STEP, 1)], True)
    play.world.writes.history[0] = [7]
    play.world.take_new_journal()
    play.do(Reopen(play.document, frozenset(), play.world.journals, epoch=1))
    for fence in play.controller.fences():
        play.deliver(fence)
    play.take_inventories()
    if not play.controller.reopening.missing:
        play.settle()
        play.fail_over(0, (ABSENT, SECONDARY, SECONDARY))


OWN_PLAYS = (
    Worked(acknowledged_at_one, "enough_acknowledge"),
    Worked(leave_by_one_copy, "leave_of_wanted"),
    Worked(opened_with_a_lagging_copy, "kept_from_one"),
    Worked(copied_before_it_is_so, "copied_of_all"),
    Worked(more_are_wanted, "copied_of_all"),
    Worked(restart_stops_nobody, "wanted_within_floor"),
    Worked(fewer_are_wanted, "kept_below_wanted"),
    Worked(a_counted_replica_goes, "goers_lower"),
    Worked(copied_of_before, "copied_names_fence"),
    Worked(copied_by_a_fenced_one, "copied_names_settled"),
    Worked(copied_of_another_journal, "copied_names_journal", beside=("unlike_set_aside",)),
    Worked(secondary_has_lost_its_slots, "unknown_gone"),
    Worked(silent_secondary_has_all, "silent_gone"),
    Worked(told_before_the_primary_stopped, "server_named"),
    Worked(told_before_the_primary_was_dropped, "server_named"),
    Worked(order_not_recorded, "ordered_counted"),
    Worked(replica_of_a_replaced_reopening, "replaced_counted"),
    Worked(fewer_by_a_replaced_reopening, "replaced_counted"),
    Worked(view_of_a_later_journal, "views_below"),
)


def without_a_primary(rules: Rules) -> Play:
    """A primary and a secondary have 7, another one lags; one copy is wanted. The primary is dropped by leave, and then
    the first secondary loses its disk, and is restored."""
    play = Play(rules, ALL, want=3, cap=2)
    play.write(7, copies=(1,))
    play.drop_primary()
    for _ in range(4):
        play.step()
    play.world.lose(play.host(1))
    play.restore(1)
    return play


# Plays of the full form that lower numbers, or have more to ask for: the small form has others, or not their rule.
OTHERWISE = frozenset({
    "acknowledged_at_one", "order_not_recorded", "fewer_copies_for_a_while", "copied_from_a_new_owner_below_its_cut",
    "copied_from_an_old_owner", "copied_while_an_answer_is_late", "change_in_the_same_view", "copy_that_lags",
    "counted_at_an_earlier_view", "view_of_a_later_journal",
})


def over(play: Callable[[Rules], None], **others: Any) -> Callable[[Rules], None]:
    """The same play in another form: it finds these others under their names."""
    names = dict(play.__globals__)
    for name, it in play.__globals__.items():
        if isinstance(it, FunctionType) and it.__module__ == play.__module__:
            names[name] = FunctionType(it.__code__, names, name, it.__defaults__)
    names |= others
    return names[play.__name__]


def carried(worked: Worked) -> Worked:
    """A play of the full form, in the small one."""
    names, play = rule_names(SMALL), over(worked.play, Play=Play, without_a_primary=without_a_primary)
    return Worked(play, worked.rule, tuple(it for it in worked.beside if it in names))


CARRIED = tuple(carried(it) for it in DATA_PLAYS if it.rule in rule_names(SMALL) and it.name not in OTHERWISE)
PLAYS = OWN_PLAYS + CARRIED + tuple(
    Worked(it.play, "change_begins_view") for it in CARRIED if it.rule == "leave_of_present"
)
