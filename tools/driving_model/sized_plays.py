"""Worked plays of sizes that change. Each breaks a law without the rule that it names, and none with it."""
from __future__ import annotations

from collections.abc import Callable
from dataclasses import dataclass, replace

from . import commands
from .cells import ABSENT, Kind, PRIMARY, SECONDARY
from .laws import Violation
from .messages import Restore
from .plans import CellRight, CrownRight, RoomRight, SpareRight, add, drop, publish, unlist
from .play import Play, Row
from .replies import Approved, Begun, Ignored, Opened, Refused, Reply, Up
from .sized_world import SizedWorld
from .sizes import NewEpoch, Order, Resize, Resized, SOUND, SizedDocument, SizedRules


class SizedPlay(Play):
    """Some shards at four servers, moved by hand. The document has the servers 0 to 2, unless others are named."""

    world: SizedWorld

    def __init__(
        self, rules: SizedRules, rows: tuple[Row, ...], loads: tuple[int, ...],
        left_out: frozenset[int] = frozenset(), servers: frozenset[int] = frozenset({0, 1, 2}), limit: int = 2,
    ) -> None:
        wants = tuple(max(1, sum(cell != ABSENT for cell in row)) for row in rows)
        cells = tuple(row + (ABSENT,) * (4 - len(row)) for row in rows)
        self.document = SizedDocument(servers, (10,) * 4, loads, wants, wants, limit, cells, left_out=left_out)
        self.world = SizedWorld(self.document, rules, keeps_trace=True)
        self.plans = 0

    @property
    def sizes(self) -> SizedDocument:
        """The present sizes."""
        return self.controller.record.document

    def change(self, **sizes) -> Reply:
        """The next epoch opens with other sizes."""
        return self.do(NewEpoch(replace(self.sizes, **sizes)))

    def resize(self, loads: dict[int, int] | None = None, rooms: dict[int, int] | None = None) -> Reply:
        """Sizes change beside what runs."""
        return self.do(Resize(tuple((loads or {}).items()), tuple((rooms or {}).items())))

    def add(self, shard: int, server: int, role: Kind = Kind.SECONDARY) -> Reply:
        """A plan that adds a replica begins."""
        rights = {CellRight(shard, server): ABSENT, RoomRight(server): self.sizes.loads[shard]}
        crown = {CrownRight(shard): self.controller.record.crown(shard)} if role is Kind.PRIMARY else {}
        code = (add(shard, server, role), publish(shard)) if crown else (add(shard, server, role),)
        return self.run(code, rights | crown)

    def drop(self, shard: int, server: int) -> None:
        """A plan drops a secondary, or a primary that the map names."""
        cell = self.controller.record.cells[shard][server]
        if cell == SECONDARY:
            must(self.run((drop(shard, server),), {CellRight(shard, server): cell, SpareRight(shard): 1}), Begun)
        else:
            rights = {CrownRight(shard): self.controller.record.crown(shard), SpareRight(shard): 1}
            must(self.run((unlist(shard), drop(shard, server)), rights), Begun)
        self.turns()

    def run(self, code: tuple, rights: dict) -> Reply:
        """A plan of one stream begins."""
        self.begin(code, *rights.items())
        return self.world.session[-1][1].reply

    def turns(self, number: int = 3) -> None:
        """All that may be sent comes, some times."""
        for _ in range(number):
            self.turn()

    def all_again(self) -> None:
        """All that was ever sent comes again, to whom it was sent."""
        for message in list(self.world.network.messages.items):
            self.deliver(message)

    def call_up(self, server: int) -> Reply:
        """A server that is down tells its base."""
        return self.do(self.world.hosts[server].restarted(self.controller.record.permits[server]))

    def reopen_all(self, silent: frozenset[int] = frozenset()) -> None:
        """A reopening of the service as it is, to its end. Silent servers are carried over."""
        self.do(commands.Reopen(self.sizes, frozenset()))
        self.turn(silent)
        self.do(commands.Confirm(self.controller.reopening.base, None))
        self.turn(silent)

    def welcome(self, server: int) -> None:
        """A server that was added hears what it is told, asks for its slots if it has none, and comes up."""
        self.turns()
        if not self.world.hosts[server].server.is_known:
            self.do(self.world.hosts[server].ask())
            self.turns()
        must(self.call_up(server), Up)


def must(reply: Reply, kind: type) -> None:
    """The reply has to be of this kind, so that the service goes on."""
    if not isinstance(reply, kind):
        raise Violation("goes_on", f"the reply is {reply}")


def shrunk_at_rest(rules: SizedRules) -> None:
    """A secondary of load 6 shrinks to 3. Now another shard of load 6 has room beside it, as its server has to see."""
    play = SizedPlay(rules, ((PRIMARY, SECONDARY, ABSENT), (ABSENT, ABSENT, PRIMARY)), loads=(6, 6))
    must(play.change(loads=(3, 6)), Opened)
    must(play.add(1, 1), Begun)
    play.turns()


def shrunk_and_grown(rules: SizedRules) -> None:
    """The same over two changes, of which the first shrinks it further."""
    play = SizedPlay(rules, ((PRIMARY, SECONDARY, ABSENT), (ABSENT, ABSENT, PRIMARY)), loads=(6, 6))
    must(play.change(loads=(2, 6)), Opened)
    must(play.change(loads=(4, 6)), Opened)
    must(play.add(1, 1), Begun)
    play.turns()


def shrunk_while_it_is_down(rules: SizedRules) -> None:
    """The same for a server that is down meanwhile: it starts with its slots, and comes up by the permit of before."""
    play = SizedPlay(rules, ((PRIMARY, SECONDARY, ABSENT), (ABSENT, ABSENT, PRIMARY)), loads=(6, 6))
    approved = play.do(commands.Approve(1, "by"))
    play.world.away.add(1)
    play.world.hosts[1].is_alive = False
    opened = play.change(loads=(3, 6))
    if not isinstance(opened, Opened) or opened.permits != ((1, approved.permit),):
        raise Violation("goes_on", f"the permit {approved} became {opened}")
    play.world.hosts[1].start()
    must(play.call_up(1), Up)
    must(play.add(1, 1), Begun)
    play.turns()


def grown_behind_an_order(rules: SizedRules) -> None:
    """A shard grows into the room that another one has left, whose order to come there comes again."""
    rows = ((PRIMARY, SECONDARY, ABSENT), (ABSENT, ABSENT, PRIMARY))
    play = SizedPlay(rules, rows, loads=(4, 6))
    must(play.add(1, 1), Begun)
    play.turns()
    play.drop(1, 1)
    must(play.change(loads=(10, 6)), Opened)
    play.all_again()


def told_again_after_a_change(rules: SizedRules) -> None:
    """A controller crashes behind a change, with an order under way: what any beginning of its journal tells was told
    before, and with the whole of it the same goes on."""
    play = SizedPlay(rules, ((PRIMARY, SECONDARY, ABSENT), (ABSENT, ABSENT, PRIMARY)), loads=(6, 6))
    must(play.add(1, 0), Refused)
    must(play.change(loads=(3, 6)), Opened)
    must(play.add(1, 1), Begun)
    for length in range(1, len(play.world.journal) + 1):
        play.world.check_replay(length)
    play.all_again()
    play.turns()


def shrunk_before_a_restore(rules: SizedRules) -> None:
    """A server asks for its slots, which shrink before the restore comes to it."""
    play = SizedPlay(rules, ((PRIMARY, SECONDARY, ABSENT), (ABSENT, ABSENT, PRIMARY)), loads=(6, 6))
    play.lose_and_ask(1)
    late = play.sent_to(1, Restore)[-1]
    must(play.change(loads=(3, 6)), Opened)
    play.deliver(late)
    must(play.add(1, 1), Begun)
    play.turns()


def shrunk_beside_a_plan(rules: SizedRules) -> None:
    """A secondary shrinks while a stream is about to bring another shard to its server. A third one takes the room that
    is free now; then the stream's order comes, as it was sent before."""
    rows = ((PRIMARY, SECONDARY, ABSENT), (ABSENT, ABSENT, PRIMARY), (PRIMARY, ABSENT, ABSENT))
    play = SizedPlay(rules, rows, loads=(5, 5, 2))
    must(play.add(1, 1), Begun)
    late = play.sent_to(1, Order)[-1]
    must(play.resize(loads={0: 3}), Resized)
    must(play.add(2, 1), Begun)
    play.deliver(play.sent_to(1, Order)[-1])
    play.deliver(late)


def grown_beyond_room(rules: SizedRules) -> None:
    """A load grows beyond its server's room."""
    play = SizedPlay(rules, ((PRIMARY, SECONDARY, ABSENT),), loads=(6,))
    play.change(loads=(11,))


def floor_raised(rules: SizedRules) -> None:
    """Both replicas are to be live, and one is down."""
    play = SizedPlay(rules, ((PRIMARY, SECONDARY, ABSENT),), loads=(6,))
    play.do(commands.Approve(1, "by"))
    play.change(caps=(0,))


def limit_lowered(rules: SizedRules) -> None:
    """Nobody may be down any more, and one server is."""
    play = SizedPlay(rules, ((PRIMARY, SECONDARY, ABSENT),), loads=(6,))
    play.do(commands.Approve(1, "by"))
    play.change(limit=0)


def log_too_short(rules: SizedRules) -> None:
    """The log has one place, and two servers are down."""
    play = SizedPlay(rules, ((PRIMARY, SECONDARY, ABSENT),), loads=(6,))
    play.do(commands.Approve(1, "by"))
    play.do(commands.Approve(2, "other"))
    play.change(log=1)


def document_of_another_day(rules: SizedRules) -> None:
    """The document has the cells of before: a plan has moved the secondary since."""
    play = SizedPlay(rules, ((PRIMARY, SECONDARY, ABSENT),), loads=(2,))
    rights = {CellRight(0, 2): ABSENT, CellRight(0, 1): SECONDARY, RoomRight(2): 2}
    must(play.run((add(0, 2, Kind.SECONDARY), drop(0, 1)), rights), Begun)
    play.turns()
    must(play.change(loads=(3,), cells=play.document.cells), Opened)


def leaver_with_a_primary(rules: SizedRules) -> None:
    """A server with the only replica is taken away, and a plan gives its shard a new primary."""
    play = SizedPlay(rules, ((PRIMARY, ABSENT, ABSENT),), loads=(2,))
    play.change(servers=frozenset({1, 2}))
    play.add(0, 1, Kind.PRIMARY)
    play.turns()


def leaver_is_down(rules: SizedRules) -> None:
    """A server that is down by leave is taken away, is added again, and comes up by a permit of its own alone."""
    play = SizedPlay(rules, ((PRIMARY, ABSENT, ABSENT), (ABSENT, ABSENT, PRIMARY)), loads=(2, 2), limit=1)
    approved = play.do(commands.Approve(1, "by"))
    must(approved, Approved)
    play.world.away.add(1)
    play.world.hosts[1].is_alive = False
    must(play.change(servers=frozenset({0, 2})), Opened)
    must(play.change(servers=frozenset({0, 1, 2})), Opened)
    play.world.hosts[1].start()
    must(play.do(play.world.hosts[1].restarted(approved.permit)), Ignored)
    must(play.do(commands.Approve(2, "other")), Refused)
    play.welcome(1)
    must(play.add(0, 1), Begun)
    play.turns()


def shard_with_a_primary(rules: SizedRules) -> None:
    """A shard with a primary is taken away, comes back as a new one, and gets another primary."""
    play = SizedPlay(rules, ((PRIMARY, ABSENT, ABSENT),), loads=(2,))
    play.change(left_out=frozenset({0}))
    play.change(left_out=frozenset())
    play.add(0, 1, Kind.PRIMARY)
    play.turns()


def newcomer_of_another_service(rules: SizedRules) -> None:
    """A server that is added has the slots of another service, and is called up. Then it is begun anew, and used."""
    play = SizedPlay(rules, ((PRIMARY, ABSENT, ABSENT),), loads=(2,))
    play.world.hosts[3].server.begin_elsewhere()
    must(play.change(servers=frozenset({0, 1, 2, 3})), Opened)
    play.call_up(3)
    play.add(0, 3)
    play.turns()
    play.world.lose(play.world.hosts[3])
    play.welcome(3)
    must(play.add(0, 3), Begun)
    play.turns()


def newcomer_without_slots(rules: SizedRules) -> None:
    """A plan is asked for on a server that is added and has not asked yet. Then it asks, is restored, and is used."""
    play = SizedPlay(rules, ((PRIMARY, ABSENT, ABSENT),), loads=(2,))
    must(play.change(servers=frozenset({0, 1, 2, 3})), Opened)
    play.add(0, 3)
    play.do(play.world.hosts[3].ask())
    play.turns()
    if next(play.controller.record.running(), None):
        raise Violation("goes_on", "the server is named by a plan, and cannot be restored any more")
    must(play.call_up(3), Up)
    must(play.add(0, 3), Begun)
    play.turns()


def newcomer_beyond_the_limit(rules: SizedRules) -> None:
    """One server may be down, and is; another one is to be added, which would be the second."""
    play = SizedPlay(rules, ((PRIMARY, ABSENT, ABSENT),), loads=(2,), limit=1)
    must(play.do(commands.Approve(1, "by")), Approved)
    play.change(servers=frozenset({0, 1, 2, 3}))


def newcomer_added_twice(rules: SizedRules) -> None:
    """The line that adds a server is written again, as its reply was lost, before the server is up and after that."""
    play = SizedPlay(rules, ((PRIMARY, ABSENT, ABSENT),), loads=(2,))
    all_of_them = frozenset({0, 1, 2, 3})
    first, second = play.change(servers=all_of_them), play.change(servers=all_of_them)
    must(first, Opened)
    if first.permits != second.permits:
        raise Violation("goes_on", f"its permit was {first.permits}, and is {second.permits}")
    play.welcome(3)
    must(play.change(servers=all_of_them), Opened)
    must(play.add(0, 3), Begun)
    play.turns()
    play.all_again()


def returns_with_its_slots(rules: SizedRules) -> None:
    """A server had a replica, leaves without it, and returns with the slots that it left with. All that it was sent
    before comes again."""
    play = SizedPlay(rules, ((PRIMARY, ABSENT, ABSENT),), loads=(2,))
    must(play.add(0, 2), Begun)
    play.turns()
    play.drop(0, 2)
    must(play.change(servers=frozenset({0, 1})), Opened)
    must(play.change(servers=frozenset({0, 1, 2})), Opened)
    play.welcome(2)
    play.all_again()
    must(play.add(0, 2), Begun)
    play.turns()
    play.all_again()


def returns_from_before_a_reopening(rules: SizedRules) -> None:
    """A server leaves, a reopening follows, and it returns with the slots of before: it has to turn Unknown and ask."""
    play = SizedPlay(rules, ((PRIMARY, SECONDARY, ABSENT),), loads=(2,))
    must(play.change(servers=frozenset({0, 1})), Opened)
    play.reopen_all()
    must(play.change(servers=frozenset({0, 1, 2})), Opened)
    play.welcome(2)
    must(play.add(0, 2), Begun)
    play.turns()


def newcomer_is_carried_over(rules: SizedRules) -> None:
    """A reopening begins while a server that was added is silent: it stays down, and is welcome later."""
    play = SizedPlay(rules, ((PRIMARY, SECONDARY, ABSENT),), loads=(2,))
    must(play.change(servers=frozenset({0, 1, 2, 3})), Opened)
    play.reopen_all(silent=frozenset({3}))
    play.welcome(3)
    must(play.add(0, 3), Begun)
    play.turns()


def server_under_an_old_number(rules: SizedRules) -> None:
    """A server that was restored leaves, and another machine comes under its number. It gets what the first was sent:
    its restore, with a replica that was dropped since, and its orders."""
    play = SizedPlay(rules, ((PRIMARY, ABSENT, SECONDARY),), loads=(2,))
    play.lose_and_ask(2)
    play.turns()
    play.drop(0, 2)
    must(play.change(servers=frozenset({0, 1})), Opened)
    play.world.lose(play.world.hosts[2])
    must(play.change(servers=frozenset({0, 1, 2})), Opened)
    play.all_again()
    play.welcome(2)
    play.all_again()
    must(play.add(0, 2), Begun)
    play.turns()


def shard_under_an_old_number(rules: SizedRules) -> None:
    """A shard is moved about and taken away, and another one comes under its number. All that was sent of the first
    comes again: orders to servers that have slots of it, and what the map was to show."""
    play = SizedPlay(rules, ((PRIMARY, ABSENT, ABSENT), (ABSENT, PRIMARY, ABSENT)), loads=(2, 2))
    must(play.add(1, 2), Begun)
    play.turns()
    play.drop(1, 2)
    play.drop(1, 1)
    must(play.change(left_out=frozenset({1})), Opened)
    must(play.change(left_out=frozenset(), loads=(2, 7)), Opened)
    must(play.add(1, 0, Kind.PRIMARY), Begun)
    play.turns()
    play.all_again()


def named_load_grows(rules: SizedRules) -> None:
    """The load of a shard grows while a stream is about to bring it, with room for what it was."""
    play = SizedPlay(rules, ((PRIMARY, ABSENT, ABSENT),), loads=(2,))
    must(play.add(0, 1), Begun)
    play.resize(loads={0: 4})
    play.turns()


def named_room_grows(rules: SizedRules) -> None:
    """A server gets more room while a stream is about to bring it a shard, and a second one takes that. Then the
    stream's order comes, as it was sent before."""
    rows = ((PRIMARY, SECONDARY), (ABSENT, ABSENT, PRIMARY), (ABSENT, ABSENT, ABSENT, PRIMARY))
    play = SizedPlay(rules, rows, loads=(5, 5, 8), servers=frozenset({0, 1, 2, 3}))
    must(play.add(1, 1), Begun)
    late = play.sent_to(1, Order)[-1]
    if isinstance(play.resize(rooms={1: 20}), Refused):
        return
    must(play.add(2, 1), Begun)
    play.deliver(play.sent_to(1, Order)[-1])
    play.deliver(late)


def room_is_held(rules: SizedRules) -> None:
    """A secondary grows into the room that a stream holds."""
    rows = ((PRIMARY, SECONDARY, ABSENT), (ABSENT, ABSENT, PRIMARY))
    play = SizedPlay(rules, rows, loads=(5, 5))
    must(play.add(1, 1), Begun)
    play.resize(loads={0: 7})
    play.turns()


def shard_comes_and_goes(rules: SizedRules) -> None:
    """A shard is added, gets its first primary, loses it, is taken away and comes back."""
    play = SizedPlay(rules, ((PRIMARY, ABSENT, ABSENT), (ABSENT,) * 3), loads=(2, 2), left_out=frozenset({1}))
    must(play.add(1, 1, Kind.PRIMARY), Refused)
    must(play.change(left_out=frozenset(), caps=(1, 0)), Refused)
    for _ in range(2):
        must(play.change(left_out=frozenset()), Opened)
        must(play.add(1, 1, Kind.PRIMARY), Begun)
        play.turns()
        must(play.change(left_out=frozenset({1})), Refused)
        play.drop(1, 1)
        must(play.change(left_out=frozenset({1})), Opened)


def reopening_after_a_change(rules: SizedRules) -> None:
    """Loads shrink, and a reopening follows that carries a server over. It comes back with its old slots, turns
    Unknown, is restored, and takes what has room beside the smaller load. Then another change follows."""
    play = SizedPlay(rules, ((PRIMARY, SECONDARY, ABSENT), (ABSENT, ABSENT, PRIMARY)), loads=(6, 6))
    must(play.do(commands.Approve(1, "by")), Approved)
    must(play.change(loads=(3, 6)), Opened)
    play.reopen_all(silent=frozenset({1}))
    play.welcome(1)
    must(play.add(1, 1), Begun)
    play.turns()
    must(play.change(loads=(4, 6)), Opened)
    play.all_again()


@dataclass(frozen=True, slots=True)
class Worked:
    """A play with the rule that it shows to be needed, if there is one."""

    play: Callable[[SizedRules], None]
    rule: str = ""

    @property
    def name(self) -> str:
        """The play's name."""
        return self.play.__name__


PLAYS = (
    Worked(shrunk_at_rest, "old_loads_left"),
    Worked(shrunk_and_grown, "old_loads_left"),
    Worked(shrunk_while_it_is_down, "old_loads_left"),
    Worked(shrunk_before_a_restore, "old_loads_left"),
    Worked(told_again_after_a_change, "old_loads_left"),
    Worked(reopening_after_a_change),
    Worked(grown_behind_an_order, "kept_slots"),
    Worked(document_of_another_day, "cells_stay"),
    Worked(grown_beyond_room, "loads_fit"),
    Worked(floor_raised, "floors_live"),
    Worked(limit_lowered, "limit_down"),
    Worked(log_too_short, "log_down"),
    Worked(leaver_with_a_primary, "leaver_is_bare"),
    Worked(leaver_is_down),
    Worked(shard_with_a_primary, "shard_is_bare"),
    Worked(shard_comes_and_goes),
    Worked(shard_under_an_old_number, "kept_slots"),
    Worked(shard_under_an_old_number, "version_order"),
    Worked(server_under_an_old_number, "restore_nonce"),
    Worked(newcomer_of_another_service, "own_base_told"),
    Worked(newcomer_without_slots, "newcomer_down"),
    Worked(newcomer_beyond_the_limit, "limit_down"),
    Worked(newcomer_added_twice),
    Worked(newcomer_is_carried_over),
    Worked(returns_with_its_slots, "kept_slots"),
    Worked(returns_from_before_a_reopening, "newcomer_told"),
    Worked(shrunk_beside_a_plan, "old_loads_left"),
    Worked(shrunk_beside_a_plan, "sizes_heeded"),
    Worked(named_load_grows, "named_loads_stay"),
    Worked(named_room_grows, "named_rooms_stay"),
    Worked(room_is_held, "held_rooms_fit"),
)


def played(worked: Worked, with_rule: bool) -> Violation | None:
    """What a play comes to, with its rule or without it."""
    try:
        worked.play(SOUND if with_rule or not worked.rule else SOUND.without(worked.rule))
    except Violation as violation:
        return violation
    return None
