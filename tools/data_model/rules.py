"""The rules for data: over those of `driving_model`, each with a switch and a sentence on the duty.

`driving_model` is what smpland asks for today. Its rules on data stand for less than these, and are replaced.
"""
from __future__ import annotations

from dataclasses import dataclass, fields, replace
from typing import ClassVar

from driving_model import rules as driving
from driving_model.rules import rule

# The rules of `driving_model` that say less, or otherwise, what the rules here say.
REPLACED = frozenset({
    "copies_acknowledge", "old_owner_acknowledges", "survivor_rank", "survivor_position", "carried_copy",
})


@dataclass(frozen=True)
class Rules(driving.Rules):
    """Which rules are in force."""

    is_small: ClassVar[bool] = False
    is_built: ClassVar[bool] = False
    # The rules that stand among these, and that this form has not.
    away: ClassVar[frozenset[str]] = REPLACED

    # Whoever executes writes.
    durable_first: bool = rule("A write leaves a server, to whomever, only when it is durable there.")
    own_durable: bool = rule("Whoever acknowledges a write counts itself first, and only if it has the write durably.")
    enough_acknowledge: bool = rule("A write is acknowledged only when `copies` replicas have it.")
    replies_wait: bool = rule("A reply, to whatever request, goes out only when all that it saw is acknowledged.")
    # Whom it counts.
    told_flushed: bool = rule("A follower tells of what it has durably, and of nothing more.")
    part_untold: bool = rule("Of a copy that is not whole a follower tells nothing.")
    told_committed: bool = rule("Nor of one before the order that brings it has committed.")
    told_at_view: bool = rule("A replica counts only if it has told a whole copy of the counter's present view.")
    counted_settled: bool = rule(
        "A follower counts only on a connection that it began when it was settled at the primary's last reopening."
    )
    connections_numbered: bool = rule(
        "A follower numbers its connections; what comes by an earlier one than the newest heard is not heard."
    )
    numbers_rise: bool = rule("Numbers of connections rise over starts, and with a new disk too.")
    connections_end: bool = rule(
        "A start of the server to which a connection goes ends it: what was said by it is not heard."
    )
    work_ends_connections: bool = rule("So does the end of an order's work there.")
    # Copies that come.
    views_resumed: bool = rule(
        "A copy goes on only if its view and position make it a beginning of its source; others are made anew."
    )
    views_in_turn: bool = rule("A follower takes a view over with all writes up to where it began, and not before.")
    lesser_waits: bool = rule("Who has more than its source waits, and gives nothing up.")
    anew_of_acknowledger: bool = rule(
        "A replica that has lost its copy makes one only from who may acknowledge: the primary, or a new owner at its "
        "cut."
    )
    anew_beside: bool = rule("A copy that replaces another one is made beside it, and takes its place when whole.")
    set_aside: bool = rule(
        "A copy with writes that another one has not, which is replaced or taken away, is set aside and not deleted."
    )
    # Leave to drop.
    newest_terms: bool = rule("What the newest message names of a shard holds also for the work under way.")
    drop_granted: bool = rule("A drop commits only with leave, unless nobody else is named as a replica.")
    leave_of_all: bool = rule("Leave asks for the full number of copies at others, also while fewer acknowledge.")
    leave_of_fewer: bool = rule("Or for all others, if fewer are named.")
    leave_of_whole: bool = rule("Without another primary only a replica with a whole copy gets leave.")
    leave_of_present: bool = rule(
        "Nor does a replica whose view began after what ended the last primary that its message knows of: it waits for "
        "a newer message."
    )
    leave_of_earlier: bool = rule("Leave asks that others have also what the primary had when it last began to serve.")
    leave_at_cut: bool = rule("A new owner below its cut gives nobody leave.")
    leaver_silent: bool = rule("From its question to the end of the drop the leaver tells nobody what it has.")
    leaver_uncounted: bool = rule("Who gives leave counts the leaver no more, and who has leave answers nobody.")
    leave_numbered: bool = rule("Questions have numbers that are used once; an answer gives leave for the one it names.")
    grant_ends: bool = rule(
        "A new connection begins when the order at work ends, whatever was granted, and counts again."
    )
    lower_asks_first: bool = rule(
        "Of two that ask each other for leave the one with the higher number answers, and asks anew."
    )
    # Becoming a primary.
    change_compares: bool = rule("`change` to primary commits only if nobody that was asked has more.")
    change_by_count: bool = rule("It asks all replicas but `copies` less one, and not each one.")
    change_counts_whole: bool = rule("Of those asked only whole copies count.")
    former_counts: bool = rule("Or the former primary has told the copy that it has kept since it was primary.")
    change_begins_view: bool = rule("Who becomes primary by `change` begins a view with the order's number.")
    begins_alone: bool = rule("`add` of a primary begins empty, and only if nobody else is named as a replica.")
    # Losses.
    primary_has_data: bool = rule("A server is restored as the primary of a shard only if it has a whole copy of it.")
    loss_renews: bool = rule("An Unknown server that loses data makes a new nonce.")
    empty_is_down: bool = rule(
        "A server that is restored without a copy of a shard of its own is recorded down until its copies are whole."
    )
    doubt_told: bool = rule("A server that knows its disk to have gone back tells its copies as in doubt.")
    doubt_kept: bool = rule("A copy in doubt is the successor if no other one is left, and no settlement deletes it.")
    # What a reopening compares.
    position_wins: bool = rule("A shard without a primary goes to the greatest copy, whatever its server's role.")
    views_compared: bool = rule("Of two copies the one of the later view is greater, and then the longer one.")
    views_below: bool = rule("A copy whose view is at or above the reopening's base is refused: begin above it.")
    unknown_data_counts: bool = rule("A copy that an Unknown server still has counts like any other.")
    members_awaited: bool = rule(
        "For a shard without a primary each silent replica is awaited, or lost, unless enough others are left, or the "
        "shard is named as lost."
    )
    loss_named: bool = rule(
        "If as many replicas are gone (lost, or without a whole copy) as have each write, the shard is named."
    )
    loss_confirmed: bool = rule("`confirm` repeats each shard that is named, or is refused.")
    asked_after: bool = rule(
        "If a server that may have served a shard tells no copy, all are asked once more, by another reopening."
    )
    ordered_counted: bool = rule("A server that was sent an order which brings it a replica counts as having one.")
    replaced_counted: bool = rule("Replicas and numbers of copies that a replaced reopening has settled count as well.")
    copies_kept: bool = rule("A reopening takes no whole copy from a replica: it stays, at least as a secondary.")
    # The number of copies.
    copies_at_successor: bool = rule("A new primary asks for no more copies than were told at just its view and position.")
    down_uncounted: bool = rule("Other servers that are recorded down are not counted for that.")
    copies_left: bool = rule("A primary that stays asks for as many copies less as replicas go by the reopening.")
    down_lowers: bool = rule("An approval lowers the number by the replicas that are recorded down.")
    lower_numbered: bool = rule(
        "A primary lowers its number only for a permit above its base and above the last that it lowered or raised for."
    )
    raised_by_those_that_stay: bool = rule(
        "A primary asks for all copies again only by replicas of which it was told that they are recorded up, and named "
        "by no unfinished stream."
    )
    raise_stored: bool = rule("A primary stores that it asks for all copies again before it says so.")
    copied_named: bool = rule("`copied` names base and nonce of the primary's last slots, and what lowered the number.")
    primary_renumbers: bool = rule(
        "Where fewer copies are asked for, a new primary counts as what lowered the number: no earlier `copied` fits."
    )
    copied_at_rest: bool = rule(
        "`copied` is not taken while an unfinished stream names the shard: its orders carry a number."
    )
    drops_leave_copies: bool = rule("A plan may not begin if its drops may leave fewer replicas than wanted.")
    last_is_alone: bool = rule(
        "Nor if a stream may drop a shard's last replica while another one adds a replica of the shard."
    )
    first_is_alone: bool = rule(
        "Nor if two streams add replicas of a shard that has none, or one adds a first primary beside a replica."
    )
    # Fences.
    fence_bounded: bool = rule("A server with slots takes no fence further than 2^20 epochs above its base.")
    # Another journal, after the last epoch, whose numbers are low again.
    journal_ended: bool = rule("Before it opens, all controllers of the one before have ended, and what they sent.")
    views_cleared: bool = rule("Before it opens, the views of each copy become the one view 0.")
    unlike_set_aside: bool = rule("But a copy of another view or position than the greatest one is set aside before that.")
    versions_cleared: bool = rule("The map's owner shows its entries under version 0.")

    def without(self, *names: str) -> Rules:
        """The same rules without these."""
        unknown = set(names) - set(rule_names(self))
        if unknown:
            raise ValueError(f"no such rules: {', '.join(sorted(unknown))}")
        return replace(self, **{name: False for name in names})


# The rules of the full form that the small one has not: what stands in their place is in `SmallRules`, or is today's.
NOT_SMALL = frozenset({
    "down_lowers", "lower_numbered", "raised_by_those_that_stay", "raise_stored", "copied_named", "primary_renumbers",
    "copied_at_rest", "copies_at_successor", "down_uncounted", "copies_left", "drops_leave_copies", "leave_of_all",
    "leave_of_fewer", "change_by_count", "former_counts", "members_awaited", "asked_after", "unknown_data_counts",
    "copies_kept", "empty_is_down",
})


@dataclass(frozen=True)
class SmallRules(Rules):
    """The rules of the small form (SMALL.md). A shard's number of copies is `wanted`, and changes by reopenings alone;
    the record has of each how many surely have each acknowledged write: `kept`."""

    is_small: ClassVar[bool] = True
    away: ClassVar[frozenset[str]] = REPLACED | NOT_SMALL

    # Servers.
    leave_of_wanted: bool = rule("Leave asks for as many copies at others as a write.")
    copied_of_all: bool = rule(
        "A primary says `copied` only when as many replicas as are wanted have all that it had when it began to serve."
    )
    copied_names_settled: bool = rule(
        "`copied` names the last reopening at which its server was settled, and not its base: it may be fenced above."
    )
    # The controller.
    wanted_within_floor: bool = rule("No more copies are wanted than the shard's floor of live replicas.")
    kept_from_one: bool = rule("An opening begins with 1 copy that is surely kept.")
    kept_below_wanted: bool = rule("A reopening keeps no more copies than are wanted from then on.")
    goers_lower: bool = rule("A reopening keeps as many copies less as replicas go by it.")
    copied_names_journal: bool = rule("`copied` of another journal is ignored.")
    copied_names_fence: bool = rule("`copied` of a server that was not settled at the last reopening is ignored.")
    unknown_gone: bool = rule("An Unknown replica counts as gone.")
    silent_gone: bool = rule("A replica that is carried over, and has told nothing, counts as gone.")
    server_named: bool = rule(
        "If one that may have served the shard tells no whole copy, the shard is named: others may have got writes "
        "since they told."
    )


# The rules of the small form that the built one has not.
NOT_BUILT = frozenset({
    "kept_below_wanted", "goers_lower", "ordered_counted", "replaced_counted", "leave_of_present", "position_wins",
    "doubt_told", "doubt_kept", "fence_bounded",
})


@dataclass(frozen=True)
class BuiltRules(SmallRules):
    """The rules of the form that is built (SMALL.md). The number by which servers acknowledge is theirs, and comes to
    them with their slots; `copied` tells it. Without it, and from each reopening on, 1 copy is kept."""

    is_built: ClassVar[bool] = True
    away: ClassVar[frozenset[str]] = REPLACED | NOT_SMALL | NOT_BUILT

    # Servers.
    number_until_slots: bool = rule("A server acknowledges by its number until it takes a later reopening's settle.")
    leave_of_settled_view: bool = rule(
        "Without another primary no replica gets leave whose view is above the last reopening at which it was settled: "
        "it waits for a newer message."
    )
    # The controller.
    copied_only_rises: bool = rule("`copied` of no more copies than are recorded is ignored.")
    kept_begins_anew: bool = rule("A reopening begins with 1 copy again.")
    ordered_keeps_one: bool = rule("A reopening counts by 1 if an order for the shard is present when it begins.")
    handed_keeps_one: bool = rule("Or if a handover of it is recorded.")
    replaced_keeps_one: bool = rule("Or if it replaces a reopening that was confirmed.")
    part_gone: bool = rule("A replica that tells no whole copy, or view 0 and position 0, counts as gone.")


SOUND = Rules()
SMALL = replace(SmallRules(), **{it: False for it in NOT_SMALL})
BUILT = replace(BuiltRules(), **{it: False for it in NOT_SMALL | NOT_BUILT})


def rule_names(rules: Rules = SOUND) -> list[str]:
    """The names of all rules that are in force here."""
    return [it.name for it in fields(rules) if it.name not in rules.away]


def data_rule_names(rules: Rules = SOUND) -> list[str]:
    """The names of the rules for data alone."""
    return [it for it in rule_names(rules) if it not in {at.name for at in fields(driving.Rules)}]


def sentence_of(name: str) -> str:
    """What a rule says."""
    return next(it.metadata["sentence"] for it in fields(BuiltRules) if it.name == name)
