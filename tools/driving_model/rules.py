"""The rules of driving real servers, each with a switch and a sentence on what it guards.

The sound form has all of them. `without` takes rules away, so that what a rule guards against can be seen.
"""
from __future__ import annotations

from dataclasses import dataclass, field, fields, replace
from typing import Any


def rule(sentence: str) -> Any:
    """A switch that is on, with what the rule says."""
    return field(default=True, metadata={"sentence": sentence})


@dataclass(frozen=True)
class Rules:
    """Which rules are in force."""

    # Orders and publications.
    handover_base: bool = rule(
        "Handover numbers get the epoch's base, so a request passed on in an earlier epoch meets no cell of this "
        "one."
    )
    number_order: bool = rule("An order at or below the last number is old, and not only one that is equal to it.")
    kept_slots: bool = rule("A slot keeps its last number when its replica is dropped.")
    journal_named: bool = rule("An order names its journal, and a server takes no order of another one.")
    publication_awaited: bool = rule("A stream goes on only when the map's owner has answered its publication.")
    version_order: bool = rule("The map's owner takes a publication only if its version is above the one that it has.")
    names_kept: bool = rule(
        "Names of plans and restarts of this epoch and of the one before are kept, so none begins twice."
    )
    # Work at a server.
    work_before_commit: bool = rule("An order is committed only when its work is done.")
    work_abandoned: bool = rule("A server that starts abandons what was at work.")
    requests_ended: bool = rule(
        "`prepare_drop` commits when no request of the shard runs, and holds new ones back from its beginning."
    )
    change_waits: bool = rule(
        "`change` to secondary is held in the same way, and commits when the secondaries have all writes."
    )
    drop_waits: bool = rule("So is `drop` of a primary, which commits when no request of the shard runs.")
    cut_awaited: bool = rule(
        "`add` of a new owner commits, and passed requests execute, when the writes up to the cut are applied."
    )
    copies_acknowledge: bool = rule("A write is acknowledged only when every secondary has it.")
    old_owner_acknowledges: bool = rule("In a handover a write is acknowledged only when the old owner has it, too.")
    # Restoring.
    restore_nonce: bool = rule("A restore is taken for the server's present nonce alone.")
    start_nonce: bool = rule(
        "An Unknown server makes a new nonce at every start, so no restore of before finds it once it was given up."
    )
    restore_whole_journal: bool = rule(
        "A restore comes from a controller with the whole journal, since it is an entry of it."
    )
    restore_base_low: bool = rule(
        "A restore's base is no more than the base plus the log's length, so no present order is old."
    )
    restore_base_high: bool = rule("A restore's base counts the log's length, so every order recorded by then is old.")
    restore_disengaged: bool = rule("A server that an unfinished stream names is not restored.")
    restore_at_rest: bool = rule("No server is restored while a reopening is under way.")
    restore_above_fence: bool = rule(
        "A server that is fenced above the reopening which a restore names does not take it."
    )
    # Restarts.
    permit_named: bool = rule("The end of a restart names its permit, so a second one ends nothing.")
    restart_settled: bool = rule("A restart ends only with a base of the server at or above the last reopening.")
    restart_unfenced: bool = rule("A server that is Unknown or fenced has no base to end its restart with.")
    # Reopening.
    fence_first: bool = rule("A reopening fences every server before it settles anything.")
    fence_ends_work: bool = rule("A fence ends what is at work, so nothing begun before it commits.")
    fence_waits: bool = rule("A fence is answered when no request of a slot in a handover runs.")
    fenced_names_base: bool = rule(
        "The answer to a fence names its base, so one of an earlier reopening does not count."
    )
    frozen_handovers: bool = rule("At a fenced server a slot in a handover executes and passes on nothing.")
    map_fenced: bool = rule("The map's owner is fenced and settled like a server.")
    settle_once: bool = rule("A settle is taken once, by a server that is fenced at its base.")
    settle_whole: bool = rule(
        "A settle is taken as a whole: of a shard of which it brings nothing the server has nothing from then on."
    )
    settle_nonce: bool = rule(
        "An Unknown server makes a new nonce at a fence, and takes the settle for that nonce alone."
    )
    settles_awaited: bool = rule("An opening is in force when every settle is answered.")
    stale_unknown: bool = rule("A server below the last reopening that a message names turns Unknown.")
    fenced_is_stale: bool = rule(
        "So does one that is fenced at it, and the controller tells those that it carried over."
    )
    journal_above: bool = rule("A journal that adopts servers begins above every epoch that the old one has begun.")
    primary_stays: bool = rule("`confirm` may not take a shard from a server whose inventory has it as primary.")
    survivor_rank: bool = rule(
        "A shard without a primary goes to a party that has all writes, else to a secondary, else to one without."
    )
    survivor_position: bool = rule(
        "Of equals, a shard without a primary goes to the survivor with the greatest position."
    )
    replaced_fenced: bool = rule(
        "A reopening fences also the servers that are named by the document of one that it replaces."
    )
    leaver_is_empty: bool = rule(
        "A server that a reopening's document leaves out has nothing left of any shard, or is named as lost."
    )
    carried_unsettled: bool = rule("A server is carried over only if no replaced reopening has sent it a settle.")
    carried_copy: bool = rule("A silent secondary that is carried over ranks as a secondary.")
    # Leases, if a server that is given up may go on.
    lease_ends: bool = rule(
        "A server that no controller has answered for the time of a lease, by its own clock, serves nobody."
    )
    lease_waited: bool = rule(
        "A reopening that gives a server up is confirmed once its lease is over by the slowest clock, or it is off."
    )
    lease_from_asking: bool = rule("A lease counts from when the server asked, and not from when the answer came.")

    def without(self, *names: str) -> "Rules":
        """The same rules without these."""
        unknown = set(names) - set(rule_names())
        if unknown:
            raise ValueError(f"no such rules: {', '.join(sorted(unknown))}")
        return replace(self, **{name: False for name in names})


SOUND = Rules()


def rule_names() -> list[str]:
    """The names of all rules."""
    return [it.name for it in fields(Rules)]


def sentence_of(name: str) -> str:
    """What a rule says."""
    return next(it.metadata["sentence"] for it in fields(Rules) if it.name == name)
