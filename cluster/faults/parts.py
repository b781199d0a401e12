"""The parts of a story by name, and how a run draws them by a seed."""
from __future__ import annotations

import random

# A part, and the share of a run at which it begins.
Parts = tuple[tuple[float, str], ...]

# What nearly all runs of a storm have, and how often.
USUAL = (("kill_leader", 1), ("freeze_leader", 1), ("kill_member", 1), ("crash_server", 2), ("restart_server", 4), ("drain", 1))
# What is drawn beside that: servers, controllers and members of etcd that are away, all at once or in part.
AWAY = (
    "crash_two", "crash_all", "stop_server", "stop_two", "stop_store", "lose_answers", "isolate_server", "black_hole", "fill_disk", "cut_to_last_sync",
    "kill_controllers", "lose_answers_of_etcd", "kill_members",
    "lose_quorum", "kill_first_member", "stop_first_member", "compact", "ask_too_much",
)
# Reopenings without a loss.
REOPENINGS = ("reopen_behind_leader", "reopen_before_write", "reopen_behind_cut", "reopen_amid_passing", "reopen_while_down")
# What is done with handovers, and with servers that lose their slots twice.
OTHERS = ("break_following", "hand_over_unheard", "forget_twice")
# A server, or its disk, is given up. Before that each shard has all its replicas, with all writes unless each is at two servers: the rules keep what was acknowledged.
LOSSES = ("lose_server", "lose_lagging", "lose_behind_cut", "lose_beside_restart", "replace_disk", "replace_disk_under_permit")
# Those that need three replicas, and what the last part of a run is then, whose seed is even: its shards have so many.
OF_THREE = ("lose_beside_absent", "lose_primary_beside_absent")
LAST_OF_THREE = ("lose_lagging", "lose_behind_cut", *OF_THREE)
# What the rules as they stand do not survive: never drawn. A run has them if they are named.
OUTSIDE = ("return_given_up", "give_up_isolated", "roll_back", "restore_etcd", "restore_etcd_alone")
EVERY = (*(name for name, _ in USUAL), *AWAY, *REOPENINGS, *OTHERS, *LOSSES, *OF_THREE)


# The parts that are about copies, about members that are away or late, and about the map.
COPIES = ("drain", "restart_server", "crash_two", "hand_over_unheard")
MEMBERS = ("crash_server", "crash_two", "restart_server", "stop_store", "isolate_server")
# Those about who leads, about messages that come late or again, about handovers, and about reopenings while orders are at work.
LEADERS = ("kill_leader", "freeze_leader", "kill_controllers", "lose_answers_of_etcd")
LATE = ("drain", "crash_server", "restart_server", "kill_leader")
HANDOVERS = ("drain", "break_following", "hand_over_unheard")
REOPENING_AT_WORK = ("reopen_amid_passing", "reopen_behind_cut", "reopen_before_write")
# What a lease makes harmless.
LEASED = ("return_given_up", "give_up_isolated")
MAP = ("drain", "kill_leader", "freeze_leader", "restart_server", "lose_answers_of_etcd")


def of_rule(names: tuple[str, ...], seed: int) -> Parts:
    """Parts drawn by a seed from those that a rule names, each of them before one comes again: four, or two if a server is given up."""
    dice, left = random.Random(f"rule {seed}"), 2 if set(names) & {*LOSSES, *OF_THREE, *LEASED} else 4
    rounds = [dice.sample(names, min(len(names), left - done)) for done in range(0, left, len(names))]
    return evenly([name for it in rounds for name in it])


def storm_of(seed: int) -> Parts:
    """The parts of a run of a storm: nearly all that is usual, some of everything else, and at the end a server that is lost, or a reopening in
    handovers."""
    dice = random.Random(f"parts {seed}")
    names = [name for name, count in USUAL for _ in range(count)]
    for _ in range(2):
        names.remove(dice.choice(names))
    names += dice.sample(AWAY, 4) + dice.sample(REOPENINGS, 2) + dice.sample(OTHERS, 1)
    if "reopen_behind_leader" in names and "freeze_leader" in names:
        names.remove("freeze_leader")
    if dice.random() < 0.5:
        names.append(dice.choice(LOSSES))
    last = "reopen_amid_passing" if dice.random() < 0.25 else dice.choice(LOSSES if seed % 2 else LAST_OF_THREE)
    return tuple(sorted([*((dice.uniform(0.05, 0.75), name) for name in names), (0.8, last)]))


def drawn(seed: int, count: int) -> Parts:
    """Some different parts, drawn by a seed. The last one gives a server or its disk up, and no other does."""
    dice = random.Random(f"drawn {seed}")
    names = dice.sample([it for it in EVERY if it not in (*LOSSES, *OF_THREE)], count - 1)
    return evenly([*names, dice.choice(LOSSES)])


def evenly(names: list[str]) -> Parts:
    """Parts one after the other, at equal distances."""
    return tuple((0.1 + 0.8 * it / len(names), name) for it, name in enumerate(names))
