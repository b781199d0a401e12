"""Instructions and rights in words."""
from typing import List, Optional

from .model import Instruction, Parcel, Plan, Spot


def counted(count: int, noun: str, plural: Optional[str] = None) -> str:
    """Returns a count with its noun."""
    return f"{count} {noun if count == 1 else plural or noun + 's'}"


def down_in_words(count: int) -> str:
    """Returns a text that says how many servers are down."""
    return f"{counted(count, 'server')} {'is' if count == 1 else 'are'} down"


def rights_in_words(parcel: Parcel) -> List[str]:
    """Returns each right of a parcel in words."""
    found = [f"room {amount} at {server}" for server, amount in parcel.room.items()]
    found += [f"{amount} spare of {shard}" for shard, amount in parcel.spare.items()]
    found += [f"the cell of {shard} at {server} ({state})" for (shard, server), state in parcel.cells.items()]
    found += [f"the crown of {shard} ({crown})" for shard, crown in parcel.crowns.items()]
    return found


def carried(parcel: Parcel) -> str:
    return ", ".join(rights_in_words(parcel)) or "nothing"


def others(plan: Plan, do: str, signal: int) -> str:
    """Returns where a signal is posted or waited for, in words."""
    spots = plan.spots(do, signal)
    return " and ".join(str(it) for it in spots) or "nobody"


def published(it: Instruction, hold: Optional[Parcel]) -> str:
    """Returns what a `publish` lists, as far as the hold before it tells."""
    crown = hold.crowns.get(it.shard) if hold else None
    if crown is None:
        return f"the map lists the primary of {it.shard}"
    server = crown.lead.taker if crown.lead.state == "handed" else crown.lead.owner
    return f"the map lists {server or 'no server'} for {it.shard}"


def in_words(plan: Plan, spot: Spot, hold: Optional[Parcel]) -> str:
    """Returns what an instruction does, in words. `hold` is what its stream holds before it, if that is known."""
    it = plan.at(spot)
    if it.do == "add":
        is_handed = it.role == "primary" and hold is not None and it.shard in hold.crowns and hold.crowns[it.shard].lead.state == "handing"
        return f"{it.server} becomes the primary of {it.shard}" if is_handed else f"{it.server} gets a {it.role} of {it.shard}"
    if it.do == "signal":
        return f"hands on {carried(plan.signals[it.signal])} to {others(plan, 'wait', it.signal)}"
    if it.do == "wait":
        return f"until {others(plan, 'signal', it.signal)} hands on {carried(plan.signals[it.signal])}"
    return {
        "prepare_add": f"{it.server} prepares to take the primary of {it.shard} from {it.other}",
        "prepare_drop": f"{it.server} forwards requests for {it.shard} to {it.other}",
        "drop": f"{it.server} drops its replica of {it.shard}",
        "change": f"the replica of {it.shard} at {it.server} becomes a {it.role}",
        "publish": published(it, hold),
        "unlist": f"the map lists no server for {it.shard}",
    }[it.do]


def label(it: Instruction) -> str:
    """Returns the word of an instruction, with the number of a signal."""
    return f"{it.do} {it.signal}" if it.do in ("signal", "wait") else it.do
