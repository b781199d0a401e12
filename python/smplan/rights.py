"""What a stream's rights become at each instruction, and why one may not be made (docs/MODEL.md, "Rights").

The tests of an instruction are made in the order of the table there; the first that fails is the reason.
"""
from dataclasses import dataclass
from typing import Callable, Dict, List, Optional

from .model import Crown, Instruction, Lead, Parcel, Plan, Shard, Stream

GONE = Lead("gone")


@dataclass(frozen=True)
class Why:
    """Why an instruction may not be made: the word of a report, and what lies behind it."""

    word: str
    text: str


class Broken(Exception):
    """An instruction may not be made."""

    def __init__(self, word: str, text: str) -> None:
        super().__init__(text)
        self.why = Why(word, text)


class Hold:
    """What a stream holds, and the shards' loads."""

    def __init__(self, rights: Parcel, loads: Dict[str, int]) -> None:
        self.rights = rights.copy()
        self.loads = loads

    # ---- tests

    def need_crown(self, shard: str) -> Crown:
        crown = self.rights.crowns.get(shard)
        if crown is None:
            raise Broken("NoCrown", f"the stream does not hold the crown of {shard}")
        return crown

    def need_cell(self, shard: str, server: str, state: str) -> None:
        held = self.rights.cells.get((shard, server))
        if held is None:
            raise Broken("NoRight", f"the stream does not hold the cell of {shard} at {server}")
        if held != state:
            raise Broken("WrongState", f"the stream holds the cell of {shard} at {server} as {held}, and it has to be {state}")

    def need_room(self, shard: str, server: str) -> None:
        held, load = self.rights.room.get(server, 0), self.loads.get(shard, 0)
        if held < load:
            raise Broken("NoRoom", f"{shard} has load {load}, and the stream holds room {held} at {server}: {load - held} is missing")

    def need_spare(self, shard: str) -> None:
        if self.rights.spare.get(shard, 0) < 1:
            raise Broken("NoSpare", f"a live replica of {shard} is to go, and the stream holds none that can be spared")

    # ---- changes

    def add_room(self, shard: str, server: str, times: int = 1) -> None:
        change(self.rights.room, server, times * self.loads.get(shard, 0))

    def add_spare(self, shard: str, count: int = 1) -> None:
        change(self.rights.spare, shard, count)

    def take_absent(self, shard: str, server: str) -> None:
        """Takes what a new replica needs: the absent cell and the room for the load."""
        self.need_cell(shard, server, "absent")
        self.need_room(shard, server)
        self.add_room(shard, server, -1)

    def crown(self, shard: str, lead: Lead) -> None:
        self.rights.crowns[shard] = Crown(lead, self.rights.crowns[shard].listed)

    def leave(self, shard: str, server: str) -> None:
        """Gives what a dropped replica leaves: the absent cell and its room."""
        self.rights.cells[shard, server] = "absent"
        self.add_room(shard, server)


def change(amounts: Dict[str, int], key: str, by: int) -> None:
    amounts[key] = amounts.get(key, 0) + by
    if not amounts[key]:
        del amounts[key]


def wrong_lead(shard: str, crown: Crown, needed: str) -> Broken:
    return Broken("WrongLead", f"the crown of {shard} says '{crown.lead}', and it has to say '{needed}'")


def need_lead(shard: str, crown: Crown, lead: Lead) -> None:
    if crown.lead != lead:
        raise wrong_lead(shard, crown, str(lead))


def prepare_add(hold: Hold, it: Instruction) -> None:
    need_lead(it.shard, hold.need_crown(it.shard), Lead("at", it.other))
    hold.take_absent(it.shard, it.server)
    del hold.rights.cells[it.shard, it.server]
    hold.crown(it.shard, Lead("ready", it.other, it.server))


def prepare_drop(hold: Hold, it: Instruction) -> None:
    need_lead(it.shard, hold.need_crown(it.shard), Lead("ready", it.server, it.other))
    hold.crown(it.shard, Lead("handing", it.server, it.other))


def add(hold: Hold, it: Instruction) -> None:
    if it.role == "secondary":
        hold.take_absent(it.shard, it.server)
        hold.rights.cells[it.shard, it.server] = "secondary"
        hold.add_spare(it.shard)
        return
    crown = hold.need_crown(it.shard)
    if crown.lead.state == "handing":
        if crown.lead.taker != it.server:
            raise wrong_lead(it.shard, crown, f"forwarding from {crown.lead.owner} to {it.server}")
        hold.crown(it.shard, Lead("handed", crown.lead.owner, it.server))
    elif crown.lead == GONE:
        hold.take_absent(it.shard, it.server)
        del hold.rights.cells[it.shard, it.server]
        hold.crown(it.shard, Lead("at", it.server))
        hold.add_spare(it.shard)
    else:
        raise wrong_lead(it.shard, crown, f"no primary, or forwarding to {it.server}")


def drop(hold: Hold, it: Instruction) -> None:
    if (it.shard, it.server) in hold.rights.cells:
        hold.need_cell(it.shard, it.server, "secondary")
        hold.need_spare(it.shard)
        hold.add_spare(it.shard, -1)
        hold.leave(it.shard, it.server)
        return
    crown = hold.rights.crowns.get(it.shard)
    if crown is None:
        raise Broken("NoRight", f"the stream holds neither the cell of {it.shard} at {it.server} nor the crown of {it.shard}")
    drop_of_crown(hold, it, crown)


def drop_of_crown(hold: Hold, it: Instruction, crown: Crown) -> None:
    """Drops a replica that the crown's lead names."""
    lead = crown.lead
    if lead.state == "handed" and lead.owner == it.server:
        if crown.listed == it.server:
            raise Broken("StillListed", f"the published map still lists {it.server} for {it.shard}, so clients would be sent to a server that has nothing")
        hold.crown(it.shard, Lead("at", lead.taker))
    elif lead.state == "ready" and lead.taker == it.server:
        hold.crown(it.shard, Lead("at", lead.owner))
    elif lead.state == "at" and lead.owner == it.server:
        need_unlisted(it.shard, crown)
        hold.need_spare(it.shard)
        hold.add_spare(it.shard, -1)
        hold.crown(it.shard, GONE)
    else:
        raise wrong_lead(it.shard, crown, f"a lead under which {it.server} may drop it: handed over from {it.server}, prepared to {it.server}, or primary at {it.server}")
    hold.leave(it.shard, it.server)


def need_unlisted(shard: str, crown: Crown) -> None:
    if crown.listed is not None:
        raise Broken("StillListed", f"the published map still lists {crown.listed} for {shard}, and no primary is left after this")


def change_role(hold: Hold, it: Instruction) -> None:
    crown = hold.need_crown(it.shard)
    if it.role == "primary":
        need_lead(it.shard, crown, GONE)
        hold.need_cell(it.shard, it.server, "secondary")
        del hold.rights.cells[it.shard, it.server]
        hold.crown(it.shard, Lead("at", it.server))
        return
    need_lead(it.shard, crown, Lead("at", it.server))
    need_unlisted(it.shard, crown)
    if (it.shard, it.server) in hold.rights.cells:
        raise Broken("Twice", f"the stream would hold the cell of {it.shard} at {it.server} twice")
    hold.crown(it.shard, GONE)
    hold.rights.cells[it.shard, it.server] = "secondary"


def publish(hold: Hold, it: Instruction) -> None:
    lead = hold.need_crown(it.shard).lead
    hold.rights.crowns[it.shard] = Crown(lead, lead.taker if lead.state == "handed" else lead.owner)


def unlist(hold: Hold, it: Instruction) -> None:
    hold.rights.crowns[it.shard] = Crown(hold.need_crown(it.shard).lead, None)


def post(hold: Hold, parcel: Parcel, signal: int) -> None:
    """Takes what a signal carries out of the hold."""
    rights = hold.rights
    lacking = [f"the cell of {s} at {v} as {state}" for (s, v), state in parcel.cells.items() if rights.cells.get((s, v)) != state]
    lacking += [f"the crown of {s} ({crown})" for s, crown in parcel.crowns.items() if rights.crowns.get(s) != crown]
    lacking += [f"room {n} at {v} (it holds {rights.room.get(v, 0)})" for v, n in parcel.room.items() if rights.room.get(v, 0) < n]
    lacking += [f"{n} spare of {s} (it holds {rights.spare.get(s, 0)})" for s, n in parcel.spare.items() if rights.spare.get(s, 0) < n]
    if lacking:
        raise Broken("NotCarried", f"signal {signal} carries what the stream does not hold: {'; '.join(lacking)}")
    for cell in parcel.cells:
        del rights.cells[cell]
    for shard in parcel.crowns:
        del rights.crowns[shard]
    for server, amount in parcel.room.items():
        change(rights.room, server, -amount)
    for shard, amount in parcel.spare.items():
        change(rights.spare, shard, -amount)


def receive(hold: Hold, parcel: Parcel, signal: int) -> None:
    """Puts what a signal carries into the hold."""
    rights = hold.rights
    twice = [f"the cell of {s} at {v}" for s, v in parcel.cells if (s, v) in rights.cells]
    twice += [f"the crown of {s}" for s in parcel.crowns if s in rights.crowns]
    if twice:
        raise Broken("Twice", f"signal {signal} brings what the stream holds already: {'; '.join(twice)}")
    rights.cells.update(parcel.cells)
    rights.crowns.update(parcel.crowns)
    for server, amount in parcel.room.items():
        change(rights.room, server, amount)
    for shard, amount in parcel.spare.items():
        change(rights.spare, shard, amount)


LINES: Dict[str, Callable[[Hold, Instruction], None]] = {
    "prepare_add": prepare_add,
    "prepare_drop": prepare_drop,
    "add": add,
    "drop": drop,
    "change": change_role,
    "publish": publish,
    "unlist": unlist,
}


def make(hold: Hold, it: Instruction, signals: List[Parcel]) -> None:
    """Makes one instruction, or raises why it may not be made."""
    if it.do == "signal":
        post(hold, signals[it.signal], it.signal)
    elif it.do == "wait":
        receive(hold, signals[it.signal], it.signal)
    else:
        LINES[it.do](hold, it)


@dataclass
class Walk:
    """A stream's way through its code: the hold before each position, and where and why it breaks off, if it does."""

    holds: List[Parcel]
    position: int
    why: Optional[Why]


def walk(plan: Plan, stream: Stream, loads: Dict[str, int]) -> Walk:
    """Follows a stream from what it declares, whatever the other streams do."""
    hold, holds, calls = Hold(stream.holds, loads), [stream.holds.copy()], 0
    for position, it in enumerate(stream.code):
        try:
            if it.is_call and calls == stream.budget:
                raise Broken("OverBudget", f"it is call {calls + 1} of the stream, whose budget is {stream.budget}")
            calls += it.is_call
            make(hold, it, plan.signals)
        except Broken as broken:
            return Walk(holds, position, broken.why)
        holds.append(hold.rights.copy())
    unsettled = [f"{s} ({crown.lead})" for s, crown in hold.rights.crowns.items() if crown.lead.state not in ("gone", "at")]
    if unsettled:
        return Walk(holds, len(stream.code), Why("Unsettled", f"the stream ends while it holds the crown of a handover under way: {', '.join(unsettled)}"))
    return Walk(holds, len(stream.code), None)


def loads_of(shards: Dict[str, Shard]) -> Dict[str, int]:
    return {it.name: it.load for it in shards.values()}
