"""Why a plan is refused or held up, with the numbers behind it. The program decides; what is found here says why.

Each list of findings stands in the order in which the program looks, so its first one is what the program names.
"""
from typing import Callable, Dict, List, Set, Tuple

from .model import Document, Parcel, Plan, Spot
from .placement import Finding, Placement
from .rights import Walk, loads_of, walk
from .words import carried, counted, down_in_words


def budget_findings(plan: Plan) -> List[Finding]:
    total = sum(it.budget + it.retries for it in plan.streams)
    if total <= plan.budget:
        return []
    parts = ", ".join(f"stream {i}: {it.budget}" + (f" + {it.retries} retries" if it.retries else "") for i, it in enumerate(plan.streams))
    return [Finding(f"refused: 2 Budget streams {total} plan {plan.budget}",
                    f"the streams may make {counted(total, 'call')} and retries together, and the plan's budget is {plan.budget}",
                    [parts, f"raise the plan's \"budget\" to {total}"])]


def signal_findings(plan: Plan) -> List[Finding]:
    found = []
    for signal, parcel in enumerate(plan.signals):
        posts, waits = plan.spots("signal", signal), plan.spots("wait", signal)
        if (len(posts), len(waits)) != (1, 1):
            details = [f"posted at: {in_list(posts)}", f"waited for at: {in_list(waits)}", f"it carries {carried(parcel)}"]
            found.append(Finding(f"refused: 3 SignalNotOnce signal {signal} posts {len(posts)} waits {len(waits)}",
                                 f"signal {signal} is {use_of(len(posts), len(waits))}; it has to be posted once and waited for once", details))
    return found


def times(count: int) -> str:
    return {0: "never", 1: "once", 2: "twice"}.get(count, f"{count} times")


def use_of(posts: int, waits: int) -> str:
    """Returns how often a signal is used, in words."""
    waited = "never waited for" if waits == 0 else f"waited for {times(waits)}"
    return f"{'never posted' if posts == 0 else 'posted ' + times(posts)} and {waited}"


def in_list(spots: List[Spot]) -> str:
    return "; ".join(str(it) for it in spots) or "no stream"


def stream_findings(plan: Plan, placement: Placement) -> List[Finding]:
    found = []
    for number, stream in enumerate(plan.streams):
        way = walk(plan, stream, loads_of(placement.document.shards))
        if way.why:
            is_end = way.position == len(stream.code)
            at = f"stream {number}, at its end" if is_end else f"stream {number}, instruction {way.position}: {stream.code[way.position]}"
            details = [way.why.text, *advice(plan, placement, number, way)]
            found.append(Finding(f"refused: 4 Stream stream {number} at {way.position} {way.why.word}", at, details))
    return found


def advice(plan: Plan, placement: Placement, number: int, way: Walk) -> List[str]:
    """Returns what may help a stream that breaks off, a line each."""
    if way.why is None or way.position == len(plan.streams[number].code):
        return ["end the handover or give it up: 'drop' at the old server, or before it forwards at the new one"]
    spot = Spot(number, way.position)
    it = plan.at(spot)
    cell = (it.shard, it.server)
    if way.why.word == "NoRoom":
        numbers = placement.numbers(it.server)
        lines = [f"{it.server} has room {numbers.room} and load {numbers.load} before the plan: {placement.free(it.server)} is free"]
        lines += [f"{where} declares {parcel.room[it.server]} of it" for where, parcel in declared_elsewhere(plan, number) if it.server in parcel.room]
        lines += freeing(plan, placement, number, it.server)
        return lines + bringing(plan, spot, f"room at {it.server}", lambda parcel: it.server in parcel.room)
    if way.why.word == "NoRight":
        lines = [f"{where} declares it" for where, parcel in declared_elsewhere(plan, number) if cell in parcel.cells]
        return lines + bringing(plan, spot, f"the cell of {it.shard} at {it.server}", lambda parcel: cell in parcel.cells)
    if way.why.word == "NoCrown":
        lines = [f"{where} declares it" for where, parcel in declared_elsewhere(plan, number) if it.shard in parcel.crowns]
        return lines + bringing(plan, spot, f"the crown of {it.shard}", lambda parcel: it.shard in parcel.crowns)
    if way.why.word == "NoSpare":
        return ["add a replica before one is dropped, or declare a spare one in 'holds' if the placement has one",
                *bringing(plan, spot, f"a spare of {it.shard}", lambda parcel: it.shard in parcel.spare, or_else=False)]
    return ADVICE.get(way.why.word, [])


ADVICE = {
    "StillListed": ["'publish' the new server, or 'unlist' the shard, before this"],
    "OverBudget": ["raise the stream's \"budget\", and the plan's"],
    "Twice": ["leave it out of the stream's 'holds', or out of the signal"],
    "NotCarried": ["post the signal after the instruction that frees it"],
}


def freeing(plan: Plan, placement: Placement, number: int, server: str) -> List[str]:
    """Returns the instructions of other streams that free room at a server."""
    return [
        f"stream {i}, instruction {at} ({it}) frees {placement.document.shards[it.shard].load} there, which a signal behind it may carry"
        for i, stream in enumerate(plan.streams) for at, it in enumerate(stream.code) if i != number and it.do == "drop" and it.server == server
    ]


def declared_elsewhere(plan: Plan, number: int) -> List[Tuple[str, Parcel]]:
    return [(f"stream {i}", it.holds) for i, it in enumerate(plan.streams) if i != number]


def bringing(plan: Plan, spot: Spot, what: str, brings: Callable[[Parcel], bool], or_else: bool = True) -> List[str]:
    """Returns which signals bring what is missing, and where they are posted and waited for."""
    lines = []
    for signal, parcel in enumerate(plan.signals):
        if brings(parcel):
            waits = plan.spots("wait", signal)
            has_waited = any(it.stream == spot.stream and it.position < spot.position for it in waits)
            comment = "" if has_waited else f"; wait for it before instruction {spot.position}"
            lines.append(f"signal {signal} carries {carried(parcel)}: posted at {in_list(plan.spots('signal', signal))}, waited for at {in_list(waits)}{comment}")
    if not lines and or_else:
        lines.append(f"no signal carries {what}: declare it in the stream's 'holds', if it is free, or hand it on by a signal")
    return lines


def stuck_findings(plan: Plan) -> List[Finding]:
    """Returns where the streams of a plan wait for each other, whose signals are each posted and awaited once."""
    positions, posted = [0] * len(plan.streams), set()  # type: List[int], Set[int]
    goes_on = True
    while goes_on:
        goes_on = False
        for number, stream in enumerate(plan.streams):
            while positions[number] < len(stream.code):
                it = stream.code[positions[number]]
                if it.do == "wait" and it.signal not in posted:
                    break
                if it.do == "signal":
                    posted.add(it.signal)
                positions[number] += 1
                goes_on = True
    if all(at == len(stream.code) for at, stream in zip(positions, plan.streams)):
        return []
    details = []
    for number, stream in enumerate(plan.streams):
        if positions[number] < len(stream.code):
            signal = stream.code[positions[number]].signal
            details.append(f"stream {number} stops at instruction {positions[number]} and waits for signal {signal}, posted at {in_list(plan.spots('signal', signal))}")
    details.append("post one of these signals before the wait that it stands behind")
    return [Finding(f"refused: 5 Stuck positions {' '.join(map(str, positions))}", "the streams wait for each other", details)]


def plan_findings(plan: Plan, placement: Placement) -> List[Finding]:
    """Returns why a plan does not pass the check."""
    signals = signal_findings(plan)
    stuck = [] if signals else stuck_findings(plan)
    return [*budget_findings(plan), *signals, *stream_findings(plan, placement), *stuck]


# ---- admission

def untrue_findings(plan: Plan, placement: Placement) -> List[Finding]:
    found = []
    order = Order(placement.document)
    for number, stream in enumerate(plan.streams):
        for (shard, server), state in sorted(stream.holds.cells.items(), key=lambda it: order.of_cell(it[0])):
            has = placement.cells[shard].get(server, "absent")
            if has != state:
                found.append(Finding(f"held: 1 Untrue cell {shard} {server}", f"stream {number} declares the cell of {shard} at {server} as {state}, and it is {has}",
                                     [hint_for_cell(has, shard)]))
        for shard, crown in sorted(stream.holds.crowns.items(), key=lambda it: order.shards[it[0]]):
            lead, listed = placement.lead(shard), placement.listed[shard]
            details = []
            if crown.lead != lead:
                details.append(f"it declares '{crown.lead}', and so it is: '{lead}'")
            if crown.listed != listed:
                details.append(f"it declares that the map lists {crown.listed or 'no server'}, and the map lists {listed or 'no server'}")
            if details:
                found.append(Finding(f"held: 1 Untrue crown {shard}", f"stream {number} declares a crown of {shard} that is not so in the placement", details))
    return found


def hint_for_cell(has: str, shard: str) -> str:
    if has == "primary":
        return f"to a primary's cell there is no right of its own: the crown of {shard} is the right to it"
    return f"declare it as {has}, if the plan still fits"


class Order:
    """Where each shard and each server stands in a document."""

    def __init__(self, document: Document) -> None:
        self.shards = {name: at for at, name in enumerate(document.shards)}
        self.servers = {name: at for at, name in enumerate(document.servers)}

    def of_cell(self, key: Tuple[str, str]) -> Tuple[int, int]:
        return self.shards[key[0]], self.servers[key[1]]


def taken_findings(plan: Plan, placement: Placement) -> List[Finding]:
    found = []
    cells: Dict[Tuple[str, str], int] = {}
    crowns: Dict[str, int] = {}
    order = Order(placement.document)
    for number, stream in enumerate(plan.streams):
        for shard, server in sorted(stream.holds.cells, key=order.of_cell):
            if (shard, server) in cells:
                found.append(Finding(f"held: 2 Taken cell {shard} {server}",
                                     f"stream {number} declares the cell of {shard} at {server}, which stream {cells[shard, server]} declares already",
                                     ["declare it in one stream, and hand it on by a signal"]))
            cells.setdefault((shard, server), number)
        for shard in sorted(stream.holds.crowns, key=lambda it: order.shards[it]):
            if shard in crowns:
                found.append(Finding(f"held: 2 Taken crown {shard}", f"stream {number} declares the crown of {shard}, which stream {crowns[shard]} declares already",
                                     ["declare it in one stream, and hand it on by a signal"]))
            crowns.setdefault(shard, number)
    return found


def short_findings(plan: Plan, placement: Placement) -> List[Finding]:
    found, document = [], placement.document
    for server in document.servers:
        parts = {i: it.holds.room[server] for i, it in enumerate(plan.streams) if server in it.holds.room}
        free, numbers = placement.free(server), placement.numbers(server)
        if sum(parts.values()) > free:
            found.append(Finding(f"held: 3 ShortRoom server {server} free {free} declared {sum(parts.values())}",
                                 f"the streams declare room {sum(parts.values())} at {server}, where {free} is free: {sum(parts.values()) - free} too much",
                                 [f"{server} has room {numbers.room} and load {numbers.load}", f"declared by {by_stream(parts)}",
                                  f"hand on room that is freed at {server} by a signal, or take fewer replicas there"]))
    for shard, row in document.shards.items():
        parts = {i: it.holds.spare[shard] for i, it in enumerate(plan.streams) if shard in it.holds.spare}
        free, live = placement.spare(shard), len(placement.live(shard))
        if sum(parts.values()) > free:
            found.append(Finding(f"held: 4 ShortSpare shard {shard} free {free} declared {sum(parts.values())}",
                                 f"the streams declare {counted(sum(parts.values()), 'spare replica')} of {shard}, and {free} can be spared",
                                 [f"{shard} has {counted(live, 'live replica')}, and its floor is {row.floor} (want {row.want}, cap {row.cap})",
                                  f"declared by {by_stream(parts)}", "add a replica before one is dropped, or raise 'cap'"]))
    return found


def by_stream(parts: Dict[int, int]) -> str:
    return ", ".join(f"stream {number}: {amount}" for number, amount in parts.items())


def down_findings(plan: Plan, placement: Placement) -> List[Finding]:
    found = []
    for server in (it for it in placement.document.servers if it in placement.down):
        spots = [Spot(i, at) for i, stream in enumerate(plan.streams) for at, it in enumerate(stream.code) if server in it.servers]
        if spots:
            found.append(Finding(f"held: 5 ServerDown server {server}", f"{server} is down, and the plan names it", [f"named at: {in_list(spots)}",
                                 "plan without it, or wait until it is up"]))
    return found


def holding_findings(plan: Plan, placement: Placement) -> List[Finding]:
    """Returns what holds a plan up at a placement of which no right is taken."""
    return [*untrue_findings(plan, placement), *taken_findings(plan, placement), *short_findings(plan, placement), *down_findings(plan, placement)]


# ---- the log

def places_needed(plan: Plan) -> int:
    """Returns how many places of the log are set aside when a plan begins."""
    return sum(it.budget + it.retries + 1 + sum(not one.is_call for one in it.code) for it in plan.streams)


def log_findings(document: Document, placement: Placement) -> List[Finding]:
    if document.log >= len(placement.down):
        return []
    return [Finding("log refused: 2 LogFull", f"the log has {counted(document.log, 'place')}, and {down_in_words(len(placement.down))}",
                    [f"raise \"log\" to {len(placement.down)} at least"])]


def begin_findings(plan: Plan, document: Document, placement: Placement) -> List[Finding]:
    needed, free = places_needed(plan), document.log - len(placement.down)
    if needed <= free:
        return []
    return [Finding("not begun: 4 LogFull", f"the plan needs {counted(needed, 'place')} of the log, and {max(0, free)} are free",
                    [f"\"log\" is {document.log}, and {len(placement.down)} are set aside for servers that are down", f"raise \"log\" to {needed + len(placement.down)} at least"])]
