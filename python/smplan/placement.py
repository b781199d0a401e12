"""A placement: which server has what of each shard, and what each instruction changes in it."""
from dataclasses import dataclass
from typing import Dict, List, Optional, Set

from .model import Document, Instruction, Lead
from .words import down_in_words


@dataclass(frozen=True)
class Numbers:
    """How much a server has, and how much it has room for."""

    load: int
    room: int

    @property
    def free(self) -> int:
        return self.room - self.load


class Placement:
    """The cells of a document's placement by shard and server, the map's entries, and the servers that are down.

    `replicas` has the same cells by server and shard, and `loads` the sum of the loads of the shards of which a server has something.
    """

    def __init__(self, document: Document) -> None:
        self.document = document
        self.cells: Dict[str, Dict[str, str]] = {name: {} for name in document.shards}
        self.replicas: Dict[str, Dict[str, str]] = {name: {} for name in document.servers}
        self.loads: Dict[str, int] = {name: 0 for name in document.servers}
        self.listed: Dict[str, Optional[str]] = {name: shard.listed for name, shard in document.shards.items()}
        self.down: Set[str] = {name for name, server in document.servers.items() if server.down}
        for name, shard in document.shards.items():
            for cell in shard.cells:
                self.put(name, cell.server, cell.state)

    def copy(self) -> "Placement":
        other = Placement.__new__(Placement)
        other.document = self.document
        other.cells = {name: dict(cells) for name, cells in self.cells.items()}
        other.replicas = {name: dict(cells) for name, cells in self.replicas.items()}
        other.loads, other.listed, other.down = dict(self.loads), dict(self.listed), set(self.down)
        return other

    def put(self, shard: str, server: str, state: str) -> None:
        """Sets a cell that is not absent then."""
        if server not in self.cells[shard]:
            self.loads[server] += self.document.shards[shard].load
        self.cells[shard][server] = self.replicas[server][shard] = state

    def remove(self, shard: str, server: str) -> None:
        """Sets a cell to absent."""
        if self.cells[shard].pop(server, None):
            del self.replicas[server][shard]
            self.loads[server] -= self.document.shards[shard].load

    def numbers(self, server: str) -> Numbers:
        return Numbers(self.loads[server], self.document.servers[server].room)

    def free(self, server: str) -> int:
        return max(0, self.numbers(server).free)

    def shards_at(self, server: str) -> List[str]:
        return list(self.replicas[server])

    def live(self, shard: str) -> List[str]:
        """Returns the servers with a live replica: they are up, and their replica is a secondary or serves."""
        cells = self.cells[shard]
        is_forwarding = "forwarding" in cells.values()
        return [
            server for server, state in cells.items()
            if server not in self.down and (state in ("primary", "secondary") or (state == "prepared" and is_forwarding))
        ]

    def spare(self, shard: str) -> int:
        """Returns how many live replicas may go."""
        return max(0, len(self.live(shard)) - self.document.shards[shard].floor)

    def lead(self, shard: str) -> Lead:
        """Returns where the primary of a settled placement stands."""
        owners = [server for server, state in self.cells[shard].items() if state == "primary"]
        return Lead("at", owners[0]) if owners else Lead("gone")

    def regions(self, shard: str) -> Set[str]:
        return {self.document.servers[it].region for it in self.cells[shard]}

    def make(self, it: Instruction) -> None:
        """Makes an instruction of an accepted plan in its turn."""
        if it.do == "prepare_add":
            self.put(it.shard, it.server, "prepared")
        elif it.do == "prepare_drop":
            self.put(it.shard, it.server, "forwarding")
        elif it.do in ("add", "change"):
            self.put(it.shard, it.server, it.role)
        elif it.do == "drop":
            self.remove(it.shard, it.server)
        elif it.do == "unlist":
            self.listed[it.shard] = None
        elif it.do == "publish":
            states = {state: server for server, state in self.cells[it.shard].items()}
            self.listed[it.shard] = states.get("primary", states.get("forwarding"))


@dataclass(frozen=True)
class Finding:
    """Something that is wrong: the line of a report that names it, and what lies behind it, a line each."""

    line: str
    text: str
    details: List[str]


def double_cells(document: Document) -> List[Finding]:
    found = []
    order = list(document.servers)
    for shard in document.shards.values():
        names = [it.server for it in shard.cells]
        for server in sorted({it for it in names if names.count(it) > 1}, key=order.index):
            states = " and ".join(it.state for it in shard.cells if it.server == server)
            found.append(Finding(f"placement refused: 4 DoubleCell shard {shard.name} server {server}",
                                 f"the cell of {shard.name} at {server} stands more than once in the shard's 'cells'", [f"once each as {states}; leave one of them"]))
    return found


def bad_leads(document: Document) -> List[Finding]:
    found = []
    for shard in document.shards.values():
        first: Dict[str, str] = {}
        for cell in shard.cells:
            first.setdefault(cell.server, cell.state)
        owners = [server for server, state in first.items() if state == "primary"]
        if len(owners) > 1:
            found.append(Finding(f"placement refused: 5 BadLead shard {shard.name}", f"{shard.name} has {len(owners)} primaries: {', '.join(owners)}",
                                 ["a shard has one primary at most; make the others secondaries"]))
    return found


def bad_listings(document: Document) -> List[Finding]:
    found = []
    for shard in document.shards.values():
        states: Dict[str, str] = {}
        for cell in shard.cells:
            states.setdefault(cell.server, cell.state)
        if shard.listed is not None and states.get(shard.listed) != "primary":
            has = states.get(shard.listed)
            owner = next((server for server, state in states.items() if state == "primary"), None)
            hint = f"list {owner}, its primary, or null" if owner else "it has no primary: list null"
            found.append(Finding(f"placement refused: 6 BadListing shard {shard.name}",
                                 f"the map lists {shard.listed} for {shard.name}, which has {'a secondary' if has else 'nothing'} of it", [hint]))
    return found


def over_rooms(document: Document, placement: Placement) -> List[Finding]:
    found = []
    for server in document.servers:
        numbers = placement.numbers(server)
        if numbers.free < 0:
            parts = ", ".join(f"{name} {document.shards[name].load}" for name in placement.shards_at(server))
            found.append(Finding(f"placement refused: 7 OverRoom server {server}",
                                 f"{server} has load {numbers.load} and room {numbers.room}: {-numbers.free} too much", [f"the load is {parts}"]))
    return found


def short_shards(document: Document, placement: Placement) -> List[Finding]:
    found = []
    for name, shard in document.shards.items():
        live = placement.live(name)
        if len(live) < shard.floor:
            away = [f"{it} is down" for it in placement.cells[name] if it in placement.down]
            details = [f"live at: {', '.join(live) or 'no server'}" + (f"; {', '.join(away)}" if away else "")]
            details.append(f"raise 'cap' to {shard.want - len(live)}, or lower 'want', until the numbers allow what is so")
            found.append(Finding(f"placement refused: 8 Short shard {name}",
                                 f"{name} has {len(live)} live replica{'' if len(live) == 1 else 's'}, and its floor is {shard.floor} "
                                 f"(want {shard.want}, cap {shard.cap})", details))
    return found


def too_many_down(document: Document, placement: Placement) -> List[Finding]:
    if len(placement.down) <= document.limit:
        return []
    names = [it for it in document.servers if it in placement.down]
    return [Finding("placement refused: 9 TooManyDown", f"{down_in_words(len(names))}, and 'limit' is {document.limit}", [f"down: {', '.join(names)}"])]


def opening_findings(document: Document) -> List[Finding]:
    """Returns all that is wrong with a placement, in the order in which the program looks; it names the first."""
    lists = double_cells(document) + bad_leads(document)
    placement = Placement(document)
    return [*lists, *bad_listings(document), *over_rooms(document, placement), *short_shards(document, placement), *too_many_down(document, placement)]
