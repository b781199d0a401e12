"""What a document says: servers, shards, and plans with their streams, instructions and rights (docs/MODEL.md)."""
from dataclasses import dataclass
from typing import Any, Dict, List, Optional, Tuple

from .limits import LOG_PLACES

Json = Dict[str, Any]

# The instructions that are calls to a server.
CALLS = ("prepare_add", "prepare_drop", "add", "drop", "change")


@dataclass(frozen=True)
class Server:
    name: str
    region: str
    room: int
    down: bool


@dataclass(frozen=True)
class Cell:
    """A replica of a shard: its server, and whether it is `primary` or `secondary`."""

    server: str
    state: str


@dataclass(frozen=True)
class Shard:
    name: str
    load: int
    want: int
    cap: int
    spread: int
    listed: Optional[str]
    cells: Tuple[Cell, ...]

    @property
    def floor(self) -> int:
        return self.want - self.cap


@dataclass(frozen=True)
class Lead:
    """Where a shard's primary stands: `gone`; `at` the owner; or in a handover, `ready`, `handing` or `handed`, from the owner to the new one."""

    state: str
    owner: Optional[str] = None
    taker: Optional[str] = None

    def __str__(self) -> str:
        if self.state == "gone":
            return "no primary"
        if self.state == "at":
            return f"primary at {self.owner}"
        words = {"ready": "prepared", "handing": "forwarding", "handed": "handed over"}
        return f"{words[self.state]} from {self.owner} to {self.taker}"


@dataclass(frozen=True)
class Crown:
    """The right to a shard's lead and its entry in the published map."""

    lead: Lead
    listed: Optional[str]

    def __str__(self) -> str:
        return f"{self.lead}, {'the map lists ' + self.listed if self.listed else 'the map lists no server'}"


@dataclass
class Parcel:
    """Rights, each by its key."""

    cells: Dict[Tuple[str, str], str]
    crowns: Dict[str, Crown]
    room: Dict[str, int]
    spare: Dict[str, int]

    def copy(self) -> "Parcel":
        return Parcel(dict(self.cells), dict(self.crowns), dict(self.room), dict(self.spare))


@dataclass(frozen=True)
class Instruction:
    """One instruction: its word, and what the word is about. `role` is the role of an `add` and the new role of a `change`."""

    do: str
    shard: str = ""
    server: str = ""
    other: str = ""
    role: str = ""
    signal: int = -1

    @property
    def is_call(self) -> bool:
        return self.do in CALLS

    @property
    def servers(self) -> Tuple[str, ...]:
        """The servers that the instruction names."""
        return tuple(it for it in (self.server, self.other) if it)

    def __str__(self) -> str:
        if self.do in ("signal", "wait"):
            return f"{self.do} {self.signal}"
        where = f" at {self.server}" if self.server else ""
        other = {"prepare_add": f" from {self.other}", "prepare_drop": f" to {self.other}"}.get(self.do, "")
        role = {"add": f" as {self.role}", "change": f" to {self.role}"}.get(self.do, "")
        return f"{self.do} {self.shard}{where}{other}{role}"


@dataclass
class Stream:
    budget: int
    retries: int
    holds: Parcel
    code: List[Instruction]


@dataclass(frozen=True)
class Spot:
    """An instruction of a plan: its stream, and its position in the stream's code."""

    stream: int
    position: int

    def __str__(self) -> str:
        return f"stream {self.stream}, instruction {self.position}"


@dataclass
class Plan:
    budget: int
    signals: List[Parcel]
    streams: List[Stream]

    def spots(self, do: str, signal: int) -> List[Spot]:
        """Returns where a signal is posted (`signal`) or waited for (`wait`)."""
        return [
            Spot(i, at) for i, stream in enumerate(self.streams) for at, it in enumerate(stream.code) if it.do == do and it.signal == signal
        ]

    def at(self, spot: Spot) -> Instruction:
        return self.streams[spot.stream].code[spot.position]

    @property
    def calls(self) -> int:
        return sum(it.is_call for stream in self.streams for it in stream.code)


@dataclass(frozen=True)
class Move:
    shard: str
    source: str
    target: str


@dataclass
class Document:
    limit: int
    log: int
    servers: Dict[str, Server]
    shards: Dict[str, Shard]
    plan: Optional[Plan]
    plans: Optional[List[Plan]]
    moves: Optional[List[Move]]
    drain: Optional[str]
    events: Optional[List[Json]]
    value: Json


# ---- from JSON values without faults

def parcel_of(value: Json) -> Parcel:
    return Parcel(
        cells={(it["shard"], it["server"]): it["state"] for it in value.get("cells", [])},
        crowns={it["shard"]: Crown(lead_of(it), it.get("listed")) for it in value.get("crowns", [])},
        room={it["server"]: it["amount"] for it in value.get("room", []) if it["amount"]},
        spare={it["shard"]: it["amount"] for it in value.get("spare", []) if it["amount"]},
    )


def lead_of(value: Json) -> Lead:
    if value["lead"] == "at":
        return Lead("at", value["server"])
    return Lead(value["lead"], value.get("from"), value.get("to"))


def instruction_of(value: Json) -> Instruction:
    return Instruction(
        do=value["do"],
        shard=value.get("shard", ""),
        server=value.get("server", ""),
        other=value.get("other", ""),
        role=value.get("role", value.get("to", "")),
        signal=value.get("signal", -1),
    )


def plan_of(value: Json) -> Plan:
    has_retries = value.get("format", 1) == 2
    streams = [
        Stream(it["budget"], it.get("retries", 0) if has_retries else 0, parcel_of(it["holds"]), [instruction_of(one) for one in it["code"]])
        for it in value["streams"]
    ]
    return Plan(value["budget"], [parcel_of(it) for it in value.get("signals", [])], streams)


def shard_of(value: Json) -> Shard:
    cells = tuple(Cell(it["server"], it["state"]) for it in value["cells"])
    return Shard(value["name"], value["load"], value["want"], value["cap"], value["spread"], value.get("listed"), cells)


def document_of(value: Json) -> Document:
    """Returns what a JSON value without faults says."""
    servers = [Server(it["name"], it["region"], it["room"], it.get("down", False)) for it in value["servers"]]
    return Document(
        limit=value["limit"],
        log=value.get("log", LOG_PLACES),
        servers={it.name: it for it in servers},
        shards={it["name"]: shard_of(it) for it in value["shards"]},
        plan=plan_of(value["plan"]) if "plan" in value else None,
        plans=[plan_of(it) for it in value["plans"]] if "plans" in value else None,
        moves=[Move(it["shard"], it["from"], it["to"]) for it in value["moves"]] if "moves" in value else None,
        drain=value.get("drain"),
        events=value.get("events"),
        value=value,
    )
