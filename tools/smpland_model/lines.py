"""Reads a line, and finds its faults in the order in which a reader of documents meets them (docs/FORMATS.md)."""
from __future__ import annotations

import re
from collections.abc import Iterable, Iterator
from dataclasses import dataclass, field, replace
from typing import Any

from driving_model.messages import LAST_EPOCH
from smplan import reading
from smplan.faults import Fault, FaultKind, answered
from smplan.limits import MOST_BYTES, MOST_LOAD, MOST_MOVES, MOST_NUMBER, MOST_SERVERS, MOST_SHARDS
from smplan.reading import Names, Reader, Row, entries, flag, keyed, kind_of, list_of, maybe, name, object_here, one
from smplan.reading import own_faults, shape, up_to, word

Json = dict[str, Any]

# All numbers are below this one, so that a float of 64 bits holds each of them.
MOST_EXACT = 2**53 - 1
MOST_WHY = 4_096
LABEL = re.compile(r"[A-Za-z0-9._-]{1,64}")
HEX = re.compile(r"(?=.*[1-9a-f])[0-9a-f]{1,16}")
# The blanks that may stand around a line.
BLANKS = b" \t\r\x0c"
CELLS = ("absent", "prepared", "secondary", "primary", "forwarding")
ANSWERS = ("old", "refused", "foreign", "not_ready")


class BadLine(Exception):
    """A line that is no command, with its identity if that can be read."""

    def __init__(self, fault: Fault, at: str, identity: Any) -> None:
        super().__init__(fault.what)
        self.fault, self.at, self.identity = fault, at, identity

    @property
    def told(self) -> Json:
        """What the reply says of it."""
        return {"kind": self.fault.kind.word, "at": self.at, "text": self.fault.line}


@dataclass
class Known:
    """The names that a line may have: those of the document in force, and those of the document of a reopening under
    way. As long as there is no such document any name may be one."""

    names: Names
    next_names: Names
    reader: Reader = field(init=False)
    tables: dict[str, list[Row]] = field(init=False)

    def __post_init__(self) -> None:
        self.reader = Reader(self.names)
        self.tables = {do: [maybe("id", identity), *table] for do, table in tables(self.names).items()}


# Tests of values.

def label(value: Any, place: str, member: str) -> Iterator[Fault]:
    """Tests for a name of up to 64 bytes, as plans and restarts have."""
    if not isinstance(value, str) or not LABEL.fullmatch(value):
        what = "a name of 1 to 64 letters, digits, '-', '.' and '_' belongs here"
        yield shape(member, place, f"{what}, not {kind_of(value)}")


def random_bits(value: Any, place: str, member: str) -> Iterator[Fault]:
    """Tests for 64 random bits as hexadecimal digits."""
    if not isinstance(value, str) or not HEX.fullmatch(value):
        yield shape(member, place, f"1 to 16 of the digits 0-9 and a-f, not all 0, belong here, not {kind_of(value)}")


def identity(value: Any, place: str, member: str) -> Iterator[Fault]:
    """Tests for an identity: a whole number, or a name of up to 64 bytes."""
    yield from (label if isinstance(value, str) else up_to(MOST_EXACT))(value, place, member)


def reason(value: Any, place: str, member: str) -> Iterator[Fault]:
    """Tests for a text that is not too long."""
    if not isinstance(value, str):
        yield shape(member, place, f"a text belongs here, not {kind_of(value)}")
    elif len(value.encode()) > MOST_WHY:
        yield Fault(FaultKind.TOO_MANY, member, place, f"the text has more than {MOST_WHY} bytes")


def epoch_of_fences(value: Any, place: str, member: str) -> Iterator[Fault]:
    """Tests for an epoch above 0: a fence of number 0 is taken by nobody."""
    yield from up_to(LAST_EPOCH)(value, place, member)
    if value == 0 and isinstance(value, int) and not isinstance(value, bool):
        yield Fault(FaultKind.NUMBER, member, place, "the first epoch of a reopening is 1")


def or_null(test: reading.Test) -> reading.Test:
    """Tests for null, or what another test asks for."""

    def either(value: Any, place: str, member: str) -> Iterator[Fault]:
        if value is not None:
            yield from test(value, place, member)

    return either


def names_of(most: int) -> reading.Test:
    """Returns a test for a list of names, known or not."""
    def names(value: Any, place: str, member: str) -> Iterator[Fault]:
        yield from list_of(most)(value, place, member)
        for at, entry in enumerate(value if isinstance(value, list) else []):
            yield from name(entry, f"{place}[{at}]", member)
    return names


# Objects.

EXACT, SMALL = up_to(MOST_EXACT), up_to(MOST_NUMBER)
SLOT = [
    one("shard", name), one("cell", word(*CELLS)), maybe("party", or_null(name)), maybe("handover", EXACT),
    maybe("last", EXACT), maybe("load", up_to(MOST_LOAD)), maybe("cut", or_null(EXACT)), maybe("position", EXACT),
    maybe("view", EXACT), maybe("reached", flag),
]
# What a slot has to tell beside its shard, by its cell; with what a fence asks, and without.
HANDED = ("party", "handover")
NEEDED = {"prepared": HANDED, "forwarding": HANDED}
ASKED = {
    "prepared": (*HANDED, "position", "reached"), "forwarding": (*HANDED, "position"), "secondary": ("position",),
    "primary": ("position",),
}


def by_name(faults: Iterable[Fault], place: str) -> Iterator[Fault]:
    """Yields the faults of an object itself. Of a member that it does not know the name is told."""
    for fault in faults:
        name = fault.place.removeprefix(f"{place}.")
        is_unknown = fault.what.startswith("no member is named")
        yield replace(fault, member=f"{fault.member} has no member {name}") if is_unknown else fault


def with_words(faults: Iterable[Fault], words: Iterable[str]) -> Iterator[Fault]:
    """Yields faults. Of one in the command's word the words that there are are told."""
    choices = " ".join(["do has to be one of", *words])
    for fault in faults:
        yield replace(fault, member=choices) if fault.member == "do" else fault


def slot_faults(value: Json, place: str, needed: dict[str, tuple[str, ...]]) -> Iterator[Fault]:
    """Yields the faults of the slots of a server."""
    for entry, inner in entries(value, "slots", place):
        cell = str(entry.get("cell")) if isinstance(entry, dict) else ""
        rows = [Row(it.member, it.test, it.optional and it.member not in needed.get(cell, ())) for it in SLOT]
        if cell in NEEDED:
            rows[2] = one("party", name)
        yield from by_name(own_faults("slots", rows, entry, inner), inner)


def view_faults(value: Json) -> Iterator[Fault]:
    """Yields the faults of views at a fence: a copy did not begin by a later reopening."""
    for entry, inner in entries(value, "slots", "$"):
        if entry.get("view", 0) >= value["base"]:
            words = f"{entry['view']} is not below {value['base']}, the reopening's base"
            yield from by_name([Fault(FaultKind.NUMBER, "view", f"{inner}.view", words)], inner)


def chosen_faults(value: Json, place: str, known: Names) -> Iterator[Fault]:
    """Yields the faults of the cells that are to be settled."""
    rows = [one("shard", known.shard), one("cells", keyed("server"))]
    cell_rows = [one("server", known.server), one("state", word("primary", "secondary"))]
    for entry, inner in entries(value, "cells", place):
        yield from by_name(own_faults("cells", rows, entry, inner), inner)
        for cell, at in entries(entry, "cells", inner):
            yield from by_name(own_faults("cells", cell_rows, cell, at), at)


def inventory_faults(value: Json) -> Iterator[Fault]:
    """Yields what is wrong with the members of a server's answer to a fence beside each other."""
    is_map = "server" in value and value["server"] is None
    has = [it for it in ("slots", "unknown") if it in value]
    if is_map and has:
        yield shape(has[0], f"$.{has[0]}", "the map's owner has no slots to tell")
    elif not is_map and not has:
        yield shape("slots", "$", "the member 'slots' is missing")
    elif len(has) == 2:
        yield shape("unknown", "$.unknown", "'unknown' stands beside 'slots'")


def state_faults(value: Json, known: Known) -> Iterator[Fault]:
    """Yields what is wrong with a question for the state that names a shard and a plan."""
    if "shard" in value and "plan" in value:
        either = [*known.names.shard(value["shard"], "$.shard", "shard"), *SMALL(value["plan"], "$.plan", "plan")]
        if not either:
            yield shape("plan", "$.plan", "'plan' stands beside 'shard'")


def tables(names: Names) -> dict[str, list[Row]]:
    """Returns the members of each command."""
    party, server, base = one("server", or_null(name)), one("server", names.server), one("base", EXACT)
    stream = [one("plan", SMALL), one("stream", SMALL), one("number", EXACT)]
    slots = keyed("shard")
    return {
        "open": [one("document", object_here), one("journal", random_bits), one("epoch", up_to(LAST_EPOCH))],
        "begin": [one("plan", object_here), one("name", label)],
        "answered": stream,
        "approve": [server, one("by", label)],
        "restarted": [one("permit", EXACT), one("base", or_null(EXACT))],
        "restore": [server, one("nonce", random_bits)],
        "new_epoch": [],
        "copied": [one("journal", random_bits), one("fence", EXACT), one("shard", names.shard), one("copies", SMALL)],
        "reopen": [
            one("document", object_here), maybe("lost", names_of(MOST_SERVERS)), maybe("why", reason),
            maybe("journal", random_bits), maybe("epoch", epoch_of_fences),
        ],
        "fenced": [party, base, maybe("slots", slots), maybe("unknown", random_bits)],
        "confirm": [base, maybe("cells", keyed("shard")), maybe("lost", names_of(MOST_SHARDS))],
        "settled": [party, base],
        "hello": [],
        "orders": [],
        "map": [],
        "document": [],
        "state": [maybe("shard", names.shard), maybe("plan", SMALL)],
        "moves": [one("moves", list_of(MOST_MOVES))],
        "drain": [server],
        "check": [one("plan", object_here)],
        "since": [one("place", EXACT)],
        "audit": [server, one("place", EXACT), one("slots", slots)],
        "failed": [*stream, one("answer", word(*ANSWERS))],
    }


def document_faults(document: Json) -> Iterator[Fault]:
    """Yields the faults of a document in a command. The place of one is that of a member somewhere below."""
    return below("document", reading.document_faults(document))


def below(owner: str, faults: Iterable[Fault]) -> Iterator[Fault]:
    """Yields the faults in a document or a plan. The program tells the member, and no path to it."""
    for fault in faults:
        at = "" if fault.member == owner else f"..{fault.member}"
        yield Fault(fault.kind, fault.member, f"$.{owner}{at}", f"in {owner}: {fault.what}")


def inner_faults(value: Json, known: Known) -> Iterator[Fault]:
    """Yields the faults of the objects in a command, whose own members are as they should be."""
    match value["do"]:
        case "open" | "reopen":
            yield from document_faults(value["document"])
        case "begin" | "check":
            yield from below("plan", known.reader.plan("plan", value["plan"], "$.plan"))
        case "moves":
            for entry, inner in entries(value, "moves", "$"):
                yield from by_name(own_faults("moves", known.reader.moves, entry, inner), inner)
        case "fenced":
            yield from slot_faults(value, "$", ASKED)
        case "audit":
            yield from slot_faults(value, "$", NEEDED)
        case "confirm":
            yield from chosen_faults(value, "$", known.next_names)


def line_faults(value: Any, known: Known) -> Iterator[Fault]:
    """Yields the faults of a command's own members."""
    if not isinstance(value, dict):
        yield shape("command", "$", f"an object belongs here, not {kind_of(value)}")
        return
    yield from with_words(by_name(reading.worded_faults("command", "do", known.tables, value, "$"), "$"), known.tables)
    if value.get("do") == "fenced":
        yield from inventory_faults(value)
    if value.get("do") == "state":
        yield from state_faults(value, known)


def identity_of(value: Any) -> Any:
    """Returns the identity of a line, or None if it has none that is right."""
    found = value.get("id") if isinstance(value, dict) else None
    return None if found is None or any(identity(found, "$.id", "id")) else found


def refuse_bad(faults: Iterable[Fault], identity: Any) -> None:
    """Raises `BadLine` for the fault that counts, if there is one."""
    fault = answered(faults)
    if fault:
        raise BadLine(fault, fault.place, identity)


def bare(line: bytes) -> bytes:
    """Returns a line without the blanks around it. One that is too long stays so."""
    return line.strip(BLANKS) if len(line) <= MOST_BYTES else line


def read(line: bytes, known: Known) -> Json:
    """Returns the command of a line, whose inner objects were not looked at. Raises `BadLine` if it is none."""
    text = reading.read_text(bare(line))
    if text.fault:
        kind = FaultKind.TOO_LONG if len(line) > MOST_BYTES else FaultKind.NOT_JSON
        raise BadLine(Fault(kind, None, "$", "the line is no JSON object"), "$", None)
    refuse_bad(line_faults(text.value, known), identity_of(text.value))
    return text.value


def read_inside(command: Json, known: Known) -> None:
    """Looks at the objects inside a command. Raises `BadLine` if one has a fault."""
    refuse_bad(inner_faults(command, known), command.get("id"))
    if command["do"] == "fenced":
        refuse_bad(view_faults(command), command.get("id"))
