"""Reads a document and finds all its faults, in the order in which the program's reader meets them (docs/FORMATS.md, "Faults").

Each object has a table: its members in their order, and what each is to be. An object's own faults come before those of the objects in it.
"""
import difflib
import re
from dataclasses import dataclass, field
from typing import Any, Callable, Dict, Iterable, Iterator, List, Optional, Sequence, Tuple

from . import json_text
from .faults import Fault, FaultKind
from .json_text import BadText, NotWhole
from .limits import (
    MOST_AMOUNT, MOST_ASKS, MOST_CALLS, MOST_CELLS, MOST_EVENTS, MOST_INSTRUCTIONS, MOST_LOAD, MOST_MOVES, MOST_NUMBER, MOST_PLACES,
    MOST_PLANS, MOST_REPLICAS, MOST_RIGHTS, MOST_SERVERS, MOST_SHARDS, MOST_SIGNALS, MOST_STREAMS, NAME_BYTES,
)

NAME = re.compile(r"[A-Za-z0-9._-]{1,32}")
ROLES = ("primary", "secondary")

# For how many unknown names the closest one is looked for, which takes long.
MOST_SUGGESTIONS = 50

Test = Callable[[Any, str, str], Iterator[Fault]]


@dataclass(frozen=True)
class Row:
    """One member of an object's table: its name, the test of its value, and whether it may be missing."""

    member: str
    test: Test
    optional: bool = False


def one(member: str, test: Test) -> Row:
    """Returns the row of a member that may not be missing."""
    return Row(member, test)


def maybe(member: str, test: Test) -> Row:
    """Returns the row of a member that may be missing."""
    return Row(member, test, optional=True)


def kind_of(value: Any) -> str:
    """Returns what a JSON value is, in words."""
    if value is None:
        return "null"
    if isinstance(value, bool):
        return "true" if value else "false"
    if is_number(value):
        return f"the number {number_text(value)}"
    if isinstance(value, str):
        return f"the text '{shortened(value)}'"
    return "a list" if isinstance(value, list) else "an object"


def shortened(text: str) -> str:
    return text if len(text) <= 60 else text[:57] + ".."


def is_number(value: Any) -> bool:
    return isinstance(value, (int, float)) and not isinstance(value, bool)


def number_text(value: Any) -> str:
    return value.text if isinstance(value, NotWhole) else str(value)


def whole(value: Any) -> Optional[int]:
    """Returns the whole number that a value is, as far as 64 bits go."""
    return value if isinstance(value, int) and not isinstance(value, bool) and 0 <= value < 2**64 else None


def did_you_mean(word: str, words: Iterable[str]) -> str:
    """Returns a question for the word that comes closest, or nothing."""
    known = sorted(words)
    close = difflib.get_close_matches(word, known, 1, 0.6) or [it for it in known if it.lower() == word.lower()]
    return f"; did you mean '{close[0]}'?" if close and word else ""


def listed_words(words: Sequence[str]) -> str:
    quoted = [f"'{it}'" for it in words]
    return quoted[0] if len(quoted) == 1 else f"{', '.join(quoted[:-1])} or {quoted[-1]}"


# ---- tests of values

def shape(member: str, place: str, what: str) -> Fault:
    return Fault(FaultKind.SHAPE, member, place, what)


def up_to(limit: int, hint: str = "") -> Test:
    """Tests for a whole number from 0 to a limit."""

    def test(value: Any, place: str, member: str) -> Iterator[Fault]:
        if not is_number(value):
            yield shape(member, place, f"a whole number belongs here, not {kind_of(value)}")
            return
        number = whole(value)
        if number is None:
            yield Fault(FaultKind.NUMBER, member, place, not_whole(value))
        elif number > limit:
            yield Fault(FaultKind.NUMBER, member, place, f"{number} is above {limit}, the most there may be{hint}")

    return test


def not_whole(value: Any) -> str:
    if isinstance(value, NotWhole):
        return f"{value.text} is not written as a whole number; write 10, not 10.0, 1e1 or -0"
    if isinstance(value, int) and value < 0:
        return f"{value} is below 0"
    return f"{value} is too large"


def flag(value: Any, place: str, member: str) -> Iterator[Fault]:
    if not isinstance(value, bool):
        yield shape(member, place, f"true or false belongs here, not {kind_of(value)}")


def why_no_name(text: str) -> str:
    """Returns why a text is no name."""
    if not text:
        return "a name has at least one character"
    size = len(text.encode())
    if size > NAME_BYTES:
        return f"'{shortened(text)}' has {size} bytes, and a name has {NAME_BYTES} at most"
    return f"'{text}' is no name: a name has letters A-Z and a-z, digits, '-', '.' and '_' alone"


def name(value: Any, place: str, member: str) -> Iterator[Fault]:
    if not isinstance(value, str):
        yield shape(member, place, f"a name belongs here, not {kind_of(value)}")
    elif not NAME.fullmatch(value):
        yield shape(member, place, why_no_name(value))


def new_name(taken: Dict[str, str]) -> Test:
    """Tests for a name that is not taken yet; `taken` has the places of the names before."""

    def test(value: Any, place: str, member: str) -> Iterator[Fault]:
        found = list(name(value, place, member))
        if not found and value in taken:
            found = [shape(member, place, f"the name '{value}' stands at {taken[value]} already")]
        yield from found

    return test


def word(*words: str) -> Test:
    """Tests for one of these words."""

    def test(value: Any, place: str, member: str) -> Iterator[Fault]:
        if not isinstance(value, str):
            yield shape(member, place, f"{listed_words(words)} belongs here, not {kind_of(value)}")
        elif value not in words:
            yield shape(member, place, f"'{shortened(value)}' is none of {listed_words(words)}{did_you_mean(value, words)}")

    return test


def list_of(limit: int) -> Test:
    """Tests for a list of at most `limit` entries."""

    def test(value: Any, place: str, member: str) -> Iterator[Fault]:
        if not isinstance(value, list):
            yield shape(member, place, f"a list belongs here, not {kind_of(value)}")
        elif len(value) > limit:
            yield Fault(FaultKind.TOO_MANY, member, place, f"the list has {len(value)} entries, and {limit} are the most there may be")

    return test


def object_here(value: Any, place: str, member: str) -> Iterator[Fault]:
    if not isinstance(value, dict):
        yield shape(member, place, f"an object belongs here, not {kind_of(value)}")


def plan_format(value: Any, place: str, member: str) -> Iterator[Fault]:
    if not is_number(value):
        yield shape(member, place, f"1 or 2 belongs here, not {kind_of(value)}")
    elif whole(value) not in (1, 2):
        yield Fault(FaultKind.NUMBER, member, place, f"{number_text(value)} is no format of a plan: 1 and 2 are")


def below(count: int) -> Test:
    """Tests for the number of one of `count` signals."""

    def test(value: Any, place: str, member: str) -> Iterator[Fault]:
        number = whole(value)
        if not is_number(value):
            yield shape(member, place, f"the number of a signal belongs here, not {kind_of(value)}")
        elif number is None:
            yield Fault(FaultKind.NUMBER, member, place, not_whole(value))
        elif number >= count:
            known = f"the plan has {count} signal{'' if count == 1 else 's'}, numbered from 0" if count else "the plan has no signals"
            yield Fault(FaultKind.UNKNOWN_NAME, member, place, f"there is no signal {number}: {known}")

    return test


def keyed(*key: str) -> Test:
    """Tests for a list of rights, in which no two have the same key."""

    def test(value: Any, place: str, member: str) -> Iterator[Fault]:
        yield from list_of(MOST_RIGHTS)(value, place, member)
        seen: Dict[Tuple[str, ...], int] = {}
        for index, entry in enumerate(value if isinstance(value, list) else []):
            texts = tuple(entry.get(it) for it in key) if isinstance(entry, dict) else (None,)
            if not all(isinstance(it, str) for it in texts):
                continue
            if texts in seen:
                names = ", ".join(f"{it} '{text}'" for it, text in zip(key, texts))
                yield shape(member, f"{place}[{index}]", f"{names} stands at {place}[{seen[texts]}] already")
            seen.setdefault(texts, index)

    return test


@dataclass
class Names:
    """The names of a document's servers and shards. Of a plan that is read without a document, any name is known."""

    servers: Dict[str, str] = field(default_factory=dict)
    shards: Dict[str, str] = field(default_factory=dict)
    all_known: bool = False
    unknown: int = 0

    def server(self, value: Any, place: str, member: str) -> Iterator[Fault]:
        yield from self._known("server", self.servers, "shard", self.shards, value, place, member)

    def shard(self, value: Any, place: str, member: str) -> Iterator[Fault]:
        yield from self._known("shard", self.shards, "server", self.servers, value, place, member)

    def server_or_null(self, value: Any, place: str, member: str) -> Iterator[Fault]:
        if value is not None:
            yield from self.server(value, place, member)

    def asks(self, value: Any, place: str, member: str) -> Iterator[Fault]:
        yield from list_of(MOST_ASKS)(value, place, member)
        for index, entry in enumerate(value if isinstance(value, list) else []):
            yield from self.shard(entry, f"{place}[{index}]", member)

    def _known(self, kind: str, names: Dict[str, str], other: str, others: Dict[str, str], value: Any, place: str, member: str) -> Iterator[Fault]:
        if not isinstance(value, str):
            yield shape(member, place, f"the name of a {kind} belongs here, not {kind_of(value)}")
        elif value not in names and not self.all_known:
            self.unknown += 1
            hint = f"; '{value}' is a {other}" if value in others else did_you_mean(value, names) if self.unknown <= MOST_SUGGESTIONS else ""
            yield Fault(FaultKind.UNKNOWN_NAME, member, place, f"no {kind} is named '{shortened(value)}'{hint}")


# ---- objects

def own_faults(parent: str, table: Sequence[Row], value: Any, place: str, word_member: Optional[str] = None) -> Iterator[Fault]:
    """Yields the faults of an object itself against its table."""
    if not isinstance(value, dict):
        yield shape(parent, place, f"an object belongs here, not {kind_of(value)}")
        return
    known = ([word_member] if word_member else []) + [it.member for it in table]
    for key in value:
        if key not in known:
            free = [it for it in known if it not in value]
            yield shape(parent, f"{place}.{key}", f"no member is named '{shortened(key)}' here{did_you_mean(key, free)}")
    for row in table:
        if row.member in value:
            yield from row.test(value[row.member], f"{place}.{row.member}", row.member)
        elif not row.optional:
            yield shape(row.member, place, f"the member '{row.member}' is missing")


def worded_faults(parent: str, member: str, tables: Dict[str, List[Row]], value: Any, place: str) -> Iterator[Fault]:
    """Yields the faults of an object whose word says which table it has."""
    found = value.get(member) if isinstance(value, dict) else None
    if isinstance(found, str) and found in tables:
        yield from own_faults(parent, tables[found], value, place, member)
    elif not isinstance(value, dict):
        yield shape(parent, place, f"an object belongs here, not {kind_of(value)}")
    elif member not in value:
        yield shape(member, place, f"the member '{member}' is missing")
    else:
        yield from word(*tables)(found, f"{place}.{member}", member)


def entries(value: Any, member: str, place: str) -> Iterator[Tuple[Any, str]]:
    """Yields the entries of a list in an object, each with its place."""
    found = value.get(member) if isinstance(value, dict) else None
    for index, entry in enumerate(found if isinstance(found, list) else []):
        yield entry, f"{place}.{member}[{index}]"


CHOOSE_A_UNIT = "; choose a larger unit, such as MB"


class Reader:
    """Finds the faults of a document's objects, whose servers and shards have these names."""

    def __init__(self, names: Names) -> None:
        self.names = names
        shard, server = one("shard", names.shard), one("server", names.server)
        other, from_, to = one("other", names.server), one("from", names.server), one("to", names.server)
        number, listed = one("number", up_to(MOST_NUMBER)), maybe("listed", names.server_or_null)
        plan, stream = maybe("plan", up_to(MOST_NUMBER)), one("stream", up_to(MOST_NUMBER))
        self.calls = {
            "add": [shard, server, one("role", word(*ROLES))],
            "drop": [shard, server],
            "change": [shard, server, one("from", word(*ROLES)), one("to", word(*ROLES))],
            "prepare_add": [shard, server, other, number],
            "prepare_drop": [shard, server, other, number],
        }
        self.events = {
            "step": [plan, stream],
            "request": [shard, server],
            "pass_on": [one("ticket", up_to(MOST_NUMBER))],
            "approve": [server],
            "done": [server],
            "lose": [plan, stream, one("when", word("before", "after"))],
            "refill": [plan, stream, one("more", up_to(MOST_CALLS))],
            "begin": [one("plan", up_to(MOST_NUMBER))],
        }
        self.moves = [shard, from_, to]
        self.cell_rights = [shard, server, one("state", word("absent", "secondary"))]
        self.crowns = {
            "gone": [shard, listed],
            "at": [shard, listed, server],
            "ready": [shard, listed, from_, to],
            "handing": [shard, listed, from_, to],
            "handed": [shard, listed, from_, to],
        }
        self.room = [server, one("amount", up_to(MOST_AMOUNT, CHOOSE_A_UNIT))]
        self.spare = [shard, one("amount", up_to(MOST_AMOUNT))]
        self.listed = listed

    def instructions(self, signals: int) -> Dict[str, List[Row]]:
        shard, server, other = one("shard", self.names.shard), one("server", self.names.server), one("other", self.names.server)
        return {
            "prepare_add": [shard, server, other],
            "prepare_drop": [shard, server, other],
            "add": [shard, server, one("role", word(*ROLES))],
            "drop": [shard, server],
            "change": [shard, server, one("to", word(*ROLES))],
            "publish": [shard],
            "unlist": [shard],
            "signal": [one("signal", below(signals))],
            "wait": [one("signal", below(signals))],
        }

    def document(self, value: Any) -> Iterator[Fault]:
        table = [
            one("limit", up_to(MOST_SERVERS)),
            one("servers", list_of(MOST_SERVERS)),
            one("shards", list_of(MOST_SHARDS)),
            maybe("log", up_to(MOST_PLACES)),
            maybe("calls", list_of(MOST_EVENTS)),
            maybe("plan", object_here),
            maybe("plans", list_of(MOST_PLANS)),
            maybe("events", list_of(MOST_EVENTS)),
            maybe("moves", list_of(MOST_MOVES)),
            maybe("drain", self.names.server),
            maybe("asks", self.names.asks),
        ]
        yield from own_faults("document", table, value, "$")
        yield from self.servers(value)
        yield from self.shards(value)
        for entry, place in entries(value, "calls", "$"):
            yield from worded_faults("calls", "call", self.calls, entry, place)
        if isinstance(value, dict) and isinstance(value.get("plan"), dict):
            yield from self.plan("plan", value["plan"], "$.plan")
        for entry, place in entries(value, "plans", "$"):
            yield from self.plan("plans", entry, place)
        for entry, place in entries(value, "events", "$"):
            yield from worded_faults("events", "event", self.events, entry, place)
        for entry, place in entries(value, "moves", "$"):
            yield from own_faults("moves", self.moves, entry, place)

    def servers(self, value: Any) -> Iterator[Fault]:
        taken: Dict[str, str] = {}
        for entry, place in entries(value, "servers", "$"):
            table = [one("name", new_name(taken)), one("region", name), one("room", up_to(MOST_LOAD, CHOOSE_A_UNIT)), maybe("down", flag)]
            yield from own_faults("servers", table, entry, place)
            taken.setdefault(text_in(entry, "name"), place)

    def shards(self, value: Any) -> Iterator[Fault]:
        taken: Dict[str, str] = {}
        cells = 0
        for entry, place in entries(value, "shards", "$"):
            table = [
                one("name", new_name(taken)),
                one("load", up_to(MOST_LOAD, CHOOSE_A_UNIT)),
                one("want", up_to(MOST_REPLICAS)),
                one("cap", self.cap(entry)),
                one("spread", up_to(MOST_REPLICAS)),
                self.listed,
                one("cells", list_of(max(0, MOST_CELLS - cells))),
            ]
            yield from own_faults("shards", table, entry, place)
            for cell, cell_place in entries(entry, "cells", place):
                yield from own_faults("cells", [one("server", self.names.server), one("state", word(*ROLES))], cell, cell_place)
                cells += 1
            taken.setdefault(text_in(entry, "name"), place)

    def cap(self, entry: Any) -> Test:
        want = whole(entry.get("want")) if isinstance(entry, dict) else None
        return up_to(MOST_REPLICAS) if want is None or want > MOST_REPLICAS else up_to(want, f": no more replicas may be away than 'want', {want}")

    def parcel(self, parent: str, value: Any, place: str) -> Iterator[Fault]:
        table = [maybe("cells", keyed("shard", "server")), maybe("crowns", keyed("shard")), maybe("room", keyed("server")), maybe("spare", keyed("shard"))]
        yield from own_faults(parent, table, value, place)
        for entry, inner in entries(value, "cells", place):
            yield from own_faults("cells", self.cell_rights, entry, inner)
        for entry, inner in entries(value, "crowns", place):
            yield from worded_faults("crowns", "lead", self.crowns, entry, inner)
        for entry, inner in entries(value, "room", place):
            yield from own_faults("room", self.room, entry, inner)
        for entry, inner in entries(value, "spare", place):
            yield from own_faults("spare", self.spare, entry, inner)

    def plan(self, parent: str, value: Any, place: str) -> Iterator[Fault]:
        table = [
            maybe("format", plan_format),
            one("budget", up_to(MOST_CALLS)),
            maybe("signals", list_of(MOST_SIGNALS)),
            one("streams", list_of(MOST_STREAMS)),
        ]
        yield from own_faults(parent, table, value, place)
        signals = 0
        for entry, inner in entries(value, "signals", place):
            signals += 1
            yield from self.parcel("signals", entry, inner)
        has_retries = isinstance(value, dict) and "format" in value and whole(value["format"]) != 1
        instructions = self.instructions(signals)
        for entry, inner in entries(value, "streams", place):
            yield from self.stream(entry, inner, has_retries, instructions)

    def stream(self, value: Any, place: str, has_retries: bool, instructions: Dict[str, List[Row]]) -> Iterator[Fault]:
        table = [one("budget", up_to(MOST_CALLS)), one("holds", object_here), one("code", list_of(MOST_INSTRUCTIONS))]
        table += [maybe("retries", up_to(MOST_CALLS))] if has_retries else []
        for fault in own_faults("streams", table, value, place):
            if fault.place == f"{place}.retries" and not has_retries:
                fault = shape("streams", fault.place, "a stream has 'retries' in a plan of \"format\": 2 alone")
            yield fault
        if isinstance(value, dict) and isinstance(value.get("holds"), dict):
            yield from self.parcel("holds", value["holds"], f"{place}.holds")
        for entry, inner in entries(value, "code", place):
            yield from worded_faults("code", "do", instructions, entry, inner)


def text_in(value: Any, member: str) -> str:
    found = value.get(member) if isinstance(value, dict) else None
    return found if isinstance(found, str) else ""


def names_in(value: Any) -> Names:
    """Returns the names of a document's servers and shards."""
    found = Names()
    for entry, place in entries(value, "servers", "$"):
        found.servers.setdefault(text_in(entry, "name"), place)
    for entry, place in entries(value, "shards", "$"):
        found.shards.setdefault(text_in(entry, "name"), place)
    return found


def document_faults(value: Any) -> List[Fault]:
    """Returns the faults of a JSON value that is to be a document."""
    return list(Reader(names_in(value)).document(value))


def plan_faults(value: Any, names: Optional[Names] = None, place: str = "$") -> List[Fault]:
    """Returns the faults of a JSON value that is to be a plan. Without names of servers and shards, any name is known."""
    return list(Reader(names or Names(all_known=True)).plan("document", value, place))


@dataclass(frozen=True)
class Text:
    """What was read: the JSON value, or the fault of a text that has none."""

    value: Any
    fault: Optional[Fault]


def read_text(data: bytes) -> Text:
    """Reads the JSON value of the bytes."""
    try:
        return Text(json_text.read(data), None)
    except BadText as why:
        kind = FaultKind.TOO_LONG if why.is_too_long else FaultKind.NOT_JSON
        return Text(None, Fault(kind, None, why.place, why.what))


# What each command needs of a document.
COMMANDS = ("calls", "check", "play", "plan", "run")


def need_faults(value: Dict[str, Any], command: str) -> List[Fault]:
    """Returns the faults of a document without other faults that has not what the command needs."""
    if command == "play" and "plan" in value and "plans" in value:
        return [shape("plans", "$.plans", "'plans' stands beside 'plan': leave one of them out")]
    if command == "plan":
        if "moves" in value and "drain" in value:
            return [shape("drain", "$.drain", "'drain' stands beside 'moves': leave one of them out")]
        if "moves" not in value and "drain" not in value:
            return [shape("moves", "$", "smplan plan needs the member 'moves' or 'drain'")]
        return []
    member = {"calls": "calls", "check": "plan", "run": "plan", "play": "events"}[command]
    return [] if member in value else [shape(member, "$", f"smplan {command} needs the member '{member}'")]
