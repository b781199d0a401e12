"""The numbers that `resize` changes: of a file, JSON or CSV, and of the command line."""
from __future__ import annotations

import csv
import io
from decimal import ROUND_CEILING, ROUND_FLOOR, Decimal
from typing import Any, Dict, Iterable, Iterator, List, NamedTuple, Tuple

from .control_document import Line, Place, rows_of
from .failure import Failure
from .files import name_of, read_bytes, value_of
from .limits import MOST_LOAD, MOST_NUMBER, MOST_PLACES, MOST_REPLICAS, MOST_SERVERS
from .reading import did_you_mean, number_text

# What each word of the command line changes; a file of JSON has the same words with an `s`.
PLACES = {"load": "shards", "room": "servers", "want": "shards", "cap": "shards", "spread": "shards"}
SINGLE = ("limit", "log")
MOST = {"load": MOST_LOAD, "room": MOST_NUMBER, "want": MOST_REPLICAS, "cap": MOST_REPLICAS, "spread": MOST_REPLICAS, "limit": MOST_SERVERS, "log": MOST_PLACES}

# The noun of a table.
ONE = {"shards": "shard", "servers": "server"}

# What is measured, and so may be no whole number, and in another unit: a load is rounded up, a room down.
MEASURED = {"load": ROUND_CEILING, "room": ROUND_FLOOR}


class Told(NamedTuple):
    """A number that somebody has told, and where."""

    table: str
    name: str
    member: str
    text: str
    where: str


# ---- a file

def told_by_json(value: Any, path: str) -> Iterator[Told]:
    """The numbers of `{"loads":{"s":5},"rooms":{"a":20},"limit":2}`."""
    words = {f"{it}s": it for it in PLACES}
    for word, numbers in value.items():
        where = f"{name_of(path)}: $.{word}"
        if word in SINGLE:
            yield Told("", "", word, number_text(numbers), where)
        elif word not in words:
            raise Failure(f"{where}: there are {', '.join([*words, *SINGLE])}{did_you_mean(word, [*words, *SINGLE])}")
        elif not isinstance(numbers, dict):
            raise Failure(f"{where}: names with their numbers belong here, as {{\"{'a' if word == 'rooms' else 's'}\":5}}")
        else:
            member = words[word]
            yield from (Told(PLACES[member], name, member, number_text(it), f"{where}.{name}") for name, it in numbers.items())


def told_by_csv(text: str, path: str, document: Line) -> Iterator[Told]:
    """The numbers of lines `s,5`; or behind a line `shard,load,want` or `server,room`, whose columns may be more, and of other names."""
    head: List[str] = []
    reader = csv.reader(io.StringIO(text))
    for row in reader:
        fields, where = [it.strip() for it in row], f"{name_of(path)}, line {reader.line_num}"
        if not any(fields) or fields[0].startswith("#"):
            continue
        if not head and {"shard", "server"} & {it.lower() for it in fields}:
            head = columns_of([it.lower() for it in fields], where)
            continue
        yield from (of_columns(head, fields, where) if head else [of_pair(fields, where, document)])


def columns_of(fields: List[str], where: str) -> List[str]:
    """The columns that a first line names. One of the name `value` is what is measured."""
    table = "shards" if "shard" in fields else "servers"
    members = [it for it, its in PLACES.items() if its == table]
    columns = [members[0] if it == "value" else it for it in fields]
    if not set(members) & set(columns):
        raise Failure(f"{where}: beside '{ONE[table]}' a column belongs that is named {', '.join(members)} or value")
    return [it if it in members or it == ONE[table] else "" for it in columns]


def of_columns(columns: List[str], fields: List[str], where: str) -> Iterator[Told]:
    """The numbers of a line, behind one that names columns."""
    if len(fields) != len(columns):
        raise Failure(f"{where}: {len(columns)} fields belong here, as in the first line, and there are {len(fields)}")
    at = next(it for it, column in enumerate(columns) if column in ONE.values())
    table = f"{columns[at]}s"
    yield from (Told(table, fields[at], it, text, where) for it, text in zip(columns, fields) if it in PLACES and text)


def of_pair(fields: List[str], where: str, document: Line) -> Told:
    """The number of a line `s,5` or `a,20`: a shard's load, or a server's room."""
    if len(fields) != 2:
        raise Failure(f"{where}: a name and its number belong here, as s,5; or above a line that names columns, as shard,load")
    found = [it for it in ("shards", "servers") if fields[0] in rows_of(document, it)]
    if len(found) > 1:
        raise Failure(f"{where}: '{fields[0]}' is a shard and a server: put a line above, shard,load or server,room")
    table = found[0] if found else "shards"
    return Told(table, fields[0], "load" if table == "shards" else "room", fields[1], where)


def told_by_file(path: str, document: Line) -> List[Told]:
    """The numbers of a file."""
    data = read_bytes(path)
    try:
        is_json = data.lstrip()[:1] == b"{"
        found = list(told_by_json(value_of(data, path), path) if is_json else told_by_csv(data.decode("utf-8-sig"), path, document))
    except (UnicodeDecodeError, csv.Error) as why:
        raise Failure(f"{name_of(path)}: neither JSON nor CSV: {why}") from None
    if not found:
        raise Failure(f"{name_of(path)} has no numbers")
    return found


# ---- the command line

def told_by_words(member: str, words: Iterable[str]) -> Iterator[Told]:
    """The numbers of words such as `s=5`."""
    for word in words:
        name, equals, number = word.rpartition("=")
        if not equals or not name:
            raise Failure(f"--{member} {word}: of which {ONE[PLACES[member]]}? Say --{member} NAME=N, as --{member} {'a' if member == 'room' else 's'}=5")
        yield Told(PLACES[member], name, member, number, f"--{member} {word}")


# ---- both

def number_of(told: Told, unit: Decimal) -> int:
    """The whole number that was told."""
    is_measured = told.member in MEASURED
    try:
        number = Decimal(told.text)
        if is_measured and number.is_finite():
            number = (number / unit).to_integral_value(MEASURED[told.member])
    except ArithmeticError:  # (it is none, or far too large)
        number = Decimal("NaN")
    if not number.is_finite() or number < 0 or number != number.to_integral_value():
        raise Failure(f"{told.where}: '{told.text}' is no {'' if is_measured else 'whole '}number of at least 0")
    if number > MOST[told.member]:
        more = ": a --unit, as 1048576 for MB, makes it smaller" if is_measured else ""
        raise Failure(f"{told.where}: {number} is above {MOST[told.member]}, the most there may be{more}")
    return int(number)


def numbers_of(told: Iterable[Told], document: Line, unit: Decimal) -> Dict[Place, int]:
    """What was told as numbers of a document. Fails for a name that it has not, and for one that stands twice with two numbers."""
    found: Dict[Place, Tuple[int, str]] = {}
    for it in told:
        table, number = it.table or None, number_of(it, unit)
        rows = rows_of(document, table)
        if it.name not in rows:
            noun = ONE[it.table]
            raise Failure(f"{it.where}: no {noun} is named '{it.name}'{did_you_mean(it.name, rows)}")
        before = found.setdefault((table, it.name, it.member), (number, it.where))
        if before[0] != number:
            raise Failure(f"{it.where}: the {it.member} of {it.name} is {before[0]} already, at {before[1]}: tell it once")
    return {place: number for place, (number, _) in found.items()}
