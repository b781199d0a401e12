"""Documents with one fault each: each member of each object of tests/documents/every-member.json, with each fault that it can have, and the answer.

What objects there are, which members they have and which of these may be missing stands in docs/FORMATS.md, whose list is read here.
"""
import copy
import functools
import json
import operator
import re
import sys

from report_cases import ROOT

FORMATS = (ROOT / "docs/FORMATS.md").read_text()
WHOLE = json.loads((ROOT / "tests/documents/every-member.json").read_text())
# What a member is: a number up to its limit, a text of one kind, a list of objects of one kind, or one object.
NUMBERS = {
    "limit": 1024, "log": 1048576, "room": 4294967295, "load": 4294967295, "want": 1024, "cap": 1024, "spread": 1024, "number": 4294967295,
    "format": 2, "budget": 262144, "retries": 262144, "amount": 4294967295, "plan": 4294967295, "stream": 4294967295, "ticket": 4294967295,
    "more": 262144,
}
TEXTS = {
    "own name": ["name", "region"],
    "shard's name": ["shard"],
    "server's name": ["server", "other", "drain", "from", "to", "listed"],
    "word": ["state", "call", "role", "lead", "do", "event", "when"],
}
LISTS = {
    "servers": "server", "shards": "shard", "calls": "call", "plans": "plan", "events": "event", "moves": "move", "signals": "parcel",
    "streams": "stream", "code": "instruction", "crowns": "crown", "spare": "spare",
}
# The members that are of another kind in some objects.
OTHERWISE = {
    ("document", "plan"): "plan", ("stream", "holds"): "parcel", ("server", "down"): "flag", ("document", "asks"): "shards' names",
    ("shard", "cells"): ["cell"], ("parcel", "cells"): ["right to a cell"], ("parcel", "room"): ["room"],
    ("change", "from"): "word", ("change", "to"): "word", ("signal", "signal"): "signal", ("wait", "signal"): "signal",
}
# The member that says which others an object has.
FIRST = {"call": "call", "crown": "lead", "instruction": "do", "event": "event"}
# The lists that can be too long without another fault, and whose documents are small (tests/program/test_faults.py makes the large ones).
TOO_LONG = {"asks": 16, "plans": 16, "signals": 256, "streams": 64}
OTHER_VALUES = {"number": 0, "text": "a", "list": [], "object": {}, "flag": True, "null": None}


def rows():
    """The objects of the list of members, each by its word where it has one, and their members, with whether each may be missing."""
    kind, keys, found = None, [], {}
    for indent, names in re.findall(r"^( *)- ([^:\n]+)", FORMATS[FORMATS.index("\n- document\n"):].split("\n\n")[0], re.MULTILINE):
        words = re.findall(r"`(\w+)`(\?)?", names)
        if not indent:
            kind = kind if words else names
            keys = [(kind, word) for word, _ in words] or [(kind, None)]
            continue
        for key in keys:
            found.setdefault(key, {}).update((member, bool(mark)) for member, mark in words)
    return found


ROWS = rows()


def members_of(kind, value):
    """The members that an object may have, each with whether it may be missing."""
    word = value[FIRST[kind]] if kind in FIRST else None
    return ROWS.get((kind, None), {}) | ROWS.get((kind, word), {})


def kind_of(kind, value, member):
    """What a member of an object is."""
    word = value[FIRST[kind]] if kind in FIRST else None
    for name in (word, kind):
        if (name, member) in OTHERWISE:
            return OTHERWISE[name, member]
    if member in NUMBERS:
        return NUMBERS[member]
    if member in LISTS:
        return [LISTS[member]]
    return next(text for text, members in TEXTS.items() if member in members)


def objects(value, kind, path=()):
    """The objects in an object: the path of each, its kind and its value."""
    yield path, kind, value
    for member, inner in value.items():
        what = kind_of(kind, value, member)
        if isinstance(what, list):
            for place, entry in enumerate(inner):
                yield from objects(entry, what[0], (*path, member, place))
        elif isinstance(inner, dict):
            yield from objects(inner, what, (*path, member))


def json_type(what, member):
    """The types of JSON that a member may have."""
    if isinstance(what, int) or what == "signal":
        return {"number"}
    if isinstance(what, list) or what == "shards' names":
        return {"list"}
    if what == "flag":
        return {"flag"}
    return {"object"} if what in ("plan", "parcel") else {"text", "null"} if member == "listed" else {"text"}


def wrong_values(kind, value, member):
    """The values of a member that are faults by themselves: what is wrong, the value, and the answer."""
    what = kind_of(kind, value, member)
    for name, other in OTHER_VALUES.items():
        if name not in json_type(what, member):
            yield f"is a {name}", other, f"3 Shape {member}"
    if isinstance(what, int):
        for number in (-1, 0.5, what + 1, 18446744073709551616):
            yield f"is {number}", number, f"6 Number {member}"
    if what == "signal":
        yield "is -1", -1, "6 Number signal"
        yield "is 1, of one signal", 1, "4 UnknownName signal"
    if what == "own name":
        for text in ("", "a b", "a" * 33, "\u00e4"):
            yield f"is {text!r}", text, f"3 Shape {member}"
    if what in ("shard's name", "server's name"):
        for text in ("q", "", "a b"):
            yield f"is {text!r}", text, f"4 UnknownName {member}"
    if what == "word":
        for text in ("", "other", f"{value[member]} "):
            yield f"is {text!r}", text, f"3 Shape {member}"
    if isinstance(what, list):
        for name, other in OTHER_VALUES.items():
            if name != "object":
                yield f"has an entry that is a {name}", [*value[member], other], f"3 Shape {member}"
    if what == "shards' names":
        for name, other in OTHER_VALUES.items():
            if name != "text":
                yield f"has an entry that is a {name}", [*value[member], other], f"3 Shape {member}"
        yield "has an unknown name", [*value[member], "q"], f"4 UnknownName {member}"
    if member in TOO_LONG and value[member]:
        yield "is too long", [value[member][0]] * (TOO_LONG[member] + 1), f"5 TooMany {member}"


def more_faults(kind, value, path):
    """The faults of an object's members beside each other: what is wrong, the object, and the answer."""
    outer = next((it for it in reversed(path) if isinstance(it, str)), "document")
    yield "has an unknown member", value | {"unknown": 0}, f"3 Shape {outer}"
    for member, may_miss in members_of(kind, value).items():
        if not may_miss:
            yield f"has no {member}", {name: it for name, it in value.items() if name != member}, f"3 Shape {member}"
    if kind == "shard":
        yield "has a cap above its want", value | {"cap": value["want"] + 1}, "6 Number cap"
    if kind == "parcel":
        for member, entries in value.items():
            yield f"has a key of {member} twice", value | {member: [*entries, entries[-1]]}, f"3 Shape {member}"
    if kind == "plan" and any("retries" in it for it in value["streams"]):
        yield "has a stream with retries, and format 1", value | {"format": 1}, "3 Shape streams"


def with_value(path, value):
    """The whole document with another value at a path."""
    if not path:
        return value
    document = copy.deepcopy(WHOLE)
    functools.reduce(operator.getitem, path[:-1], document)[path[-1]] = value
    return document


def of_each_member():
    """Each document with its answer: where its fault is, its text, and its answer."""
    seen = {}
    for path, kind, value in objects(WHOLE, "document"):
        place = ".".join(map(str, path)) or "the document"
        word = value[FIRST[kind]] if kind in FIRST else None
        for member in value:
            row = (kind, None) if member in ROWS.get((kind, None), {}) else (kind, word)
            seen.setdefault(row, set()).add(member)
            for what, other, answer in wrong_values(kind, value, member):
                yield f"{place}: {member} {what}", json.dumps(with_value((*path, member), other)).encode(), answer
        for what, other, answer in more_faults(kind, value, path):
            yield f"{place} {what}", json.dumps(with_value(path, other)).encode(), answer
    names = [it["name"] for it in WHOLE["servers"]]
    for list_of, named in (("servers", names), ("shards", [it["name"] for it in WHOLE["shards"]])):
        twice = copy.deepcopy(WHOLE)
        twice[list_of][-1]["name"] = named[0]
        yield f"{list_of}: a name stands twice", json.dumps(twice).encode(), "3 Shape name"
    lacking = {key: set(members) - seen.get(key, set()) for key, members in ROWS.items()}
    if any(lacking.values()):
        sys.exit(f"every-member.json lacks {({key: it for key, it in lacking.items() if it})}")
