"""Documents that are each broken in one place: the program refuses them, and the tools name the place; and members that `calls` does not use change
nothing in what it prints. The schema of documents (docs/document.schema.json) takes the examples and refuses the broken ones, if Python has jsonschema
(Debian's python3-jsonschema)."""
import copy
import json
import subprocess
import unittest

from programs import ROOT, CasesTest, printed_by
from smplan.faults import answered
from smplan.reading import document_faults

try:
    from jsonschema import Draft202012Validator
except ModuleNotFoundError:
    Draft202012Validator = None
whole = json.loads((ROOT / "tests/documents/every-member.json").read_text())


def setUpModule():
    if not Draft202012Validator:
        subprocess.run([ROOT / "scripts/lib/leave-out", "the schema of documents", "no Python here has jsonschema: apt-get install python3-jsonschema"], check=True)


def validator():
    """What says whether the schema takes a document."""
    schema = json.loads((ROOT / "docs/document.schema.json").read_text())
    Draft202012Validator.check_schema(schema)
    return Draft202012Validator(schema)


def answer(document):
    """What the program prints of a document, and its status."""
    return printed_by("calls", json.dumps(document).encode())


def at(document, path):
    for key in path:
        document = document[key]
    return document


def objects(value, path=()):
    """The paths of all objects in a value."""
    if isinstance(value, dict):
        yield path
        for key, inner in value.items():
            yield from objects(inner, path + (key,))
    elif isinstance(value, list):
        for index, inner in enumerate(value):
            yield from objects(inner, path + (index,))


def members(value):
    """The paths of all members of all objects in a value."""
    for path in objects(value):
        for key in at(value, path):
            yield path + (key,)


def with_value(path, value):
    document = copy.deepcopy(whole)
    at(document, path[:-1])[path[-1]] = value
    return document


def broken():
    """Documents that are each wrong in one place: what is wrong, and where."""
    for path in objects(whole):
        yield "unknown member", path, with_value(path + ("unknown",), 0)
    for path in members(whole):
        yield "no list, number or text", path, with_value(path, {"what": [None]})
        value = at(whole, path)
        if isinstance(value, int) and not isinstance(value, bool):
            yield "negative number", path, with_value(path, -1)
            yield "fraction", path, with_value(path, 0.5)
            yield "too large a number", path, with_value(path, 4294967296)
        if isinstance(value, list):
            yield "a null in the list", path + (len(value),), with_value(path, value + [None])
    for path, limit in LIMITS:
        yield "number above its limit", path, with_value(path, limit + 1)
    for path, limit in LISTS:
        entry = at(whole, path)[0]
        yield "too long a list", path, with_value(path, [entry] * (limit + 1))
    for path in WORDS:
        yield "a word that is not listed", path, with_value(path, "Absent ")
    for path, members_of in REQUIRED:
        for member in members_of:
            document = copy.deepcopy(whole)
            del at(document, path)[member]
            yield f"no {member}", path, document


def json_path(path):
    return "$" + "".join(f"[{key}]" if isinstance(key, int) else f".{key}" for key in path)


OTHER_MEMBERS = ["log", "plan", "plans", "events", "moves", "drain", "asks"]
STREAM = ("plan", "streams", 0)
LIMITS = [
    (("limit",), 1024), (("log",), 1048576), (("shards", 0, "want"), 1024), (("shards", 0, "spread"), 1024),
    (("plan", "budget"), 262144), (("plan", "format"), 2), (STREAM + ("budget",), 262144), (STREAM + ("retries",), 262144),
    (("events", 8, "more"), 262144),
]
LISTS = [
    (("servers",), 1024), (("shards",), 4096), (("moves",), 4096), (("asks",), 16), (("plans",), 16),
    (("plan", "signals"), 256), (("plan", "streams"), 64), (STREAM + ("code",), 4096),
]
WORDS = [
    ("servers", 0, "name"), ("servers", 0, "region"), ("shards", 0, "cells", 0, "state"), ("calls", 0, "call"), ("calls", 0, "role"),
    ("events", 0, "event"), ("events", 6, "when"), STREAM + ("code", 0, "do"), STREAM + ("code", 6, "to"),
    STREAM + ("holds", "cells", 0, "state"), STREAM + ("holds", "crowns", 0, "lead"),
]
REQUIRED = [
    ((), ["limit", "servers", "shards"]), (("servers", 0), ["name", "region", "room"]),
    (("shards", 0), ["name", "load", "want", "cap", "spread", "cells"]), (("shards", 0, "cells", 0), ["server", "state"]),
    (("calls", 0), ["call", "shard", "server", "role"]), (("plan",), ["budget", "streams"]), (STREAM, ["budget", "holds", "code"]),
    (STREAM + ("code", 0), ["do", "shard", "server", "other"]), (STREAM + ("holds", "cells", 0), ["shard", "server", "state"]),
    (STREAM + ("holds", "crowns", 0), ["shard", "lead", "server"]), (STREAM + ("holds", "crowns", 1), ["from", "to"]),
    (STREAM + ("holds", "room", 0), ["server", "amount"]), (STREAM + ("holds", "spare", 0), ["shard", "amount"]),
    (("events", 0), ["event", "stream"]), (("events", 2), ["shard", "server"]), (("events", 3), ["ticket"]),
    (("events", 6), ["stream", "when"]), (("events", 8), ["stream", "more"]), (("events", 9), ["plan"]),
    (("moves", 0), ["shard", "from", "to"]),
]


def cases():
    """The broken documents: what is wrong with each, the path to it, and the document."""
    return [(f"{what} at {json_path(path)}", path, document) for what, path, document in broken()]


def told_by_program(case):
    """What the program says of a broken document, if it takes it."""
    printed, status = answer(case[2])
    return None if printed.startswith("bad input: ") and status == 2 else f"the program prints {printed!r}, status {status}"


def told_by_tools(case):
    """Where the tools find faults, if it is not where a document is broken."""
    where, path, document = case
    faults, wanted = document_faults(document), json_path(path)
    # (a list that is too long has entries twice, whose fault has a lower number)
    found = [it.place for it in faults] if where.startswith("too long a list") else [answered(faults).place] if faults else []
    is_found = any(it == wanted or it in (f"{wanted}.unknown", f"{wanted}.what") for it in found)
    return None if is_found else f"the tools find it at {found[:3]}"


class DocumentsTest(CasesTest):
    """Broken documents, and members that do not count."""

    def test_the_program_refuses_what_is_broken(self):
        self.compare(told_by_program, cases())

    def test_the_tools_name_the_place(self):
        self.compare(told_by_tools, cases())

    @unittest.skipUnless(Draft202012Validator, "no Python here has jsonschema")
    def test_the_schema_refuses_what_is_broken(self):
        takes = validator().is_valid
        self.compare(lambda case: "the schema takes it" if takes(case[2]) else None, cases(), workers=1)

    @unittest.skipUnless(Draft202012Validator, "no Python here has jsonschema")
    def test_the_schema_takes_the_examples(self):
        takes = validator().is_valid
        files = [*sorted((ROOT / "examples").glob("*.json")), ROOT / "tests/documents/every-member.json"]
        self.compare(lambda case: None if takes(json.loads(case[1])) else "the schema refuses it", [(it.name, it.read_text()) for it in files], workers=1)

    def test_members_that_calls_does_not_use(self):
        plain = {member: whole[member] for member in ("limit", "servers", "shards", "calls")}
        wanted = answer(plain)
        self.assertTrue(wanted[0].startswith("call 0: refused 2 AlreadyHeld\n"), wanted)
        self.assertEqual(wanted[1], 0)
        for others in [[member] for member in OTHER_MEMBERS] + [OTHER_MEMBERS]:
            with self.subTest(others):
                self.assertEqual(answer({**plain, **{member: whole[member] for member in others}}), wanted)
