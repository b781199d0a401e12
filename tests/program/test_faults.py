"""What the program answers to documents that are each wrong in one place.

They stand in tests/documents/faults, a file for each subject: a case puts a new text in the place of the first old one in its base, a text of
tests/documents/bases, or is a text of its own. Its answer is the fault, as the report names it, or null where the document is read. They are given to all
commands. Documents that are cut, nested, as large as they may be, or have a member twice, in each object, are made here, and all others given once more
with their members in other orders, by which lists are read in another way, some in every order of servers, shards, calls and events: to `calls` and
`check`.
"""
import copy
import functools
import itertools
import json
import operator
import sys

from fault_cases import DOCUMENTS, FILES, cases_of
from member_faults import of_each_member
from programs import CasesTest, printed_by

# What each command answers to a document that is read, but has nothing for the command, or too much.
LACKS = {
    "calls": ["bad input: 3 Shape calls\n"],
    "check": ["bad input: 3 Shape plan\n"],
    "play": ["bad input: 3 Shape plans\n", "bad input: 3 Shape events\n"],
    "plan": ["bad input: 3 Shape moves\n", "bad input: 3 Shape drain\n"],
    "run": ["bad input: 3 Shape plan\n"],
}
# The commands to which all documents are given; those of the files are given to all commands.
COMMANDS = ["calls", "check"]
# The lists that name each other's entries, or are read in another way behind them.
ORDERED = ["servers", "shards", "calls", "events"]


def members_of(text):
    """The members of a document, each as its text stands, with its name; None where the text is no object."""
    decoder, found, at = json.JSONDecoder(), [], 0

    def skip(marks):
        nonlocal at
        while text[at : at + 1] in (" ", "\t", "\n", "\r"):
            at += 1
        if text[at : at + 1] not in marks or at == len(text):
            raise ValueError(f"none of {marks} at {at}")
        at += 1
        return text[at - 1]

    try:
        skip("{")
        while not found or skip(",}") == ",":
            skip('"')
            begin = at - 1
            name, at = decoder.raw_decode(text, begin)
            skip(":")
            while text[at : at + 1].isspace():
                at += 1
            _, at = decoder.raw_decode(text, at)
            found.append((name, text[begin:at]))
        return None if text[at:].strip() else found
    except ValueError:
        return None


def in_other_orders(case):
    """The document of a case with its members in other orders, which say the same: lists are read in another way where what they name
    stands before them. Of members with one name the last counts, so these stay in their order."""
    where, text, answer = case
    members = members_of(text.decode(errors="replace"))
    keys = [lambda it: it[0] not in ("servers", "shards"), lambda it: it[0] in ("servers", "shards"), lambda it: it[0]]
    for order, key in zip(("names first", "names last", "sorted"), keys):
        other = "{" + ",".join(it[1] for it in sorted(members or [], key=key)) + "}"
        if members and other != text.decode(errors="replace"):
            yield f"{where}, {order}", other.encode(), answer


def in_all_orders(text):
    """A document with these four lists in each of their orders, and its other members between them or behind."""
    members = members_of(text)
    lists, others = [it for it in members if it[0] in ORDERED], [it for it in members if it[0] not in ORDERED]
    if sorted(it[0] for it in lists) != sorted(ORDERED) or not others:
        sys.exit(f"no document with {ORDERED} and others")
    for order in itertools.permutations(lists):
        between = [it for pair in itertools.zip_longest(order, others) for it in pair if it]
        for place, turned in [("between", between), ("behind", [*order, *others])]:
            yield f"{', '.join(it[0] for it in order)}, others {place}", "{" + ",".join(it[1] for it in turned) + "}"


def every_member(*pairs):
    """The document with each member, but for its plans, and with new texts in the place of the first old ones."""
    whole = json.loads((DOCUMENTS / "every-member.json").read_text())
    text = json.dumps({name: value for name, value in whole.items() if name not in ("plan", "plans")})
    for old, new in pairs:
        if old not in text:
            sys.exit(f"{old} is not in every-member.json")
        text = text.replace(old, new, 1)
    return text


# Documents that are given in all these orders. Of faults in several lists one is answered in each: that of the lowest number, of one number the
# first in the order of the table.
CALL_OF_NONE = '"call": "drop", "shard": "t", "server": "a"', '"call": "drop", "shard": "t", "server": "q"'
IN_ALL_ORDERS = [
    ([], None),
    ([('"ticket": 2', '"ticket": -1')], "6 Number ticket"),
    ([CALL_OF_NONE, ('"event": "request", "shard": "s"', '"event": "request", "shard": "q"')], "4 UnknownName server"),
    ([CALL_OF_NONE, ('"when": "before"', '"when": "behind"')], "3 Shape when"),
    ([('"room": 4', '"room": -4'), ('"event": "request", "shard": "s"', '"event": "request", "shard": "q"')], "4 UnknownName shard"),
]


def ordered():
    """These documents in all orders."""
    for pairs, answer in IN_ALL_ORDERS:
        for where, text in in_all_orders(every_member(*pairs)):
            yield f"{answer or 'no fault'}: {where}", text.encode(), answer


def unequal():
    """The orders of a faultless document in which it is answered otherwise than as it stands."""
    text = every_member()
    for command in ("calls", "play"):
        wanted = printed_by(command, text.encode())
        if wanted[0].startswith("bad input: ") or wanted[1] != 0:
            yield f"every-member.json without plans: {command} prints {wanted[0][:80]!r}, status {wanted[1]}"
        for where, turned in in_all_orders(text):
            if printed_by(command, turned.encode()) != wanted:
                yield f"{where}: {command} prints something else than of the document as it stands"


def member_paths(value, path=()):
    """The paths of all members of all objects in a value."""
    inner = value.items() if isinstance(value, dict) else enumerate(value) if isinstance(value, list) else ()
    for key, it in inner:
        if isinstance(value, dict):
            yield (*path, key)
        yield from member_paths(it, (*path, key))


def twice(whole, path, first, last):
    """A document whose member at this path stands at the front of its object with one value, and at its end with another."""
    document = copy.deepcopy(whole)
    *above, member = path
    holder = functools.reduce(operator.getitem, above, document)
    others = {name: value for name, value in holder.items() if name != member}
    holder.clear()
    holder.update({"(first)": first} | others | {member: last})
    return json.dumps(document).replace('"(first)"', json.dumps(member), 1).encode()


def doubled():
    """Each member of each object twice. A list in a list is the value of none, so the answer shows that the last one counts."""
    wrong = [[]]
    for name in ("every-member.json", "bases/everything.json"):
        whole = json.loads((DOCUMENTS / name).read_text())
        for path in member_paths(whole):
            right = functools.reduce(operator.getitem, path, whole)
            where = f"{name}, {'.'.join(map(str, path))}"
            yield f"{where} wrong, and then right", twice(whole, path, wrong, right), None
            yield f"{where} right, and then wrong", twice(whole, path, right, wrong), f"3 Shape {path[-1]}"


def behind_many():
    """Faults behind 100,000 good entries of a list, and of a list that comes twice."""
    for name, good, bad in [("calls", CALL, '{"call":"drop","shard":"1","server":"0"}'), ("events", EVENT, '{"event":"step","stream":-1}')]:
        for wrong, answer in [(bad, "4 UnknownName shard" if name == "calls" else "6 Number stream"), ("null", f"3 Shape {name}")]:
            yield f"{wrong} behind 100000 {name}", document(server_entries(1), shard_entries(1), **{name: f"[{entries(100000, good)},{wrong}]"}), answer
        once = document(server_entries(1), shard_entries(1), **{name: f"[{bad}]"})
        yield f"{name} once more, and good", once[:-1] + f',"{name}":[{good}]}}'.encode(), None
        yield f"{name} once more, and no list", once[:-1] + f',"{name}":0}}'.encode(), f"3 Shape {name}"
        yield f"servers once more, behind {name}", listed(name, 1, good)[:-1] + b',"servers":[]}', "4 UnknownName server" if name == "calls" else None


def cut_and_nested():
    """A document cut at each byte, or with a byte that no text has at each place, and lists in lists."""
    whole = (DOCUMENTS / "bases/placement.json").read_bytes()
    for at in range(len(whole)):
        yield f"cut to {at} bytes", whole[:at], "2 NotJson"
        yield f"no text at byte {at}", whole[:at] + b"\xff" + whole[at + 1:], "2 NotJson"
    for depth, answer in [(127, "3 Shape document"), (128, "2 NotJson"), (200, "2 NotJson")]:
        yield f"{depth} lists in each other", b"[" * depth + b"]" * depth, answer


def entries(count, entry):
    """Returns `count` entries of a list; {n} in an entry is its number."""
    if "{n}" in entry:
        return ",".join(entry.replace("{n}", str(n)) for n in range(count))
    return ",".join([entry] * count)


def document(servers="", shards="", **others):
    """Returns a document with these entries and members."""
    members = "".join(f',"{name}":{value}' for name, value in others.items())
    return f'{{"limit":0,"servers":[{servers}],"shards":[{shards}]{members}}}'.encode()


def server_entries(count):
    return entries(count, '{"name":"{n}","region":"r","room":1}')


def shard_entries(count):
    return entries(count, '{"name":"{n}","load":1,"want":0,"cap":0,"spread":0,"cells":[]}')


def with_cells(first, second):
    """Returns a document of a server, and two shards with `first` and `second` cells."""
    cell = '{"server":"0","state":"secondary"}'
    shard = '{"name":"%d","load":0,"want":0,"cap":0,"spread":0,"cells":[%s]}'
    return document(server_entries(1), ",".join([shard % (0, entries(first, cell)), shard % (1, entries(second, cell))]))


def with_plan(signals=0, streams=1, code="", holds="{}", **lists):
    stream = f'{{"budget":0,"holds":{holds},"code":[{code}]}}'
    return document(plan=f'{{"budget":0,"signals":[{entries(signals, "{}")}],"streams":[{entries(streams, stream)}]}}', **lists)


def with_rights(count):
    """Returns a document with rights to `count` cells, each of another shard or server."""
    rights = ",".join(f'{{"shard":"{n // 64}","server":"{n % 64}","state":"absent"}}' for n in range(count))
    return with_plan(holds=f'{{"cells":[{rights}]}}', servers=server_entries(64), shards=shard_entries(65))


def of_each_shard(kind, entry):
    """Returns a document with a parcel that has an entry for each of 4096 shards."""
    return with_plan(holds=f'{{"{kind}":[{entries(4096, entry)}]}}', shards=shard_entries(4096))


def listed(name, count, entry):
    """Returns a document of a server, a shard, and `count` entries of one of its lists."""
    return document(server_entries(1), shard_entries(1), **{name: f"[{entries(count, entry)}]"})


CALL = '{"call":"drop","shard":"0","server":"0"}'
EVENT = '{"event":"step","stream":0}'
MOVE = '{"shard":"0","from":"0","to":"0"}'
WAIT = '{"do":"wait","signal":0}'
# Lists as long as they may be, and longer ones; each document is made when its turn comes.
SIZES = [
    ("1024 servers, 4096 shards", lambda: document(server_entries(1024), shard_entries(4096)), None),
    ("1025 servers, 1 shard", lambda: document(server_entries(1025), shard_entries(1)), "5 TooMany servers"),
    ("1 server, 4097 shards", lambda: document(server_entries(1), shard_entries(4097)), "5 TooMany shards"),
    ("1025 servers, 4097 shards", lambda: document(server_entries(1025), shard_entries(4097)), "5 TooMany servers"),
    ("256 signals, 64 streams", lambda: with_plan(256, 64), None),
    ("257 signals, 1 stream", lambda: with_plan(257, 1), "5 TooMany signals"),
    ("1 signal, 65 streams", lambda: with_plan(1, 65), "5 TooMany streams"),
    ("257 signals, 65 streams", lambda: with_plan(257, 65), "5 TooMany signals"),
    ("4096 instructions", lambda: with_plan(1, code=entries(4096, WAIT)), None),
    ("4097 instructions", lambda: with_plan(1, code=entries(4097, WAIT)), "5 TooMany code"),
    ("4096 rights to cells", lambda: with_rights(4096), None),
    ("4097 rights to cells", lambda: with_rights(4097), "5 TooMany cells"),
    ("4096 crowns", lambda: of_each_shard("crowns", '{"shard":"{n}","lead":"gone"}'), None),
    ("4096 spare replicas", lambda: of_each_shard("spare", '{"shard":"{n}","amount":1}'), None),
    ("4096 moves", lambda: listed("moves", 4096, MOVE), None),
    ("4097 moves", lambda: listed("moves", 4097, MOVE), "5 TooMany moves"),
    ("1048576 cells of two shards", lambda: with_cells(1048570, 6), None),
    ("1048577 cells of two shards", lambda: with_cells(1048570, 7), "5 TooMany cells"),
    ("1048576 calls", lambda: listed("calls", 1048576, CALL), None),
    ("1048577 calls", lambda: listed("calls", 1048577, CALL), "5 TooMany calls"),
    ("1048576 events", lambda: listed("events", 1048576, EVENT), None),
    ("1048577 events", lambda: listed("events", 1048577, EVENT), "5 TooMany events"),
]


def is_right(answer, command, printed, status):
    """The command printed the fault and nothing else; or, where there is none, it got past reading."""
    if answer is not None:
        return (printed, status) == (f"bad input: {answer}\n", 2)
    return (printed in LACKS[command] and status == 2) or (not printed.startswith("bad input: ") and status in (0, 1))


def told(case, commands=COMMANDS):
    """What is wrong with the program's answers to a case, if anything is."""
    _, text, answer = case
    if callable(text):
        text = text()
    for command in commands:
        printed, status = printed_by(command, text)
        if not is_right(answer, command, printed, status):
            wanted = answer or "no fault"
            return f"{command} prints {printed[:80]!r}, status {status}, where {wanted} is wanted"
    return None


def told_by_all(case):
    return told(case, LACKS)


def written():
    """The cases of the files."""
    return [case for path in FILES for case in cases_of(path)]


class FaultsTest(CasesTest):
    """Documents with one fault."""

    def test_documents_of_files(self):
        self.compare(told_by_all, written())

    def test_each_member(self):
        self.compare(told, of_each_member())

    def test_documents_that_are_cut_or_nested(self):
        self.compare(told, cut_and_nested())

    def test_lists_that_are_long(self):
        self.compare(told, behind_many())

    def test_members_that_come_twice(self):
        self.compare(told, doubled())

    def test_members_in_other_orders(self):
        self.compare(told, [other for case in [*written(), *behind_many()] for other in in_other_orders(case)])

    def test_lists_in_all_orders(self):
        self.compare(told, ordered())
        self.assertEqual([*unequal()], [])

    def test_lists_as_long_as_they_may_be(self):
        # (a large document takes over a gigabyte of memory)
        self.compare(told, SIZES, workers=2)
