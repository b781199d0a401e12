"""What a check says of edited functions: whether it came to its end, and why each function is not proved."""
import collections
import re

# What is not proved of a function, of which more is said in a line 'fn NAME: ..' below.
OPEN = re.compile(r"note: src/\S+:\d+:\d+: (it is not proved that .*?\(`[^`]+`\))")
# What a proof says that names what is gone.
LOST = re.compile(r"has no field|is not in scope|has no `|was not admitted|is no name|declarations? that depend")
# What stands before a function's name where the reasons are those of the lemmas that its proof rests on, and what a check calls one of these.
LEMMAS = "lemmas of "
REFUSED_LEMMA = re.compile(r"`Rattle\.\w+\.proofs\.([^`]+)\.[^.`]+`")
# What a check says of a function in which nothing is open but what was left so.
PROVED = re.compile(r": (?:proved|no holes|depends on a hole in .*)$")
# What it says of one whose proof has the error of its own alone.
HELD_BACK = re.compile(r": not proved; it calls [^;]*, which (?:is|are) not proved$")
# What stands in place of a verdict where a definition or a statement does not hold together.
UNREAD = re.compile(r"^(?:\./)?(?:src|specs)/\S+:\d+:\d+: error", re.MULTILINE)


def owner_of(name):
    """The function that a closure stands in."""
    found = re.match(r"(.*)::fn::(\w+)::", name)
    return f"{found[1]}::{found[2]}" if found else name


def place_of(folder, text):
    """The parts of a function's name, from the folder of its proofs. Functions that call each other share one, and what is said begins with the
    name of one of them."""
    *parts, last = folder.split("/")
    named = re.match(r"`(\w+)-", text) if last.startswith("+") else None
    return [*parts, named[1] if named else last]


def reasons_in(said, crate):
    """What a check says of each function's own proof, beside that a function which it calls is not proved, and of the files of the refused lemmas
    that this rests on. Where a proof or such a file names what is gone, what is open may be so for want of what it says there, and is no reason,
    nor is anything in such a file."""
    found, lost, is_open = collections.defaultdict(list), set(), []
    for file, text in re.findall(r"^(?:\./)?proofs/(\S+)\.antt:\d+:\d+: error: (.*)$", said, re.MULTILINE):
        folder, _, name = file.rpartition("/")
        is_function = name in ("Answers", "Invariants", "Proof")
        owner = owner_of("::".join([crate, *place_of(folder, text)])) if is_function else file.replace("/", ".")
        if not LOST.search(text):
            found[owner].append(text)
        elif "`not_offered`" not in text:
            lost.add(owner)
    for line in said.split("\n"):
        if goal := OPEN.match(line):
            is_open.append(goal[1])
        elif verdict := re.match(r"fn (\S+): (?:not proved|no proof)(.*)", line):
            owner, is_open = owner_of(verdict[1]), [*is_open, *re.findall(r"`search` did not prove [^;]*", verdict[2])]
            rests_on = {*REFUSED_LEMMA.findall(verdict[2])}
            found[owner] += is_open if lost.isdisjoint({owner, *rests_on}) else []
            found[LEMMAS + owner] += [reason for it in sorted(rests_on - lost) for reason in found[it]]
            is_open = []
        elif line.startswith("fn "):
            is_open = []
    return found


def has_ended(said):
    """Whether a check came to its end: else the text does not compile."""
    return re.search(r"^only=\d+ (?:proved|holes)=\d+$", said, re.MULTILINE)


def at_fault(batch, lines, said):
    """Those of the edits at whose lines the compiler finds errors or whose functions it names, or else in whose files."""
    errors = {(path, int(line)) for path, line in re.findall(r"^(?:\./)?(\S+?):(\d+):\d+: error", said, re.MULTILINE)}
    named = {*re.findall(r"`([^`]+)`", said)}
    found = [it for it in batch if not errors.isdisjoint(lines[it]) or not named.isdisjoint(it.names())]
    return found or [it for it in batch if any(path == file for path, *_ in it.spans for file, _ in errors)] or batch


def why_not(edit, said):
    """What is told of an edit that is not refused."""
    errors = [it for it in said.split("\n") if re.search(r":\d+:\d+: error", it) and "`not_offered`" not in it]
    if not has_ended(said) or UNREAD.search(said):
        return f"{edit.name}: NOT TRIED: it does not compile: {(errors or said.strip().split(chr(10)))[-1][:300]}"
    lines = [it for it in said.split("\n") if it.startswith("fn ") and not PROVED.search(it) and not HELD_BACK.search(it)]
    if not lines and not errors:
        return f"{edit.name}: NOT REFUSED: all is proved with it"
    return f"{edit.name}: NOT REFUSED for a reason of its own function, {', '.join(edit.names())}: {'; '.join([*errors, *lines])[:500]}"
