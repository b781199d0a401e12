"""Wrong versions of a crate: what an edit changes, the functions that it is of, and how many of them stand in one copy of the crate."""
import collections
import difflib
import functools
import os
import re

from check_output import LEMMAS
from repository import ROOT, files_of, read, replacements, said_in, write
from source_functions import Wrong, blanked, functions, text_of

# How many edits stand in one check at the most: none is begun late, but what is begun ends.
MOST = 200
# What a header has whose body must stay.
HEADER = re.compile(r"\bconst\s+fn\b|->\s*impl\b")
# What stands in the proof of an edit's function: where a proof has an error of its own, the check does not search once more to print one.
UNOFFERED = "\n\nnot_offered : NotOffered\nnot_offered = tt\n"
# The files of a function's proof, and a proof that is left open.
PROOF_FILES = ("Proof.antt", "Invariants.antt", "Answers.antt")
LEFT_OPEN = "use {module}.Statement.{{statement}}\n\npub {name}_spec : {{M : Type 1}} → statement M\n{name}_spec = ?\n"


class Edit:
    """A wrong version: what it changes, by file, the functions that it is of, that of which it can have a twin, and the number of the twin that it
    stands in (1: the function itself)."""

    def __init__(self, crate, file, is_always):
        self.crate, self.name, self.texts, self.number, self.is_always = crate, f"{crate}/{os.path.basename(file)}", {}, 1, is_always
        for path, old, new in replacements(file):
            self.replace(path, old, new)
        self.spans = sorted(it for path, text in self.texts.items() for it in spans(path, text_of(crate, path), text))
        self.path = self.spans[0][0] if self.spans else None
        if not self.spans:
            raise Wrong("it changes nothing")
        self.functions = [f"{crate}::{it}" for it in said_in(file, "by")]
        self.is_alone, self.of = bool(self.functions), None
        if not self.is_alone:
            changed = {self.changed_at(*span) for span in self.spans}
            self.functions = sorted(it.name for it in changed if it)
            if not self.functions:
                raise Wrong("what it changes is in no function's body: name the one that must be refused in a line 'by: FUNCTION'")
            if len(changed) == 1 and may_have_twin(crate, *changed):
                (self.of,) = changed

    def names(self):
        """The functions that must be refused."""
        return self.functions if self.number == 1 else [f"{self.functions[0]}_{self.number}"]

    def reason(self, found):
        """The first of the reasons found that is of one of its functions; a definition may also be refused by a lemma on the way to it."""
        names = [*self.names(), *(LEMMAS + it for it in self.names() if self.is_alone)]
        return next((reason for it in names for reason in found.get(it, [])), None)

    def replace(self, path, old, new):
        text = self.texts.get(path) or text_of(self.crate, path)
        if not old or text.count(old) != 1:
            raise Wrong(f"an 'old:' text is in {path} {text.count(old) if old else 0} times, and not once")
        self.texts[path] = text.replace(old, new)

    def changed_at(self, path, start, end, new):
        """The function that a span is of; a new item is of none."""
        for it in functions(self.crate, path) if path.startswith("src/") else []:
            if it.begin <= start < it.end:
                if start < it.body:
                    raise Wrong(f"it changes what {it.name} promises, and not what it does")
                return it
        if end > start:
            raise Wrong(f"what it changes in {path} is in no function's body: name the one that must be refused in a line 'by: FUNCTION'")
        return None

    def changes(self):
        """What is to be written in place of what, by file: its own spans, or the twin behind its function."""
        if self.number == 1:
            return self.spans
        path, of = self.path, self.of
        twin = text_of(self.crate, path)[: of.end]
        for _, start, end, new in reversed(self.spans):
            twin = twin[:start] + new + twin[end:]
        name = of.name.split("::")[-1]
        twin = twin[of.item : of.begin] + re.sub(rf"\b{name}\b", f"{name}_{self.number}", twin[of.begin :], count=1)
        return [(path, of.end, of.end, f"\n\n{twin}")]

    def write_proof(self, folder):
        """Gives the twin its function's proof, in a copy of the crate."""
        was, new = (f"{folder}/proofs/{self.of.place(number)}" for number in (1, self.number))
        module = self.of.place().replace("/", r"\.")
        for file in os.listdir(was) if was != new and os.path.isdir(was) else []:
            if text := read(f"{was}/{file}").removesuffix(UNOFFERED):
                write(f"{new}/{file}", re.sub(rf"(\bRattle\.{self.crate}\.(?:proofs|specs\.contracts)\.{module})(?![\w-])", rf"\1_{self.number}", text))

    def offer_nothing(self, folder):
        """Has a check print no proof of its functions, in a copy of the crate."""
        for *above, name in (it.split("::")[1:] for it in self.names()):
            own, shared = ("/".join([folder, "proofs", *above, it]) for it in (name, f"+{name}"))
            if self.is_alone or self.of:
                os.makedirs(own, exist_ok=True)
            for place in filter(os.path.isdir, (own, shared)):
                with open(f"{place}/Answers.antt", "a", encoding="utf-8") as it:
                    it.write(UNOFFERED)


class Unedited(Edit):
    """A twin of an edit's function as it stands, which has to be proved beside the edits."""

    def __init__(self, edit, number):
        self.crate, self.name, self.path, self.of, self.number = edit.crate, edit.functions[0], edit.path, edit.of, number
        self.spans, self.functions, self.is_alone = [], edit.functions, False

    def offer_nothing(self, folder):
        pass


def spans(path, old, new):
    """Where two texts of a file differ: in lines, and there without what begins and ends alike."""
    a, b = old.splitlines(True), new.splitlines(True)
    for kind, a1, a2, b1, b2 in difflib.SequenceMatcher(None, a, b, autojunk=False).get_opcodes():
        if kind == "equal":
            continue
        was, now, start = "".join(a[a1:a2]), "".join(b[b1:b2]), len("".join(a[:a1]))
        left = len(os.path.commonprefix([was, now]))
        right = len(os.path.commonprefix([was[left:][::-1], now[left:][::-1]]))
        yield path, start + left, start + len(was) - right, now[left : len(now) - right]


@functools.cache
def cited(crate):
    """The modules of a crate that its proofs name, with the files that name them."""
    found = collections.defaultdict(set)
    for file in files_of(f"{ROOT}/crates/{crate}/proofs"):
        for module in re.findall(rf"\bRattle\.{crate}\.(?:proofs|specs\.contracts)\.([\w.+]+)", read(file)):
            found[module.replace(".", "/")].add(file)
    return found


def outsiders(crate, place, *homes):
    """The files that name a module of this place below proofs/, and stand in none of these folders of it."""
    naming = {file for module, files in cited(crate).items() if f"{module}/".startswith(f"{place}/") for file in files}
    return [file for file in naming if not file.startswith(tuple(f"{ROOT}/crates/{crate}/proofs/{it}/" for it in homes))]


def may_have_twin(crate, function):
    """Whether another function may stand beside this one that differs in its name alone, with its proof: it does not call itself, and its
    modules are named by its own proof alone."""
    place = function.place()
    return function.is_free and not os.path.isdir(f"{ROOT}/crates/{crate}/proofs/{function.closures()}") and not outsiders(crate, place, place)


def may_be_open(crate, function):
    """Whether the proof of a function may be left open: it has a body, calls itself by no way, and has one proof, which no other proof names."""
    place = function.place()
    named = (it for file in PROOF_FILES for it in outsiders(crate, f"{place}/{file.removesuffix('.antt')}", place))
    return function.body < function.end and not function.is_recursive and not any(named)


def may_be_empty(crate, path, function):
    """Whether the body of a function whose proof is left open may be gone, with its closures: no other proof names a module of these, no constant is
    made by it, and what it gives has a type that its header names."""
    header, closures = blanked(text_of(crate, path))[function.item : function.body], function.closures()
    return may_be_open(crate, function) and not HEADER.search(header) and not outsiders(crate, closures, closures, function.place())


def is_changed(path, function, edits):
    """Whether one of the edits changes a function's body, as an edit of specs/ may beside that."""
    return any(at == path and function.body <= start < function.end for edit in edits for at, start, *_ in edit.spans)


def with_edits(folder, edits, emptied):
    """Writes the edits into a copy of the crate, in which some functions have no body, and returns the lines of each edit, by file."""
    changes, lines = collections.defaultdict(list), collections.defaultdict(set)
    for path, function in emptied:
        changes[path].append((function.body, function.end, "{\n    unreachable!()\n}", None))
    for edit in edits:
        for path, *change in edit.changes():
            changes[path].append((*change, edit))
        if edit.of and len(edits) > 1:
            edit.write_proof(folder)
        if edit.is_alone or len(edits) > 1:
            edit.offer_nothing(folder)
    for path, found in changes.items():
        text, made, at = read(f"{folder}/{path}"), "", 0
        for start, end, new, edit in sorted(found, key=lambda it: it[:2]):
            made, first, at = made + text[at:start], made.count("\n") + text.count("\n", at, start) + 1, end
            lines[edit].update((path, first + line) for line in range(new.count("\n") + 1))
            made += new
        write(f"{folder}/{path}", made + text[at:])
    return lines


def leave_open(crate, folder, others):
    """Leaves the proofs of these functions open, in a copy of the crate: an edited function is proved from what those that it calls promise."""
    for it in others:
        if may_be_open(crate, it):
            proofs = f"{folder}/proofs/{it.place()}"
            for file in {*PROOF_FILES} & {*os.listdir(proofs)} if os.path.isdir(proofs) else []:
                os.remove(f"{proofs}/{file}")
            module = f"Rattle.{crate}.proofs.{it.place().replace('/', '.')}"
            write(f"{proofs}/{PROOF_FILES[0]}", LEFT_OPEN.format(module=module, name=it.name.split("::")[-1]))


def batches_of(edits):
    """Parts edits so that in a part each has a function of its own, or a twin of it. Those that have no twin come first."""
    parts = []
    for edit in sorted(edits, key=lambda it: (it.is_alone, it.of is not None)):
        for part in (it for it in parts if len(it) < MOST):
            rivals = [it for it in part if clash(edit, it)]
            if not rivals or edit.of and all(it.functions == edit.functions and not it.is_alone for it in rivals):
                edit.number = len(rivals) + 1
                part.append(edit)
                break
        else:
            parts.append([edit])
    return parts


def clash(a, b):
    """Whether two edits are of one function or touch each other, or one has to be alone."""
    touch = any(x[0] == y[0] and x[1] <= y[2] and y[1] <= x[2] for x in a.spans for y in b.spans)
    return a.is_alone or b.is_alone or touch or not {*a.functions}.isdisjoint(b.functions)


def unedited_of(batch):
    """A further twin, as it stands, of each function that edits of a batch are of and that can have one."""
    last = {it.functions[0]: it for it in sorted(batch, key=lambda it: it.number) if it.of}
    return [Unedited(it, it.number + 1) for it in last.values()]


def names_of(batch):
    """The functions that must be refused, of all edits of a batch."""
    return sorted({it for edit in batch for it in edit.names()})
