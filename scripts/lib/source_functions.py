"""The functions of a crate's sources: their names as a check prints them, and where each begins and ends."""
import collections
import functools
import os
import re
import typing

from repository import PARTS, ROOT, files_of, read

# Comments and literals, in which braces and words mean nothing.
BLANK = re.compile(r"""//[^\n]*|/\*.*?\*/|b?r(#*)".*?"\1|b?"(?:[^"\\]|\\.)*"|b?'(?:[^'\\\n]|\\[^\n][^'\n]*)'""", re.DOTALL)
# What a scope of a file begins with.
ITEM = re.compile(r"\bfn\s+(?P<fn>\w+)|^[ \t]*(?:pub(?:\([^)]*\))?\s+)?(?:unsafe\s+)?(?P<kind>impl|trait|mod)\b(?P<head>[^{};]*)\{|(?P<open>\{)|(?P<close>\})", re.MULTILINE)
# What stands before the brace of a clause, which is no body.
CLAUSE = re.compile(r"(?:\b(?:requires|ensures)\s*\*?(?:\s*\w+)?|\bghost(?:\s+\w+)?\s*(?::[^{}]*)?)\s*\Z")


class Wrong(Exception):
    """Why a text cannot be read, or an edit not be tried."""


def blanked(text):
    return BLANK.sub(lambda found: re.sub(r"[^\n]", " ", found[0]), text)


def closed(text, at):
    """Where the brace that opens at `at` is closed."""
    depth = 0
    for found in re.finditer(r"[{}]", text[at:]):
        depth += 1 if found[0] == "{" else -1
        if depth == 0:
            return at + found.end()
    raise Wrong("its file has a brace that is not closed")


def body_of(text, at):
    """Where the body of the function begins and ends whose name ends at `at`, or where its statement ends. It begins behind the last clause."""
    depth, begin = 0, None
    while True:
        found = re.compile(r"[({\[\])};]").search(text, at)
        if not found:
            raise Wrong("its file has a function with no end")
        at = found.end()
        if found[0] == "{" and depth == 0:
            end = closed(text, found.start())
            if not CLAUSE.search(text, 0, found.start()):
                return begin or found.start(), end
            at = begin = end
        elif found[0] == ";" and depth == 0:
            return at, at
        elif found[0] in "([{":
            depth += 1
        elif found[0] in ")]}":
            depth -= 1


def name_of(kind):
    """A type's or trait's name as it stands in those of its methods: without parameters or path, and a tuple's with those of its types behind it."""
    kind = re.sub(r"<.*", "", kind, flags=re.DOTALL).strip()
    parts = [it.strip().split("::")[-1] for it in kind.strip("()").split(",")]
    return f"Tuple{len(parts)}{''.join(parts)}" if kind.startswith("(") else parts[0]


def path_of(kind):
    """The parts of a type's path but the last, as they stand before its name in those of a trait's methods."""
    *path, _ = re.sub(r"[<(].*", "", kind, flags=re.DOTALL).split("::")
    return "".join(it.strip().capitalize() for it in path)


def scope_of(kind, head):
    """What stands before a function's name for a header: the module's or the trait's name, or the type's, and the trait's behind it."""
    if kind != "impl":
        return re.match(r"\s*(\w+)", head)[1]
    generics = re.match(r"\s*<([^{]*?)>(?=\s)", head)
    free = re.findall(r"\w+", generics[1]) if generics else []
    head = re.sub(r"^\s*<[^{]*?>(?=\s)", "", head).split(" where ")[0]
    parts = re.split(r"\sfor\s", head)
    words = [name_of(part) for part in parts]
    # (a drop stands at its type)
    if len(words) == 2 and words[0] == "Drop":
        return words[1]
    # a trait of given types has their names behind its own, but for those that are free
    if len(parts) == 2 and "<" in parts[0]:
        given = parts[0].split("<", 1)[1].rsplit(">", 1)[0].strip()
        words[0] += name_of(given) if given.startswith("(") else "".join(it for it in re.findall(r"\w+", given) if it not in free)
    return (path_of(parts[1]) if len(parts) == 2 else "") + "".join(reversed(words))


def module_of(path):
    return [part for part in path.removesuffix(".rt").split("/")[1:] if part not in ("lib", "main")]


class Function(typing.NamedTuple):
    """A function of a file: its name as a check prints it; where its item begins (with attributes), its header and its body, and where it
    ends; whether another may stand beside it that differs in its name alone; and whether it calls itself, by others of its cycle too: such a one
    is marked, or its proof stands in a folder of its own kind."""

    name: str
    item: int
    begin: int
    body: int
    end: int
    is_free: bool
    is_recursive: bool

    def place(self, number=1):
        """The folder of its proof, below proofs/. A twin has a number."""
        return "/".join(self.name.split("::")[1:]) + (f"_{number}" if number > 1 else "")

    def closures(self):
        """The folder of the proofs of its closures, below proofs/."""
        above, _, name = self.place().rpartition("/")
        return os.path.join(above, "fn", name)


def text_of(crate, path):
    """A file of a crate, by its path there."""
    file = f"{ROOT}/crates/{crate}/{path}"
    if not path.startswith(tuple(f"{part}/" for part in PARTS)) or not os.path.isfile(file):
        raise Wrong(f"there is no file {path}")
    return read(file)


def sources(folder):
    """The files of a crate's code, from its folder."""
    return sorted(os.path.relpath(it, folder) for it in files_of(f"{folder}/src", ".rt"))


@functools.cache
def homes(crate):
    """The modules of a crate's types, by their names; of a name that stands twice there is none."""
    found = collections.defaultdict(list)
    for path in sources(f"{ROOT}/crates/{crate}"):
        for name in re.findall(r"\b(?:struct|enum)\s+(\w+)", blanked(text_of(crate, path))):
            found[name].append(module_of(path))
    return {name: modules[0] for name, modules in found.items() if len(modules) == 1}


@functools.cache
def functions(crate, path):
    """The functions of a file. A method's name begins with its type's module, wherever it stands."""
    module, text = module_of(path), blanked(text_of(crate, path))
    at, scopes, found = 0, [], []
    while True:
        item = ITEM.search(text, at)
        if not item:
            return found
        at = item.end()
        if item["fn"]:
            start, at = body_of(text, at)
            names = [name for name, _ in scopes]
            home = homes(crate).get(names[0], module) if len(names) == 1 else module
            first = max(text.rfind(it, 0, item.start()) for it in "{};") + 1
            first += len(text[first:]) - len(text[first:].lstrip())
            above = [*home, *names]
            is_recursive = "#[cycle" in text[first:start] or os.path.isdir("/".join([ROOT, "crates", crate, "proofs", *above, f"+{item['fn']}"]))
            is_free = not any(is_trait for _, is_trait in scopes) and not is_recursive
            found.append(Function("::".join([crate, *above, item["fn"]]), first, item.start(), start, at, is_free, is_recursive))
        elif item["kind"]:
            is_trait = item["kind"] == "trait" or re.search(r"\sfor\s", item["head"])
            scopes.append((scope_of(item["kind"], item["head"]), is_trait))
        elif item["open"]:
            at = closed(text, item.start())
        elif scopes:
            scopes.pop()
