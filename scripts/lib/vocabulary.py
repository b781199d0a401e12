"""The words of specs/: what each module defines, and to which of them public contracts come (scripts/check/vocabulary, scripts/build/make-audit)."""
import os
import re

from repository import DEFINITION, files_of, read
from source_functions import closed

# An import: from which module, and which names of it, or the name by which the whole goes.
IMPORT = re.compile(r"\bRattle\.(\w+)\.specs\.([\w.]+?)(?:\.\{([^}]*)\}| as (\w+))")
# A function, a type or a trait, by its name, or an impl, by its head.
ITEM = re.compile(
    r"^(?P<indent> *)(?P<pub>pub )?(?:pub\([^)]*\) )?(?:(?:const|unsafe|extern \"C\") )*(?:(?P<kind>fn|struct|enum|trait|type) (?P<name>\w+)|impl\b(?P<head>[^{;]*))", re.MULTILINE
)
# What stands before a brace in which there is a promise, a wish or a model.
CLAUSE = re.compile(r"(?:\b(?:requires|ensures)\s*\*?(?:\s*\w+)?|\bghost\s+(?!invariant)\w+\s*(?::[^{}]*|=\s*)?)\s*\Z")
# What a head says of words that are no promise's.
SAID = "need not read"
WORD = re.compile(r"[^\W\d][\w'-]*")


class Module:
    """A file of specs/: its head, what it imports and hands on, and the text of each of its words."""

    def __init__(self, text):
        lines = text.split("\n")
        self.head = " ".join(line.lstrip("- ") for line in lines[: next(i for i, line in enumerate([*lines, ""]) if not line.startswith("--"))])
        self.imports, self.words, name = imports_of(text), {}, None
        for line in (it for it in lines if it and not it.startswith(("--", "use ", "pub use ", "pub mod "))):
            found = DEFINITION.match(line)
            if found:
                name = next(filter(None, found.groups()))
            if name:
                self.words[name] = self.words.get(name, "") + re.sub(r"--.*", "", line) + "\n"

    def named(self, sentence):
        """The words that a sentence of the head names."""
        order, named = [*self.words], {*re.findall(r"`([^`]+)`", sentence)}
        for first, last in re.findall(r"`([^`]+)` to `([^`]+)`", sentence):
            named.update(order[order.index(first) : order.index(last)])
        return named

    def own(self):
        """The words that whoever reads public contracts need not read, as the head says."""
        found, sentences = set(), re.split(r"(?<=\.) ", self.head)
        for said in (it for it in sentences if SAID in it):
            elsewhere = {name for it in sentences if it != said for name in self.named(it)}
            named = self.named(said) & {*self.words}
            found |= {*self.words} - elsewhere if "others" in said or not named else named
        return found


def imports_of(text):
    """Where each name that a file imports is from, and by which names whole modules go."""
    names, wholes = {}, {}
    for crate, module, listed, whole in IMPORT.findall(text):
        names.update({name.strip(): (crate, module) for name in listed.split(",") if name.strip()})
        wholes.update({whole: (crate, module)} if whole else {})
    return names, wholes


class Tree:
    """The crates of a folder: their modules of specs/, and the words that stand in their public contracts."""

    def __init__(self, folder):
        self.modules, self.public, self.files = {}, set(), 0
        crates = sorted(os.listdir(f"{folder}/crates")) if os.path.isdir(f"{folder}/crates") else []
        for crate in crates:
            for path, text in texts_of(f"{folder}/crates/{crate}/specs", ".antt"):
                self.modules[crate, path.replace("/", ".")] = Module(text)
                self.files += 1
        for crate in crates:
            files = dict(texts_of(f"{folder}/crates/{crate}/src", ".rt"))
            self.files += len(files)
            exported = {name for names in re.findall(r"^pub use ([^;]+);", files.get("lib", ""), re.MULTILINE) for name in WORD.findall(re.sub(r"\w+::", "", names))}
            whole = re.findall(r"^pub mod (\w+);", files.get("lib", ""), re.MULTILINE)
            for path, text in files.items():
                own = {name for _, name in re.findall(r"^pub (\w+) (\w+)", text, re.MULTILINE)} if path in whole or "lib" not in files else set()
                self.public |= self.cited(promised(re.sub(r"//[^\n]*", "", text), exported | own), *imports_of(text))

    def home(self, name, place):
        """The word of this name that a module defines or hands on."""
        while place in self.modules and name not in self.modules[place].words:
            place = self.modules[place].imports[0].get(name)
        return (*place, name) if place in self.modules else None

    def cited(self, text, names, wholes):
        """The words that a text cites, from what its file imports."""
        found = {self.home(name, names[name]) for name in WORD.findall(text) if name in names}
        return {*found, *(self.home(name, wholes[it]) for it, name in re.findall(r"(\w+)\.(\w+)", text) if it in wholes)} - {None}

    def needed(self):
        """All words to which the public contracts come."""
        return self.closure(self.public)

    def closure(self, words):
        """These words, and all to which their definitions come."""
        found, left = set(words), [*words]
        while left:
            crate, path, name = left.pop()
            module = self.modules[crate, path]
            names, wholes = module.imports
            below = self.cited(module.words[name], {**names, **{word: (crate, path) for word in module.words}}, wholes) - found
            found |= below
            left += below
        return found

    def silent(self):
        """What modules don't say of their words, a line each."""
        needed = self.needed()
        for (crate, path), module in sorted(self.modules.items()):
            free, own = {word for word in module.words if (crate, path, word) not in needed}, module.own()
            file = f"crates/{crate}/specs/{path.replace('.', '/')}.antt"
            yield from (f"{file}: public contracts do not come to `{it}`, and its head does not say so" for it in module.words if it in free - own)
            yield from (f"{file}: public contracts come to `{it}`, and its head says that who reads them need not read it" for it in module.words if it in own - free)


def texts_of(folder, ending):
    """What stands in each file of a folder, by its path without this ending."""
    for file in files_of(folder, ending):
        if os.path.basename(file) != "Lib.antt":
            yield os.path.relpath(file, folder).removesuffix(ending), read(file)


def promised(text, exported):
    """What stands in the clauses and models of a file's public items."""
    items, found = [*ITEM.finditer(text)], []
    for number, item in enumerate(items):
        part = text[item.start() : items[number + 1].start() if number + 1 < len(items) else len(text)]
        if is_public(item, items[:number], exported):
            braces = [it.start() for it in re.finditer(r"\{", part) if CLAUSE.search(part, 0, it.start())]
            found += [part[at : closed(part, at)] for at in braces] + re.findall(r"\bghost\s+\w+\s*:[^{};]*", part)
    return "\n".join(found)


def is_public(item, before, exported):
    """Whether other crates see an item: it is exported, or a public member of what is, or a trait's member there."""
    if not item["kind"]:
        of = re.sub(r"<[^{]*", "", re.split(r"\sfor\s", re.sub(r"^\s*<[^{]*?>(?=\s)", "", item["head"]))[-1])
        return not exported.isdisjoint(WORD.findall(of)[-1:])
    if not item["indent"]:
        return bool(item["pub"]) and item["name"] in exported
    scope = next((it for it in reversed(before) if len(it["indent"]) < len(item["indent"])), None)
    if not scope or not (scope["head"] or scope["kind"] == "trait"):
        return False
    is_member = scope["kind"] == "trait" or " for " in scope["head"]
    return (bool(item["pub"]) or is_member) and is_public(scope, before[: before.index(scope)], exported)
