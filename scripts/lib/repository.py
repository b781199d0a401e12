"""The crates of the repository: their files, what each one stands on, and the edits that make wrong versions of them."""
import os
import re
import shutil

ROOT = os.path.dirname(os.path.dirname(os.path.dirname(os.path.abspath(__file__))))
KIT = os.path.dirname(os.path.dirname(os.path.realpath(shutil.which("rt") or "/opt/rattle/bin/rt")))
# What a crate's folder has beside what is made there.
PARTS = ("src", "specs", "proofs")
# A definition in a module of specs/, by its name.
DEFINITION = re.compile(r"(?:(?:abbrev|unfoldable|opaque) (?:pub )?|pub (?!mod |use )|(?=record |data ))(?:record |data )?([^\s:({]+)|(\S+) :(?: |$)")


def read_crates(folder=ROOT, file="crates.txt"):
    """The libraries that each crate of crates.txt uses, or of another file."""
    with open(f"{folder}/{file}", encoding="utf-8") as lines:
        lines = [line.split("#")[0] for line in lines]
    return {line.split(":")[0].split()[0]: line.split(":")[1].split() for line in lines if ":" in line}


def below(listed, crate):
    """The crates that a crate stands on, each behind those that it stands on itself."""
    found = dict.fromkeys(name for it in listed[crate] if it in listed for name in [*below(listed, it), it])
    return list(found)


def files_of(folder, *endings):
    """The files of a folder, but for what is made in folders out/; where endings are named, those that end so."""
    for at, folders, names in os.walk(folder):
        folders[:] = sorted(it for it in folders if it != "out")
        yield from (os.path.join(at, name) for name in sorted(names) if not endings or name.endswith(endings))


def read(file):
    with open(file, encoding="utf-8") as it:
        return it.read()


def write(file, text):
    """Writes a file, in a folder that is made where there is none."""
    os.makedirs(os.path.dirname(file), exist_ok=True)
    with open(file, "w", encoding="utf-8") as it:
        it.write(text)


def copy_crate(crate, folder):
    """Copies what a crate of the repository has, but for what is made of it, into this folder."""
    for part in PARTS:
        if os.path.isdir(f"{ROOT}/crates/{crate}/{part}"):
            shutil.copytree(f"{ROOT}/crates/{crate}/{part}", f"{folder}/{part}")


def edits_in(folder, crate):
    """The files of a crate's edits in a folder of edits."""
    place = f"{folder}/{crate}"
    return [f"{place}/{name}" for name in sorted(os.listdir(place)) if name.endswith(".edit")] if os.path.isdir(place) else []


def replacements(file):
    """What an edit changes, in the order of its lines: the file, the text that has to stand there once, and what comes in its place."""
    path = old = ""
    for line in read(file).split("\n"):
        word, _, text = line.partition(":")
        if word == "file":
            path = text.strip()
        elif word == "old":
            old = text.removeprefix(" ")
        elif word == "new":
            yield path, old, text.removeprefix(" ")


def said_in(file, word):
    """What an edit says beside that, in lines that begin with this word."""
    return [line.removeprefix(f"{word}: ").strip() for line in read(file).split("\n") if line.startswith(f"{word}: ")]
