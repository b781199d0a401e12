"""known_commands.py PROGRAM WORD..: prints the commands that a program knows, and on a second line those that it does not know."""
from __future__ import annotations

import json
import subprocess
import sys

from smpland_model.lines import tables
from smplan.reading import Names


# Members by which a command is read as one, so that it is not bad for lack of them.
MEMBERS = {
    "reopen": {"document": {}}, "fenced": {"server": None, "base": 1}, "confirm": {"base": 1},
    "settled": {"server": None, "base": 1},
}


def known_commands(words: list[str]) -> dict[str, bool]:
    """Returns of each command whether a program knows it: one that it does not know is bad by the word itself."""
    commands = list(tables(Names()))
    lines = "".join(json.dumps({"do": it, **MEMBERS.get(it, {})}) + "\n" for it in commands)
    done = subprocess.run(words, input=lines.encode(), stdout=subprocess.PIPE, check=True)
    replies = [json.loads(it) for it in done.stdout.splitlines()]
    return {do: reply.get("bad", {}).get("at") != "$.do" for do, reply in zip(commands, replies, strict=True)}


if __name__ == "__main__":
    found = known_commands(sys.argv[1:])
    print(*(do for do, is_known in found.items() if is_known))
    print(*(do for do, is_known in found.items() if not is_known))
