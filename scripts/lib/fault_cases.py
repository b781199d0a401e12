"""The cases of tests/documents/faults, as tests/program/test_faults.py tells of them."""
import json
import pathlib
import sys

DOCUMENTS = pathlib.Path(__file__).resolve().parents[2] / "tests/documents"
FILES = sorted((DOCUMENTS / "faults").glob("*.json"))


def edited(case, base):
    """The text of a case of a file."""
    if set(case) == {"what", "text", "answer"}:
        return case["text"]
    if set(case) != {"what", "old", "new", "answer"}:
        sys.exit(f"no case: {case}")
    if case["old"] not in base:
        sys.exit(f"{case['old']} is not in the base: {case['what']}")
    return base.replace(case["old"], case["new"], 1)


def cases_of(path):
    """The cases of a file: where it stands, its bytes, its answer."""
    whole = json.loads(path.read_bytes())
    if not whole["groups"]:
        sys.exit(f"{path.name} has no groups")
    for group in whole["groups"]:
        base = (DOCUMENTS / "bases" / group.get("base", whole["base"])).read_bytes().decode()
        if not group["cases"]:
            sys.exit(f"{path.name} has a group without cases: {group['title']}")
        for case in group["cases"]:
            yield f"{path.name}, {group['title']} {case['what']}", edited(case, base).encode(), case["answer"]
