"""The cases of tests/documents/reports: a case puts new texts in the place of the first old ones in its base, a text of tests/documents/bases,
or is a text of its own. A long text, or a long line of a report, stands in pieces, as a list of texts. A group has one command and one base, or
a list of those that each of its cases is given to, where `before` is what stands before each line of the report then."""
import json
import pathlib
import sys

ROOT = pathlib.Path(__file__).resolve().parents[2]


def text_of(case, base):
    if set(case) == {"what", "text", "report", "status"}:
        return "".join(case["text"])
    if set(case) != {"what", "edits", "report", "status"} or base is None:
        sys.exit(f"no case: {case}")
    for pair in case["edits"]:
        old, new = map("".join, pair)
        if old not in base:
            sys.exit(f"{old} is not in the base: {case['what']}")
        base = base.replace(old, new, 1)
    return base


def cases_of(group):
    """The cases of a group, for each command that they are given to: what each is about, the command, its text, its report and its status."""
    for given in group["given"] if "given" in group else [group]:
        base = (ROOT / "tests/documents/bases" / given["base"]).read_text() if "base" in given else None
        for case in group["cases"]:
            report = "".join(f"{given.get('before', '')}{''.join(line)}\n" for line in case["report"])
            yield case["what"], given["command"], text_of(case, base), report, case["status"]


def written():
    """The cases of the files: where each stands, its command, its text, its report and its status."""
    for path in sorted((ROOT / "tests/documents/reports").glob("*.json")):
        for group in json.loads(path.read_bytes())["groups"]:
            for what, *case in cases_of(group):
                yield f"{path.name}: {what}", *case
