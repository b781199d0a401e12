"""The plan that the program makes of each document that has one, of the examples and of tests/documents/reports, is put into the document as its plan:
`check` accepts it."""
import json

from programs import CasesTest, printed_by
from report_cases import ROOT, written


def examples():
    """The examples that get a plan: the name of each, and its text."""
    for command in sorted((ROOT / "examples").glob("*.command")):
        if command.read_text().strip() == "plan" and not command.with_suffix(".status").exists():
            yield command.stem, command.with_suffix(".json").read_text()


def cases():
    """The cases that get a plan: where each stands, and its text."""
    for where, command, text, _, status in written():
        if command == "plan" and status == 0:
            yield where, text


def told(case):
    """What is said of the plan that is made for a document, if it is not accepted in it."""
    _, text = case
    made, _ = printed_by("plan", text.encode())
    answer, _ = printed_by("check", json.dumps(json.loads(text) | {"plan": json.loads(made)}).encode())
    return None if answer.startswith("accepted: ") else answer


class PlansTest(CasesTest):
    """Plans of the program, checked by it."""

    def test_plans_of_examples(self):
        self.compare(told, examples())

    def test_plans_of_reports(self):
        self.compare(told, cases())
