"""The faults that the tools find in documents."""
import unittest

from fault_cases import FILES, cases_of
from fixtures import EXAMPLES, ROOT, load
from smplan.faults import FaultKind, answered
from smplan.limits import MOST_BYTES
from smplan.reading import document_faults, need_faults, plan_faults, read_text

EVERY_MEMBER = ROOT / "tests/documents/every-member.json"


def faults_of(text):
    read = read_text(text)
    return [read.fault] if read.fault else document_faults(read.value)


class Faults(unittest.TestCase):
    def test_each_fault_of_the_tables_is_the_one_that_the_program_names(self):
        cases = [case for path in FILES for case in cases_of(path)]
        self.assertGreater(len(cases), 400)
        for where, text, answer in cases:
            with self.subTest(where):
                fault = answered(faults_of(text))
                self.assertEqual(answer and f"bad input: {answer}", fault and fault.line)

    def test_no_fault_is_found_in_good_documents(self):
        for path in [EVERY_MEMBER, *(it for it in EXAMPLES if it.stem != "unknown-server")]:
            with self.subTest(path.name):
                self.assertEqual([], faults_of(path.read_bytes()))

    def test_all_faults_are_found_and_not_the_lowest_alone(self):
        value = load(ROOT / "examples/placement.json")
        value["servers"][0]["room"] = -1
        value["shards"][0]["listed"] = "berlin1"
        del value["limit"]
        self.assertEqual(["$", "$.servers[0].room", "$.shards[0].listed"], [it.place for it in document_faults(value)])

    def test_a_name_that_is_close_is_suggested(self):
        value = load(ROOT / "examples/placement.json")
        value["shards"][0]["listed"] = "berlin1"
        self.assertEqual("no server is named 'berlin1'; did you mean 'berlin-1'?", document_faults(value)[0].what)

    def test_a_misspelt_member_has_its_place_and_a_suggestion(self):
        value = load(ROOT / "examples/placement.json") | {"events": [{"event": "approve", "sever": "berlin-1"}]}
        found = document_faults(value)
        self.assertEqual(("$.events[0].sever", "no member is named 'sever' here; did you mean 'server'?"), (found[0].place, found[0].what))

    def test_a_text_that_is_no_json_has_a_line_and_a_column(self):
        fault = read_text(b'{\n  "limit": 1,\n  "servers": [}\n').fault
        self.assertEqual((FaultKind.NOT_JSON, "line 3, column 15"), (fault.kind, fault.place))

    def test_a_text_of_too_many_bytes(self):
        self.assertEqual("bad input: 7 TooLong", read_text(b" " * (MOST_BYTES + 1)).fault.line)

    def test_how_deep_values_nest(self):
        for depth, answer in [(127, "bad input: 3 Shape document"), (128, "bad input: 2 NotJson"), (100_000, "bad input: 2 NotJson")]:
            with self.subTest(depth):
                self.assertEqual(answer, answered(faults_of(b"[" * depth + b"]" * depth)).line)
        self.assertEqual("bad input: 3 Shape document", answered(faults_of(b'["' + b"[" * 200 + b'"]')).line)

    def test_a_document_that_is_cut_or_has_a_byte_that_no_text_has(self):
        whole = (ROOT / "tests/documents/bases/placement.json").read_bytes()
        for at in range(len(whole)):
            self.assertEqual("bad input: 2 NotJson", answered(faults_of(whole[:at])).line)
            self.assertEqual("bad input: 2 NotJson", answered(faults_of(whole[:at] + b"\xff" + whole[at + 1 :])).line)

    def test_a_plan_by_itself_may_name_any_server(self):
        plan = load(ROOT / "examples/plan-two-streams.json")["plan"]
        self.assertEqual([], plan_faults(plan))
        plan["streams"][0]["code"][0]["do"] = "prepare"
        self.assertEqual("$.streams[0].code[0].do", plan_faults(plan)[0].place)

    def test_what_each_command_needs(self):
        value = {"limit": 0, "servers": [], "shards": []}
        lines = [need_faults(value, command)[0].line for command in ("calls", "check", "play", "plan", "run")]
        self.assertEqual([f"bad input: 3 Shape {it}" for it in ("calls", "plan", "events", "moves", "plan")], lines)
        self.assertEqual("bad input: 3 Shape drain", need_faults(value | {"moves": [], "drain": "a"}, "plan")[0].line)
        self.assertEqual("bad input: 3 Shape plans", need_faults(value | {"plan": {}, "plans": []}, "play")[0].line)
