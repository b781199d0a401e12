"""`put-plan`, `next`, `json` and `ask-restart`."""
import json
import unittest

from fixtures import EXAMPLES, example, load, program, tools, written


class PutPlan(unittest.TestCase):
    def test_a_plan_that_was_made_is_accepted_in_its_document(self):
        done = tools("put-plan", str(example("drain-berlin-1")), text=example("drain-berlin-1").with_suffix(".txt").read_text())
        self.assertEqual((0, ""), (done.status, done.err))
        self.assertEqual("accepted: calls 6 streams 2\n", program("check", json.loads(done.out)))

    def test_the_reason_why_there_is_no_plan_is_told(self):
        done = tools("put-plan", str(example("drain-without-a-place")), text="no plan: 6 NoPlace shard accounts\n")
        self.assertEqual((1, ""), (done.status, done.out))
        self.assertIn("no plan: 6 NoPlace shard accounts", done.err)

    def test_a_plan_of_another_document_is_refused(self):
        plan = json.loads(example("moves-in-a-chain").with_suffix(".txt").read_text())
        done = tools("put-plan", str(example("placement")), text=json.dumps(plan))
        self.assertEqual(1, done.status)
        self.assertIn("no shard is named 'invoices'", done.err)

    def test_the_other_members_stay(self):
        value = load(example("drain-berlin-1"))
        done = tools("put-plan", "--pretty", str(example("drain-berlin-1")), text=json.dumps({"budget": 0, "streams": []}))
        self.assertEqual(value | {"plan": {"budget": 0, "streams": []}}, json.loads(done.out))


class Next(unittest.TestCase):
    def test_the_placement_at_the_end_of_a_run_is_the_next_document(self):
        for name in ("run-handover", "run-two-streams", "run-after-a-crash", "run-secondary-becomes-primary"):
            with self.subTest(name):
                report = example(name).with_suffix(".txt").read_text()
                done = tools("next", str(example(name)), text=report)
                self.assertEqual((0, ""), (done.status, done.err))
                lines = [it for it in report.splitlines() if it.startswith(("server ", "shard ", "  "))]
                wanted = [it.rsplit(" version ", 1)[0] for it in lines]
                printed = program("calls", json.loads(done.out) | {"calls": []}).splitlines()
                self.assertEqual(wanted, [it.rsplit(" version ", 1)[0] for it in printed])

    def test_a_shard_in_a_handover_has_no_document(self):
        done = tools("next", str(example("half-a-handover")), text=example("half-a-handover").with_suffix(".txt").read_text())
        self.assertEqual(1, done.status)
        self.assertIn("sessions is in a handover (berlin-2 is prepared from oslo-1, oslo-1 is forwarding to berlin-2)", done.err)

    def test_a_report_without_a_placement_or_of_another_document(self):
        refused = tools("next", str(example("plan-over-its-budget")), text="refused: 2 Budget streams 4 plan 3\n")
        self.assertIn("refused: 2 Budget streams 4 plan 3", refused.err)
        other = tools("next", str(example("placement")), text=example("run-after-a-crash").with_suffix(".txt").read_text())
        self.assertEqual([1, 1], [refused.status, other.status])


class Json(unittest.TestCase):
    def test_each_line_of_each_example_is_read(self):
        for path in EXAMPLES:
            with self.subTest(path.name):
                done = tools("json", str(path.with_suffix(".txt")))
                self.assertEqual((0, ""), (done.status, done.err))

    def test_what_stands_in_a_report(self):
        value = json.loads(tools("json", str(example("play-restarts").with_suffix(".txt"))).out)
        self.assertEqual({"event": 4, "answer": "denied 4 ShardCap shard sessions"}, value["events"][4])
        self.assertEqual({"name": "oslo-1", "room": 60, "load": 40, "state": "up"}, value["servers"][2])
        self.assertEqual([{"server": "oslo-1", "state": "primary"}], value["shards"][2]["cells"])
        handover = json.loads(tools("json", str(example("half-a-handover").with_suffix(".txt"))).out)
        self.assertEqual({"server": "berlin-2", "state": "prepared", "other": "oslo-1", "number": 1}, handover["shards"][2]["cells"][0])

    def test_a_server_named_none_is_told_from_no_server(self):
        with written("shard s live 1 floor 0 listed none version 0\n  none primary\nshard t live 0 floor 0 listed none version 0\n") as path:
            value = json.loads(tools("json", path).out)
        self.assertEqual(["none", None], [it["listed"] for it in value["shards"]])

    def test_what_is_no_report(self):
        done = tools("json", text="hello\n")
        self.assertEqual(2, done.status)
        self.assertIn("line 1 is no line of a report", done.err)


class AskRestart(unittest.TestCase):
    def ask(self, name, server):
        done = tools("ask-restart", str(example(name)), server)
        return done.status, done.out.split(":")[0]

    def test_approved_and_denied(self):
        self.assertEqual((0, "approved"), self.ask("placement", "berlin-2"))
        self.assertEqual((1, "denied 4 ShardCap shard sessions"), self.ask("placement", "oslo-1"))
        self.assertEqual((1, "denied 2 Engaged stream 0"), self.ask("play-restart-beside-a-plan", "oslo-1"))

    def test_shards_that_nobody_serves_meanwhile(self):
        told = tools("ask-restart", str(example("placement")), "berlin-2").out
        self.assertIn("clients of orders wait meanwhile: berlin-2 leads; 'smplan-tools demote' makes others lead first", told)
        demoted = json.loads(tools("demote", str(example("placement")), "berlin-2").out)
        with written(demoted) as path, written(program("run", demoted)) as report, written(tools("next", path, report).out) as after:
            self.assertNotIn("wait meanwhile", tools("ask-restart", after, "berlin-2").out)

    def test_the_numbers_behind_a_denial(self):
        value = load(example("placement")) | {"log": 1}
        with written(value) as path:
            self.assertIn("the log of 1 places has no two free ones", tools("ask-restart", path, "berlin-2").out)
        value = load(example("placement")) | {"events": [{"event": "approve", "server": "berlin-2"}]}
        with written(value) as path:
            self.assertIn("limit of 1 servers down at once is reached (down: berlin-2)", tools("ask-restart", path, "berlin-1").out)
            self.assertIn("berlin-2 is down already", tools("ask-restart", path, "berlin-2").out)
        self.assertIn("live 1, floor 1", tools("ask-restart", str(example("placement")), "oslo-1").out)

    def test_an_unknown_server(self):
        done = tools("ask-restart", str(example("placement")), "oslo1")
        self.assertEqual(2, done.status)
        self.assertIn("did you mean 'oslo-1'?", done.err)

    def test_a_program_that_is_not_there(self):
        done = tools("ask-restart", "--program", "/no/such/program", str(example("placement")), "oslo-1")
        self.assertEqual(3, done.status)
        self.assertIn("/no/such/program", done.err)
