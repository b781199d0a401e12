"""`show`: plans in words, as a chart and as a page, over all examples and all plans of the tables."""
import json
import pathlib
import re
import tempfile
import unittest

import large
import report_cases
from fault_cases import FILES, cases_of
from fixtures import EXAMPLES, example, load, tools, written
from smplan.__main__ import MODULES, parser
from smplan.model import Spot, document_of, plan_of
from smplan.reading import document_faults, read_text
from smplan.show import painted, text_of
from smplan.story import Story, rounds_of

# The examples of which no plan is made, or that are not read.
WITHOUT = {"drain-without-a-place", "moves-too-close", "unknown-server"}


def documents_with_plans():
    """The documents of the examples and of the tables of reports that are read and have a plan."""
    for path in EXAMPLES:
        if "plan" in load(path):
            yield path.name, load(path)
    for where, _, text, _, _ in report_cases.written():
        read = read_text(text.encode())
        if not read.fault and not document_faults(read.value) and "plan" in read.value:
            yield where, read.value


class Text(unittest.TestCase):
    def test_each_example(self):
        for path in EXAMPLES:
            with self.subTest(path.name):
                done = tools("show", str(path))
                self.assertEqual(path.stem in WITHOUT, done.status != 0, done.err)
                report = path.with_suffix(".txt").read_text()
                if (path.with_suffix(".command").exists() and path.with_suffix(".command").read_text().strip() == "check"):
                    self.assertIn(f"smplan check: {report}", done.out)

    def test_each_step_of_each_plan_is_told_once(self):
        count = 0
        for where, value in documents_with_plans():
            document = document_of(value)
            for told in (Story(document.plan, document), Story(document.plan, None)):
                text = text_of(told)
                count += 1
                for number, stream in enumerate(document.plan.streams):
                    with self.subTest(where):
                        part = text.split(f"\nStream {number}: ")[1].split("\nStream ")[0]
                        self.assertEqual(len(stream.code), sum(line[:5].strip().isdigit() for line in part.splitlines()), part)
        self.assertGreater(count, 200)

    def test_what_a_drain_comes_to(self):
        out = tools("show", str(example("drain-berlin-1"))).out
        self.assertIn("Plan: 2 replicas to add, 2 to drop, 0 to change role; load 70 to copy", out)
        self.assertIn("      at most 2 copies at once, 2 at a server; load 40 is copied one after the other\n", out)
        self.assertIn("berlin-1  berlin   100    70      0    70  1 -> 0", out)
        self.assertIn("load 40 is copied one after the other, at least 10 s\n", tools("show", "--rate", "4", str(example("drain-berlin-1"))).out)
        self.assertIn("berlin-3  berlin   100     0     70    70", out)
        self.assertIn("1  prepare_drop  berlin-1 forwards requests for accounts to berlin-3", out)
        self.assertTrue(out.endswith("smplan check: accepted: calls 6 streams 2\n"))

    def test_signals_have_both_ends(self):
        out = tools("show", str(example("plan-two-streams"))).out
        self.assertIn("signal 0      hands on room 10 at oslo-1 to stream 1, instruction 0", out)
        self.assertIn("wait 0  until stream 0, instruction 5 hands on room 10 at oslo-1", out)

    def test_where_a_stream_breaks_off(self):
        out = tools("show", str(example("plan-drops-before-publishing"))).out
        self.assertIn("^ StillListed: the published map still lists oslo-1", out)

    def test_a_plan_by_itself_and_a_document_without_one(self):
        done = tools("show", text=json.dumps(load(example("plan-two-streams"))["plan"]))
        self.assertTrue(done.out.startswith("Plan: 2 streams, 6 calls to 3 servers, 2 shards, 1 signal\n"), done.out)
        done = tools("show", str(example("placement")))
        self.assertTrue(done.out.startswith("No plan: 3 servers, 3 shards\n"), done.out)

    def test_why_there_is_no_plan(self):
        done = tools("show", str(example("drain-without-a-place")))
        self.assertEqual((1, ""), (done.status, done.out))
        self.assertIn("no plan: 6 NoPlace shard accounts", done.err)

    def test_a_terminal_has_colours(self):
        text = painted("  +  orders    at a  secondary\n  -  orders    at b  secondary\n\nsmplan check: refused: 5 Stuck positions 0\n    0  add  +")
        self.assertEqual(["32", "31", "31"], re.findall(r"\033\[(3\d)m", text))

    def test_each_plan_of_a_list(self):
        out = tools("show", str(example("play-two-plans"))).out
        self.assertEqual(3, out.count("== plan "))


class Campaigns(unittest.TestCase):
    """Several documents, one a line, each of the placement that the plan before leaves."""

    def setUp(self):
        self.text = tools("drain", str(example("drain-berlin-1")), "berlin-1", "--batch", "1").out

    def test_what_plans_come_to_together_stands_first(self):
        out = tools("show", "--summary", "--rate", "10", text=self.text).out
        self.assertTrue(out.startswith(
            "Campaign: 2 replicas to add, 2 to drop, 0 to change role; load 70 to copy\n"
            "          2 plans, 6 calls\n"
            "          at most 1 copy at once, 1 at a server; load 70 is copied one after the other, at least 7 s\n\n"
            "  server    region  room  load  after  most  primaries\n"
            "  berlin-1  berlin   100    70      0    70  1 -> 0\n"
            "  berlin-2  berlin   100    40     70    70  1 -> 2\n"
            "  berlin-3  berlin   100     0     40    40  0\n\n"
            "Plan: 1 replica to add, 1 to drop"), out)
        self.assertEqual(2, tools("show", text=self.text).out.count("== plan "))

    def test_a_page_has_them_too(self):
        with written(self.text) as path, tempfile.TemporaryDirectory() as folder:
            page = pathlib.Path(folder) / "page.html"
            self.assertEqual(0, tools("show", "--html", str(page), "--rate", "8", path).status)
            text = page.read_text()
        self.assertEqual(["document.json", "document.json: plan 0", "document.json: plan 1"], re.findall("<h1>(.*?)</h1>", text))
        self.assertEqual(["9", "4", "5"], re.findall('<b>([0-9]*)</b><span>seconds at least', text))
        self.assertIn('<td class="number">1 → 2</td>', text.split("<article")[1])

    def test_plans_of_one_document_are_no_campaign(self):
        self.assertNotIn("Campaign", tools("show", str(example("play-two-plans"))).out)

    def test_each_line_is_read(self):
        done = tools("show", text=self.text + "{")
        self.assertEqual((2, ""), (done.status, done.out))
        self.assertIn("standard input, line 3: bad input: 2 NotJson", done.err)
        self.assertEqual(tools("show", text=self.text).out, tools("show", text=self.text.replace("\n", "\n\n")).out)


class Rounds(unittest.TestCase):
    def test_rounds_keep_the_order_of_streams_and_signals(self):
        plan = document_of(load(example("plan-two-streams"))).plan
        rounds = rounds_of(plan)
        self.assertEqual([[Spot(0, at)] for at in range(6)] + [[Spot(1, at)] for at in range(3)], rounds)
        wired = plan_of(large.wired()["plan"])
        at = {spot: number for number, spots in enumerate(rounds_of(wired)) for spot in spots}
        self.assertEqual(sum(len(it.code) for it in wired.streams), len(at))
        for signal in range(len(wired.signals)):
            self.assertLess(at[wired.spots("signal", signal)[0]], at[wired.spots("wait", signal)[0]])

    def test_the_end_is_that_of_the_program(self):
        for name in ("run-handover", "run-two-streams", "run-after-a-crash", "run-secondary-becomes-primary"):
            with self.subTest(name):
                document = document_of(load(example(name)))
                story = Story(document.plan, document)
                after = story.after
                report = json.loads(tools("json", str(example(name).with_suffix(".txt"))).out)
                self.assertEqual({it["name"]: it["load"] for it in report["servers"]}, after.loads)
                self.assertEqual({name: after.loads[name] for name in story.servers_touched()}, story.loads[-1])
                for shard in report["shards"]:
                    self.assertEqual({it["server"]: it["state"] for it in shard["cells"]}, after.cells[shard["name"]])
                    self.assertEqual((shard["listed"], shard["live"]), (after.listed[shard["name"]], len(after.live(shard["name"]))))


class Handovers(unittest.TestCase):
    def test_one_replica_is_live_while_the_old_server_forwards(self):
        value = load(example("plan-handover"))
        lives = []
        for count in range(6):
            value["plan"]["streams"][0]["code"] = load(example("plan-handover"))["plan"]["streams"][0]["code"][:count]
            document = document_of(value)
            lives.append(Story(document.plan, document).after.live("sessions"))
        self.assertEqual([["oslo-1"], ["oslo-1"], ["berlin-2"], ["berlin-2"], ["berlin-2"], ["berlin-2"]], [sorted(it) for it in lives])


class Pages(unittest.TestCase):
    def page(self, path):
        with tempfile.TemporaryDirectory() as folder:
            page = pathlib.Path(folder) / "page.html"
            done = tools("show", "--html", str(page), path)
            self.assertEqual((0, ""), (done.status, done.out), done.err)
            return page.read_text()

    def test_each_example_has_a_page(self):
        for path in EXAMPLES:
            if path.stem != "unknown-server":
                with self.subTest(path.name):
                    text = self.page(str(path))
                    self.assertNotRegex(text, r'(src|href)="')
                    self.assertIn(path.name, text)

    def test_a_heading_is_text(self):
        with tempfile.TemporaryDirectory() as folder:
            page = pathlib.Path(folder) / "page.html"
            tools("show", "--html", str(page), "--title", "<b>a & b</b>", str(example("placement")))
            self.assertIn("<h1>&lt;b&gt;a &amp; b&lt;/b&gt;</h1>", page.read_text())

    def test_a_file_that_cannot_be_written(self):
        done = tools("show", "--html", "/no/such/folder/page.html", str(example("placement")))
        self.assertEqual(2, done.status)
        self.assertIn("/no/such/folder/page.html", done.err)


class Charts(unittest.TestCase):
    def test_each_step_is_a_node_and_each_signal_an_arrow(self):
        out = tools("show", "--mermaid", str(example("moves-in-a-chain"))).out
        self.assertTrue(out.startswith("flowchart LR\n"))
        self.assertEqual(3, out.count("subgraph "))
        self.assertIn('s0_5 -. "signal 0: room 10 at oslo-1" .-> s1_0', out)
        self.assertIn('s1_3 -. "signal 1: room 10 at berlin-1" .-> s2_0', out)


class CommandLine(unittest.TestCase):
    def test_help_names_each_command(self):
        out = tools("--help").out
        for command in ("show", "explain", "put-plan", "next", "json", "ask-restart", "repair", "demote", "drain", "balance", "scale", "reach", "undo"):
            self.assertIn(f"    {command}", out)
            done = tools(command, "--help")
            self.assertEqual((0, True), (done.status, "example: " in done.out), command)
        self.assertTrue(parser() and MODULES)

    def test_what_is_no_command(self):
        self.assertEqual([2, 2, 2], [tools(*it).status for it in ([], ["chat"], ["show", "a", "b"])])

    def test_a_file_that_is_not_there(self):
        done = tools("show", "/no/such/file.json")
        self.assertEqual((2, "smplan-tools: /no/such/file.json: No such file or directory\n"), (done.status, done.err))

    def test_each_fault_of_the_tables_keeps_a_document_from_being_shown(self):
        for path in FILES:
            for where, text, answer in cases_of(path):
                with self.subTest(where), tempfile.TemporaryDirectory() as folder:
                    file = pathlib.Path(folder) / "document.json"
                    file.write_bytes(text)
                    done = tools("show", "--program", "/no/such/program", str(file))
                    if answer:
                        self.assertEqual((2, ""), (done.status, done.out))
                        self.assertIn(f"bad input: {answer}: ", done.err)
                    else:
                        # (if it has moves and no plan, the program is missed)
                        self.assertIn(done.status, (0, 3), done.err)

    def test_a_document_with_a_fault_is_not_shown(self):
        with written({"limit": 1, "servers": [], "shards": [], "drain": "a"}) as path:
            done = tools("show", path)
        self.assertEqual(2, done.status)
        self.assertIn("bad input: 4 UnknownName drain: $.drain: no server is named 'a'", done.err)
