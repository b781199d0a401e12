"""What is packed beside the programs: the figures that alerts and the dashboard name are told by a controller or a gate, with these labels; the ports
are where the pages say; each command of smplan-control has an example and its exit statuses."""
import asyncio
import json
import os
import re
import subprocess
import sys
import tempfile
import unittest
from collections import defaultdict
from pathlib import Path
from types import SimpleNamespace
from typing import Dict, List, Set

from fixtures import ROOT
from smplan import control_commands
from smplan.control import DONE, Controller, Outgoing, Session
from smplan.control_run import Running, Settings
from smplan.control_run_etcd import AmongOthers, EtcdSettings
from smplan.gate import Word, metrics_of
from test_control_tools import STATES

PACKAGING = ROOT / "packaging"

# The labels that Prometheus itself adds, and those of a histogram.
EVERYWHERE = {"instance", "job", "le"}


async def pages() -> List[str]:
    """What one controller tells, one of several, and a gate, each with something to tell."""
    found = []
    with tempfile.TemporaryDirectory() as folder:
        (Path(folder) / "fleet.json").write_text('{"servers":{},"map":{"file":"map.json"}}')
        settings = Settings(f"{folder}/fleet.json", (sys.executable, "-c", STATES, f"{folder}/fleet.json"), "127.0.0.1", 0)
        for it in (Running(settings), AmongOthers(settings, EtcdSettings(("http://127.0.0.1:1",), "k0"))):
            session = await Session.start(settings.program)
            it.controller = Controller(session, it.fleet, lambda lines: lines)
            it.controller.outgoing["order", 0, 0] = Outgoing({"server": "b"})
            it.controller.answers["order", DONE] += 1
            it.controller.counts["appends"] += 1
            found.append((await it.metrics(b"")).body.decode())
            await session.close()
            it.fleet.close()
    gate = SimpleNamespace(counts=SimpleNamespace(answers={("script", Word.YES): 1}, seconds=0.1), store=SimpleNamespace(held={}), clock=lambda: 0.0)
    return [*found, metrics_of(gate)]


def told() -> Dict[str, Set[str]]:
    """The figures that are told, each with its labels. One of which there is no sample has none."""
    found: Dict[str, Set[str]] = defaultdict(set)
    for page in asyncio.run(pages()):
        for line in page.splitlines():
            name = re.sub(r"_(bucket|sum|count)$", "", re.match(r"(?:# TYPE )?(\w+)", line)[1]) if not line.startswith("# HELP") else None
            if name:
                found[name] |= set(re.findall(r'(\w+)="', line))
    return found


class Figures(unittest.TestCase):
    @classmethod
    def setUpClass(cls) -> None:
        cls.told = told()

    def check(self, text: str, least: int) -> None:
        """Each figure is there, and so is each label of an expression at one of its figures."""
        names = {re.sub(r"_bucket$", "", it) for it in re.findall(r"smplan_[a-z_]+", text)}
        self.assertGreaterEqual(len(names), least)
        for it in names:
            self.assertIn(it, self.told)
        labels = {it for group in re.findall(r"\bby \(([^)]*)\)", text) for it in group.split(", ")} | set(re.findall(r"[{,](\w+)=", text))
        self.assertLessEqual(labels, set().union(EVERYWHERE, *(self.told[it] for it in names)), text)

    def test_what_is_told_of_a_journal(self) -> None:
        for it in ("appends_total", "append_failures_total", "journal_bytes", "journal_lines", "journal_age_seconds"):
            self.assertIn(f"smplan_{it}", self.told)
        self.assertEqual(self.told["smplan_answers_total"], {"kind", "said"})

    def test_alerts(self):
        text = (PACKAGING / "alerts.yml").read_text()
        rules = re.findall(r"^    expr: (.*)$", text, re.MULTILINE)
        self.assertGreaterEqual(len(rules), 13)
        for it in rules:
            self.check(it, 1)
        for rule in text.split("- alert: ")[1:]:
            named = set(re.findall(r"\$labels\.(\w+)", rule))
            self.assertLessEqual(named, {it for group in re.findall(r"\bby \(([^)]*)\)", rule) for it in group.split(", ")}, rule)
        self.assertEqual(text.count("- alert: "), len(re.findall(r"^    expr: \S", text, re.MULTILINE)))

    def test_dashboard(self):
        board = json.loads((PACKAGING / "dashboard.json").read_text())
        for it in board["panels"]:
            for target in it["targets"]:
                self.check(target["expr"], 1)
            place = it["gridPos"]
            self.assertLessEqual(place["x"] + place["w"], 24)
        self.assertEqual(len(board["panels"]), len({it["id"] for it in board["panels"]}))

    def test_the_package_of_python(self):
        text = (ROOT / "python" / "pyproject.toml").read_text()
        for name, module in re.findall(r'^(smplan-\w+) = "([\w.]+):main"$', text, re.MULTILINE):
            self.assertIn(f"{name}:{module.replace('.__main__', '')}", (ROOT / "scripts/build/install-tree").read_text())
        self.assertEqual(2, text.count(":main"))


class Installed(unittest.TestCase):
    """What scripts/build/install-tree puts below a prefix, and what commands say of themselves."""

    def test_the_ports_to_go_and_rust(self):
        with tempfile.TemporaryDirectory() as folder:
            stub = Path(folder) / "stub"
            stub.write_text("#!/bin/sh\necho usage\n")
            stub.chmod(0o755)
            subprocess.run([ROOT / "scripts/build/install-tree", f"{folder}/tree", "/usr"], check=True, capture_output=True, env={**os.environ, "SMPLAN": str(stub), "SMPLAND": ""})
            at = Path(folder) / "tree/usr/share/smplan/ports"
            found = {str(it.relative_to(at)) for it in at.rglob("*") if it.is_file()}
        sources = {str(it.relative_to(ROOT / "ports")) for port in ("go", "rust") for it in (ROOT / "ports" / port).rglob("*") if it.is_file()}
        self.assertEqual(found, {it for it in sources if not it.endswith("_test.go")})
        self.assertLess({"go/go.mod", "go/agent.go", "go/server/server.go", "go/examples/kv/main.go", "rust/agent.rs"}, found)
        self.assertIn("(cd /usr/share/smplan/ports/go; go build", (ROOT / "docs/CONTROLLER.md").read_text())

    def test_each_command_has_an_example_and_its_exit_statuses(self):
        commands = next(it.choices for it in control_commands.parser()._actions if isinstance(it.choices, dict))
        self.assertLess({"run", "begin", "state", "restart", "reopen", "resize", "add-server", "remove-server", "add-shard", "remove-shard", "repair", "rotate", "controllers", "drain", "watch", "metrics", "audit-journal", "gate"}, set(commands))
        for name, parser in commands.items():
            text = " ".join(parser.format_help().split())
            with self.subTest(name):
                self.assertRegex(text, "[Ee]xample:? ")
                self.assertIn("Exit status", text)
        for name in ("begin", "state", "restart", "reopen", "resize", "add-server", "remove-server", "add-shard", "remove-shard", "repair", "rotate", "controllers", "drain", "watch"):
            self.assertIn("--json", commands[name].format_help(), name)
