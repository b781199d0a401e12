"""What the tools say to a slip of the command line, and what scripts/smplan adds on a terminal."""
import os
import pathlib
import pty
import shutil
import subprocess
import tempfile
import unittest
from typing import Tuple

from fixtures import PROGRAM, ROOT, example, lines_of, tools, written


class Slips(unittest.TestCase):
    def test_the_nearest_command_is_named(self):
        for words, meant in [(("expain",), "explain"), (("import", "kubernets"), "kubernetes"), (("explain", "--command", "chek"), "check")]:
            done = tools(*words)
            self.assertEqual(2, done.status)
            self.assertIn(f"did you mean '{meant}'?", done.err)
        self.assertNotIn("did you mean", tools("zzz").err)

    def test_a_document_and_a_server_that_changed_places(self):
        done = tools("ask-restart", "berlin-2", str(example("placement")))
        self.assertEqual((2, f"smplan-tools: the document comes first: smplan-tools ask-restart {example('placement')} berlin-2\n"), (done.status, done.err))

    def test_texts_that_are_no_json(self):
        for text, told in [("", "the input is empty"), (" \n", "the input is empty"), ("{ // limit\n}", "a comment, which JSON has not"), ('{"limit":1,\n# more\n}', "line 2, column 1")]:
            with written(text) as path:
                done = tools("explain", path)
            self.assertEqual(1, done.status)
            self.assertIn(told, done.out)
            self.assertIn("(bad input: 2 NotJson)", done.out)

    def test_a_summary_has_no_replicas_and_no_steps(self):
        whole = lines_of(tools("show", "--program", PROGRAM, str(example("plan-two-streams"))).out)
        short = lines_of(tools("show", "--program", PROGRAM, "--summary", str(example("plan-two-streams"))).out)
        self.assertEqual([*whole[:3], "", *whole[whole.index("  server    region  room  load  after  most  primaries"):][:4], "", whole[-1]], short)
        placement = lines_of(tools("show", "--summary", str(example("placement"))).out)
        self.assertEqual(("No plan: 3 servers, 3 shards", 6), (placement[0], len(placement)))


class Terminal(unittest.TestCase):
    """scripts/smplan, with a terminal as its standard error."""

    def run_script(self, name: str, *words: str, is_terminal: bool = True, place: str = "build") -> Tuple[str, str, int]:
        with tempfile.TemporaryDirectory(prefix="smplan-terminal-") as folder:
            for part in ("scripts", place):
                (pathlib.Path(folder) / part).mkdir(parents=True)
            shutil.copy(ROOT / "scripts" / "smplan", f"{folder}/scripts")
            os.symlink(PROGRAM, f"{folder}/{place}/smplan")
            ours, theirs = pty.openpty()
            done = subprocess.run([f"{folder}/scripts/smplan", *words], input=example(name).read_bytes(), stdout=subprocess.PIPE, stderr=theirs if is_terminal else subprocess.PIPE, check=False)
            os.write(theirs, b"end\n")
            told = b""
            while not told.endswith(b"end\r\n"):
                told += os.read(ours, 4096)
            os.close(ours)
            os.close(theirs)
        return done.stdout.decode(), told.decode().replace("\r\n", "\n")[:-len("end\n")], done.returncode

    def test_a_refusal_leads_to_explain(self):
        out, told, status = self.run_script("unknown-server", "calls")
        self.assertEqual(("bad input: 4 UnknownName server\n", 2), (out, status))
        self.assertIn("smplan-tools explain FILE", told)
        out, told, status = self.run_script("drain-without-a-place", "plan")
        self.assertEqual((example("drain-without-a-place").with_suffix(".txt").read_text(), 1), (out, status))
        self.assertIn("smplan-tools explain FILE", told)

    def test_an_installed_program_is_the_first(self):
        self.assertEqual(("bad input: 4 UnknownName server\n", 2), self.run_script("unknown-server", "calls", place="lib/smplan")[::2])

    def test_a_file_as_a_word(self):
        out, told, status = self.run_script("placement", "calls", str(example("placement")))
        self.assertEqual(("", 2), (out, status))
        self.assertIn(f"smplan calls < {example('placement')}", told)

    def test_nothing_is_added_elsewhere(self):
        self.assertEqual("", self.run_script("placement", "calls")[1])
        self.assertEqual(("bad input: 4 UnknownName server\n", "", 2), self.run_script("unknown-server", "calls", is_terminal=False))
