"""What lib/report_lines.py finds: lines of which there is no case, and lines that have no form."""
import unittest

from report_lines import wrong


class ReportLinesTest(unittest.TestCase):
    """The examples and the faults, without the cases of reports."""

    def test_a_line_without_a_case_and_one_without_a_form(self):
        found = {*wrong([("calls", "call 0: perhaps")])}
        self.assertIn("play: no case has a line 'plan K: refused: 5 Stuck positions P'", found)
        self.assertIn("calls: no form has the line 'call 0: perhaps'", found)
