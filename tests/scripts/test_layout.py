"""What check/layout finds: files out of layout, edits that fit nowhere or make what another one makes, crates that crates.txt does not name."""
import shutil
import unittest

from trees import run_over

EDITS = ("must-fail", "edits", "caught-by-tests", "early", "try-edits")
ONE = "pub fn one() -> u32 {\n    1\n}\n"
GOOD = f"{ONE}\n#[test]\nfn answer() {{}}\n"


@unittest.skipUnless(shutil.which("rt"), "there is no rt")
class LayoutTest(unittest.TestCase):
    """A crate with one edit in each folder of edits."""

    def found(self, code, old="    1", turns=9, crates=("one",)):
        """What is found in crates of this code, whose edits put so many different numbers in the place of a text."""
        files = {f"crates/{it}/src/lib.rt": code for it in crates} | {"crates.txt": "one:\n"}
        for number, it in enumerate(EDITS):
            files[f"tests/{it}/one/answer.edit"] = f"test: one answer\nfile: src/lib.rt\nold: {old}\nnew: {number % turns}\n"
        status, lines = run_over(files, "check/layout")
        return lines if status else []

    def test_a_file_out_of_layout_and_edits_that_fit_nowhere(self):
        found = self.found("pub   fn one() -> u32 { 1 }\n", old="5")
        self.assertEqual(sum("not in rt fmt's layout" in it for it in found), 1, found)
        self.assertEqual(sum("its old text stands 0 times" in it for it in found), len(EDITS), found)

    def test_an_edit_that_makes_what_another_one_makes(self):
        self.assertEqual(self.found(GOOD, turns=1), ["tests/edits/one/answer.edit: it makes what tests/must-fail/one/answer.edit makes"])

    def test_an_edit_whose_test_stands_nowhere(self):
        self.assertEqual(self.found(ONE), ["tests/caught-by-tests/one/answer.edit: one has no test answer"])

    def test_a_crate_that_is_not_named(self):
        self.assertEqual(self.found(GOOD, crates=("one", "two")), ["crates/two: crates.txt does not name it"])

    def test_nothing_is_found_where_all_is_right(self):
        self.assertEqual(self.found(GOOD), [])
