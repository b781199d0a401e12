"""What check/lemmas finds: definitions and cited lemmas without a line on what they say, and lemmas that nothing cites."""
import re
import unittest

from trees import found_by, run_over

# A file of definitions, four of which have no line: below the file's head, below the title of a section, not public, and of data.
DEFINED = """-- Sums.
abbrev pub sum : ℕ → ℕ
sum n = n

-- ---- numbers that are sums
pub record IsSum (k : ℕ) : Type 0 where
  pub by : ℕ

twice : ℕ → ℕ
twice n = once n + once n
  where
    once : ℕ → ℕ
    once n = n

pub data Kind : Type 0 where
  Odd : Kind

-- the first two numbers
abbrev pub one : ℕ
one = 1
unfoldable two : ℕ
two = 2
"""
# A file of lemmas: four without a line that other files cite, and one that none cites.
CITED = """-- Sums.
use Rattle.one.specs.Sums.{sum}

pub by_import : sum 0 ≡ 0
by_import = refl

abbrev pub by_whole : ℕ
by_whole = 0

module _ (n : ℕ) where
  pub in_module : sum n ≡ n
  in_module = refl

  pub record IsSum (k : ℕ) : Type 0 where
    pub by_nobody : sum k ≡ n

pub by-using : sum 1 ≡ 1
by-using = refl

pub by_nobody : sum 2 ≡ 3
by_nobody = refl
"""
CITING = {
    "one/proofs/Loads.antt": "use Rattle.one.proofs.Sums.{by_import as first, in_module}\n",
    "two/proofs/Loads.antt": "use Rattle.one.proofs.Sums as sums\n\nload : ℕ\nload = sums.by_whole\n",
    "two/src/lib.rt": "#[tactic(auto, using(one::proofs::Sums::by-using))]\n",
}


def told(text):
    """A text in which each item has a line on what it says."""
    return re.sub(r"(?m)^( *)((?:abbrev )?pub \w|twice :)", r"\n\1-- of a sum\n\1\2", text)


def tree(defined, cited):
    return {f"crates/{path}": text for path, text in {"one/specs/Sums.antt": defined, "one/proofs/Sums.antt": cited, **CITING}.items()}


class LemmasTest(unittest.TestCase):
    """Lines on what definitions and lemmas say."""

    def names(self, defined, cited):
        """The status, and the names of what has no line."""
        status, lines = found_by("check/lemmas", tree(defined, cited))
        return status, [line.split("`")[1] for line in lines]

    def test_definitions_without_a_line(self):
        self.assertEqual(self.names(DEFINED, told(CITED)), (1, ["sum", "IsSum", "twice", "Kind"]))

    def test_lemmas_without_a_line(self):
        self.assertEqual(self.names(told(DEFINED), CITED), (1, ["by_import", "by_whole", "in_module", "by-using"]))

    def test_all_has_a_line(self):
        self.assertEqual(self.names(told(DEFINED), told(CITED)), (0, []))

    def test_lemmas_that_nothing_cites(self):
        status, lines = run_over(tree(DEFINED, CITED), "check/lemmas", "--uncited")
        self.assertEqual((status, [re.findall("`(.*)`", it) for it in lines]), (0, [["by_nobody"], []]))
