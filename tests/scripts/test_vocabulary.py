"""What check/vocabulary finds: words of which a module's head says nothing, and what is not so."""
import unittest

from trees import found_by

# A module's head and its words, each with what it is, in which all is said; then one that says nothing, too little, and what is not so.
STEP = "-- Numbers.\n-- `{}` is a step of the code's own way, which private functions' contracts cite: whoever reads the public ones need not read it.\n"
MODULES = {
    "One": (STEP.format("own"), {"one": "below", "below": "1", "own": "below"}),
    "Others": ("-- Public contracts cite `first` to `last`. The others are the code's own: whoever reads the public ones\n-- need not read them.\n", {"first": "last", "middle": "first", "last": "middle", "rest": "1"}),
    "Whole": ("-- Steps of the code's own way: whoever reads public contracts need not read them.\n", {"whole": "1"}),
    "Silent": ("-- Numbers.\n", {"silent": "1"}),
    "Partly": (STEP.format("other"), {"partly": "1", "other": "1", "unsaid": "1"}),
    "Wrong": (STEP.format("wrong"), {"wrong": "1"}),
}
# Public functions that promise words of four of the modules, and a private one.
CODE = {
    "lib": "mod counts;\npub use counts::{Count, count};\n",
    "counts": """ghost use Rattle.one.specs.One.{one};
ghost use Rattle.one.specs.Others.{first};
ghost use Rattle.one.specs.Partly.{partly};
ghost use Rattle.one.specs.Wrong.{wrong};
ghost use Rattle.one.specs.Silent.{silent};

pub fn count() -> u32
    ensures one { result ≡ one }
    ensures { result ≡ first }
{
    1
}

fn silent() -> u32
    ensures { result ≡ silent }
{
    1
}

impl Count {
    pub fn partly(&self) -> u32
        ensures { result ≡ partly }
    {
        1
    }
}

impl Model for Count {
    ghost view = { λ c. wrong };

    ghost invariant = { λ c. c ≡ silent };
}
""",
}


class VocabularyTest(unittest.TestCase):
    """A tree of these modules and some code."""

    def unsaid(self, code):
        """What is found in a tree of these files of src/: the modules and their words."""
        files = {f"src/{name}.rt": text for name, text in code.items()}
        for name, (head, words) in MODULES.items():
            files[f"specs/{name}.antt"] = head + "".join(f"\n-- a number\nabbrev pub {word} : ℕ\n{word} = {text}\n" for word, text in words.items())
        status, lines = found_by("check/vocabulary", {f"crates/one/{path}": text for path, text in files.items()})
        self.assertEqual(status, 1)
        return [(line.split(".")[0].rsplit("/")[-1], line.split("`")[1]) for line in lines]

    def test_what_is_not_said(self):
        self.assertEqual(self.unsaid(CODE), [("Partly", "unsaid"), ("Silent", "silent"), ("Wrong", "wrong")])

    def test_a_program(self):
        # (it exports nothing, and no type `Count` is in it)
        program = {"main": "mod counts;\n", "counts": CODE["counts"]}
        self.assertEqual(self.unsaid(program), [("Partly", "partly"), ("Partly", "unsaid"), ("Silent", "silent")])
