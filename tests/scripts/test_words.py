"""What check/words finds: names that are defined twice, and types that two crates export by one name."""
import unittest

from trees import found_by

DEFINED = "abbrev pub Twice : Type 0\n"
ROOT_OF_ONE = "pub use it::{\n    Same, first,\n};\n"
SAME = "#[derive(Drop)]\npub enum Same {}\n\npub fn first() {}\n"


class WordsTest(unittest.TestCase):
    """Two crates."""

    def found(self, files):
        return found_by("check/words", {"crates/one/specs/One.antt": "abbrev pub One : Type 0\n"} | {f"crates/{path}": text for path, text in files.items()})

    def test_a_name_that_is_defined_twice(self):
        status, lines = self.found({"one/specs/Two.antt": DEFINED, "two/specs/Two.antt": DEFINED})
        self.assertEqual((status, lines), (1, ["`Twice` is defined in crates/one/specs/Two.antt and in crates/two/specs/Two.antt"]))

    def test_a_name_that_two_crates_export(self):
        status, lines = self.found({f"{crate}/src/{file}.rt": text for crate in ("one", "two") for file, text in (("lib", ROOT_OF_ONE), ("it", SAME))})
        self.assertEqual((status, lines), (1, ["`Same` is exported by one and by two"]))

    def test_what_a_crate_passes_on_or_has_for_itself(self):
        roots = {"one": "pub use it::Same;\n", "two": "pub use one::Same;\n"}
        self.assertEqual(self.found({f"{crate}/src/{file}.rt": text for crate, root in roots.items() for file, text in (("lib", root), ("it", SAME))}), (0, []))

    def test_a_name_that_two_crates_may_share(self):
        crates = ("sm_placement", "sm_machine")
        files = {f"{crate}/src/{file}.rt": text for crate in crates for file, text in (("lib", "pub use it::OpenFault;\n"), ("it", "pub struct OpenFault;\n"))}
        self.assertEqual(self.found(files), (0, []))

    def test_a_definition_that_two_crates_may_share(self):
        files = {f"{crate}/specs/It.antt": "abbrev pub slot_at : Type 0\n" for crate in ("sm_reopening", "smpland_state")}
        self.assertEqual(self.found(files), (0, []))
        self.assertEqual(self.found(files | {"one/specs/It.antt": "abbrev pub slot_at : Type 0\n"})[0], 1)

    def test_a_tree_without_definitions(self):
        self.assertEqual(found_by("check/words", {"crates/one/src/lib.rt": ""})[0], 1)
