"""Where runs keep their data."""
import argparse
import tempfile
import unittest
from pathlib import Path

from cluster.launch.directory import add_directory, new_directory


class DirectoryTest(unittest.TestCase):
    """Directories of runs."""

    def test_the_directory_that_is_named(self):
        parser = argparse.ArgumentParser()
        add_directory(parser)
        with tempfile.TemporaryDirectory() as folder:
            told = parser.parse_args(["--dir", f"{folder}/new"])
            made = [new_directory("storm-1-", told.dir) for _ in range(2)]
            self.assertEqual([it.parent for it in made], [Path(folder) / "new"] * 2)
            self.assertNotEqual(*made)

    def test_none_is_named(self):
        made = new_directory("storm-1-", None)
        self.assertTrue(made.name.startswith("storm-1-"))
        made.rmdir()
