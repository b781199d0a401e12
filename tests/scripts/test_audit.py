"""What build/make-audit finds: names of PROVED that are no contract."""
import importlib.machinery
import importlib.util
import sys
import unittest
from unittest import mock

from trees import ROOT

SCRIPT = ROOT / "scripts/build/make-audit"


def load():
    """The script as a module, with its folder on the path."""
    loader = importlib.machinery.SourceFileLoader("make_audit", str(SCRIPT))
    module = importlib.util.module_from_spec(importlib.util.spec_from_loader(loader.name, loader))
    with mock.patch.object(sys, "path", [str(SCRIPT.parent), *sys.path]):
        loader.exec_module(module)
    return module


class AuditTest(unittest.TestCase):
    """Names of two crates."""

    def test_names_that_are_no_contract(self):
        audit = load()
        for name in ("deciding", "is_without_spare", "copy"):
            with self.subTest(name), self.assertRaises(audit.Unknown):
                audit.contract(["sm_task_controller", "sm_reservation"], name)

    def test_a_row_without_a_contract(self):
        audit = load()
        with self.assertRaises(audit.Unknown):
            audit.contracts_of("a promise|said in words|")
