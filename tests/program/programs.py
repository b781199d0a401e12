"""What the program that $SMPLAN names prints of documents, and how many documents are compared at a time."""
import os
import pathlib
import subprocess
import unittest
from concurrent.futures import ThreadPoolExecutor

ROOT = pathlib.Path(__file__).resolve().parents[2]
PROGRAM = os.environ["SMPLAN"]
# How many cases are told that fail: if all do, the first ones tell why.
MOST = 20


def printed_by(command, text):
    """What the program prints, and its status."""
    run = subprocess.run([PROGRAM, command], input=text, stdout=subprocess.PIPE, check=False)
    return run.stdout.decode(), run.returncode


class CasesTest(unittest.TestCase):
    """Cases whose first part says where each stands, and something that says what is wrong with one, or nothing."""

    def compare(self, told, cases, workers=None):
        """Wants nothing to be wrong with any case, and that there are some."""
        cases = [*cases]
        self.assertTrue(cases)
        with ThreadPoolExecutor(workers or len(os.sched_getaffinity(0))) as pool:
            wrong = [(case[0], why) for case, why in zip(cases, pool.map(told, cases)) if why is not None]
        for where, why in wrong[:MOST]:
            with self.subTest(where):
                self.fail(f"{why} ({len(wrong)} of {len(cases)} cases fail)")
