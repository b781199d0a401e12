"""What the program prints of the examples, and its exit status. An example is run by the command that its .command file names, and by `calls` where it
has none."""
from programs import ROOT, CasesTest, printed_by


def examples():
    """The examples: the name of each, its command, its text, its report and its status."""
    for document in sorted((ROOT / "examples").glob("*.json")):
        command, status = document.with_suffix(".command"), document.with_suffix(".status")
        yield (document.stem, command.read_text().strip() if command.exists() else "calls", document.read_bytes(),
               document.with_suffix(".txt").read_text(), int(status.read_text()) if status.exists() else 0)


def told(case):
    """What is wrong with the program's report of an example, if anything is."""
    _, command, text, report, status = case
    found = printed_by(command, text)
    return None if found == (report, status) else f"{command} prints {found[0]!r}, status {found[1]}, where {report!r}, status {status} is wanted"


class ExamplesTest(CasesTest):
    """All examples."""

    def test_examples(self):
        self.compare(told, examples())
