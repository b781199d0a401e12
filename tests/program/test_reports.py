"""What the program reports of documents, to the last byte, and its exit status.

They stand in tests/documents/reports (scripts/lib/report_cases.py). Long documents are made here. Each line that a command can print is printed by
one of these documents, by an example, or by one of tests/documents/faults, but for those that no document brings about (scripts/lib/report_lines.py).
"""
from programs import CasesTest, printed_by
from report_cases import ROOT, written
from report_lines import wrong


def streams_without_code():
    """As many streams as there may be, and one more, beside no servers and beside a placement."""
    placement = (ROOT / "tests/documents/bases/placement.json").read_text()
    for document in ('{"limit":0,"servers":[],"shards":[]}', placement):
        for count, report, status in ((64, "accepted: calls 0 streams 64\n", 0), (65, "bad input: 5 TooMany streams\n", 2)):
            streams = ",".join(['{"budget":0,"holds":{},"code":[]}'] * count)
            yield f"{count} streams without code", "check", f'{document[:-1]},"plan":{{"budget":0,"streams":[{streams}],"signals":[]}}}}', report, status


def moves_that_free_room():
    """A server is emptied for one large shard, whose move waits for those of other streams: for more signals than a plan may have."""
    servers = ",".join(f'{{"name":"{name}","region":"r","room":300}}' for name in "abc")
    wants = '"want":1,"cap":0,"spread":1'
    small = [f'{{"name":"{n}","load":1,{wants},"cells":[{{"server":"a","state":"primary"}}]}}' for n in range(300)]
    large = f'{{"name":"large","load":300,{wants},"cells":[{{"server":"b","state":"primary"}}]}}'
    moves = [f'{{"shard":"{n}","from":"a","to":"c"}}' for n in range(300)] + ['{"shard":"large","from":"b","to":"a"}']
    text = f'{{"limit":0,"servers":[{servers}],"shards":[{",".join([*small, large])}],"moves":[{",".join(moves)}]}}'
    return "300 moves that free room for one", "plan", text, "no plan: 8 TooMany\n", 1


def too_long():
    """A byte more than may be read, for each command."""
    for command in ("calls", "check", "play", "plan", "run"):
        yield "67,108,865 bytes", command, "[" * 67108865, "bad input: 7 TooLong\n", 2


def told(case):
    """What is wrong with the program's report of a case, if anything is."""
    _, command, text, report, status = case
    found = printed_by(command, text.encode())
    return None if found == (report, status) else f"{command} prints {found[0]!r}, status {found[1]}, where {report!r}, status {status} is wanted"


def made():
    """The documents that are made here."""
    return [*streams_without_code(), moves_that_free_room(), *too_long()]


class ReportsTest(CasesTest):
    """Reports, and the lines that they have."""

    def test_documents_of_files(self):
        self.compare(told, written())

    def test_long_documents(self):
        self.compare(told, made())

    def test_each_line_has_a_case(self):
        self.assertEqual([*wrong([(command, report) for _, command, _, report, _ in (*written(), *made())])], [])
