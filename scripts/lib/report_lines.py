"""The lines that each command can print, as docs/FORMATS.md and docs/TROUBLESHOOTING.md tell them, and which of them no case has.

A form is a line whose words in capitals stand for others: S and V for names, MEMBER for one of a member, MORE for one number or more, PLAN for
the text of a plan, and all others for a number.
"""
import re

from fault_cases import FILES, cases_of
from report_cases import ROOT

FORMATS = (ROOT / "docs/FORMATS.md").read_text()
# The lines that say no.
TROUBLE = (ROOT / "docs/TROUBLESHOOTING.md").read_text()
EVERY = ("calls", "check", "play", "plan", "run")
# The commands that check a plan and begin it, or say whether it may begin.
CHECKING = ("check", "play", "run")
WHY = re.findall(r"^- `(\w+)`:", TROUBLE[TROUBLE.index("WHY is one of these"):].split("\n\n")[1], re.MULTILINE)
# A line of a list: forms, and what stands behind them.
ITEM = re.compile(r"- ((?:`[^`]+`(?:, )?)+): (.*)")
REFUSED = [
    "refused: 2 Budget streams A plan B",
    "refused: 3 SignalNotOnce signal K posts A waits B",
    *(f"refused: 4 Stream stream I at P {why}" for why in WHY),
    "refused: 5 Stuck positions P",
    "refused: 5 Stuck positions P MORE",
]
HELD = [
    *(f"held: {why} {key}" for why in ("1 Untrue", "2 Taken") for key in ("cell S V", "crown S")),
    "held: 3 ShortRoom server V free A declared B",
    "held: 4 ShortSpare shard S free A declared B",
    "held: 5 ServerDown server V",
]
ANSWERS = [
    "moved", "blocked on signal K", "done", "lost", "spent", "refilled",
    "refill refused 1 Ended", "refill refused 2 TooMany", "refill refused 3 LogFull",
    "executed at V", "passed to V number N ticket T", "not owner", "unavailable", "log full",
    "approved", "denied 1 AlreadyDown", "denied 2 Engaged stream J", "denied 2 Engaged plan K stream J", "denied 3 GlobalCap",
    "denied 4 ShardCap shard S", "denied 5 LogFull", "up",
    "begun: calls N streams M", *HELD, "not begun: 4 LogFull", "unknown",
]
# Each member may be missing or of another type; these have a name or a signal as their value, and those a number. (Of the lists, each is too long in
# a document of tests/program/test_faults.py, which takes much memory and is not given to all commands.)
MEMBERS = re.findall(r"^  - (`.*?):", FORMATS[FORMATS.index("### Members"):FORMATS.index("### Faults")], re.MULTILINE)
SHAPES = ["document", *dict.fromkeys(it for members in MEMBERS for it in re.findall(r"`(\w+)`", members))]
NAMES = ["asks", "drain", "from", "listed", "other", "server", "shard", "signal", "to"]
NUMBERS = ["amount", "budget", "cap", "format", "limit", "load", "log", "more", "number", "plan", "retries", "room", "signal", "spread", "stream",
           "ticket", "want"]
BAD_INPUT = [
    "bad input: 2 NotJson",
    *(f"bad input: 3 Shape {it}" for it in SHAPES),
    *(f"bad input: 4 UnknownName {it}" for it in NAMES),
    "bad input: 5 TooMany MEMBER",
    *(f"bad input: 6 Number {it}" for it in NUMBERS),
    "bad input: 7 TooLong",
]
# The commands, and the forms of the lines that each of them can print.
LINES = [
    (EVERY, BAD_INPUT),
    (EVERY, ["placement refused: 4 DoubleCell shard S server V", "placement refused: 5 BadLead shard S", "placement refused: 6 BadListing shard S",
             "placement refused: 7 OverRoom server V", "placement refused: 8 Short shard S", "placement refused: 9 TooManyDown"]),
    (("play", "plan", "run"), ["log refused: 2 LogFull"]),
    (CHECKING, ["accepted: calls N streams M", *REFUSED, *HELD]),
    (("play", "run"), ["not begun: 4 LogFull"]),
    (("plan",), ["no plan: 2 NotThere shard S server V", "no plan: 3 Held shard S server V", "no plan: 4 ServerDown server V",
                 "no plan: 5 NoRoom server V", "no plan: 6 NoPlace shard S", "no plan: 7 Spread shard S", "no plan: 8 TooMany", "PLAN"]),
    (("calls",), ["call I: ok", *(f"call I: refused {it}" for it in ("1 Down", "2 AlreadyHeld", "3 NotHeld", "4 WrongRole", "5 NoRoom"))]),
    (("play",), [f"plan K: {it}" for it in REFUSED]),
    (("play",), [f"event I: {it}" for it in ANSWERS]),
    (("play",), ["stream J: at P of LENGTH", "stream J: done", "plan K stream J: at P of LENGTH", "plan K stream J: done", "plan K: not begun"]),
    (("run",), ["stream I: steps N calls C budget B",
                *(f"ask I: {it}" for it in ("executed at V", "not listed", "unavailable", "log full", "too many hops"))]),
    (("run",), [f"not run: {it}" for it in ("2 NoThread", "3 Halted", "4 Spent", "5 NoCaller", "6 OtherAsk", "7 NotClosed", "8 OtherEvents")]),
    # (the end placement: a run ends with no handover under way)
    (("calls", "play", "run"), ["server V room N load N up", "server V room N load N down",
                                "shard S live N floor N listed V version N", "shard S live N floor N listed none version N",
                                "  V primary", "  V secondary"]),
    (("calls", "play"), ["  V prepared from V number N", "  V forwarding to V number N"]),
]
# The forms that no document brings about by itself, and why. (Without memory and after a failed read no line is printed.)
ELSEWHERE = {
    "not run: 2 NoThread": "a thread cannot be started: scripts/check/threads refuses each in turn",
    "not run: 3 Halted": "nothing halts the board of a report",
    "not run: 4 Spent": "no call is lost on the board of a report",
    "not run: 5 NoCaller": "a board gives out more callers than a document may have asks",
    "not run: 6 OtherAsk": "a client asks for the shard that it was made for",
    "not run: 7 NotClosed": "a board on which each stream has finished is closed",
    "not run: 8 OtherEvents": "nothing but the run and the asks happens on the board of a report",
    "ask I: too many hops": "eight servers in turn send the client on while streams run, as the schedule is; tests_executor has it",
}
# What the words in capitals stand for that are no numbers.
WORDS = {"S": r"[\w.-]+", "V": r"(?!none )[\w.-]+", "MEMBER": "[a-z_]+", "MORE": r"\d+( \d+)*", "PLAN": r"\{.*\}"}


def pattern(form):
    """What a line of this form is like."""
    return re.compile(re.sub(r"\b[A-Z]+\b", lambda word: WORDS.get(word[0], r"\d+"), form))


FORMS = {command: {form: pattern(form) for commands, forms in LINES if command in commands for form in forms} for command in EVERY}


def forms_of(command, line):
    return [form for form, like in FORMS[command].items() if like.fullmatch(line)]


def examples():
    """What the examples print, with the command of each."""
    for path in sorted((ROOT / "examples").glob("*.json")):
        command = path.with_suffix(".command")
        yield command.read_text().strip() if command.exists() else "calls", path.with_suffix(".txt").read_text()


def faults():
    """What each command prints of the documents in tests/documents/faults."""
    for _, _, answer in (case for path in FILES for case in cases_of(path)):
        if answer is not None:
            yield from ((command, f"bad input: {answer}") for command in EVERY)


def told():
    """The lines in the lists of both, with 0 for each word in capitals, and the commands that print each."""
    title = ""
    for line in (FORMATS[FORMATS.index("## The report"):] + TROUBLE).splitlines():
        title = line if line.startswith("#") else title
        item = ITEM.match(line)
        if not item:
            continue
        of = re.match(r"(`\w+`(, )?)+(?=:)", item[2])
        commands = re.findall(r"\w+", of[0]) if of else re.findall("`(check|plan|play|run)`", title) or ["calls"]
        for form in re.findall("`(.*?)`", item[1]):
            # (such a form stands for several others, and such a word in the place of WHY)
            if not form.endswith(": ..") and form not in WHY:
                said = re.sub(r"\b[A-Z]+\d?\b", "0", form.replace("WHY", WHY[0]).removesuffix(" .."))
                yield commands, f"event 0: {said}" if re.match("#+ (An event gets|Answers to events)", title) else said


def wrong(cases):
    """The forms that none of these cases, of the examples and of the faults has, lines that have no form, and lines of the documents without one."""
    printed = [*cases, *examples(), *faults()]
    lines = {(command, line) for command, report in printed for line in report.splitlines()}
    found = {(command, line): forms_of(command, line) for command, line in lines}
    had = {(command, form) for (command, _), forms in found.items() for form in forms}
    yield from (f"{command}: no form has the line {line!r}" for (command, line), forms in sorted(found.items()) if not forms)
    for command in EVERY:
        yield from (f"{command}: no case has a line {form!r}" for form in FORMS[command] if (command, form) not in had and form not in ELSEWHERE)
        yield from (f"{command}: a case has a line {form!r}, of which it is said that none has" for form in ELSEWHERE if (command, form) in had)
    lines_told = [*told()]
    if not lines_told:
        yield "the documents have no line of a report in their lists, as they are read here"
    for commands, line in lines_told:
        yield from (f"the documents tell of {line!r} of {it}, which has no form here" for it in commands if not forms_of(it, line))


def line_count():
    """How many forms of lines cases have, of all commands."""
    return sum(form not in ELSEWHERE for forms in FORMS.values() for form in forms)
