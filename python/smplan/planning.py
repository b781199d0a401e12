"""`demote`, `drain`, `balance`, `scale`, `reach`, `undo`: plans for what operators want. `smplan check` admits each before it is printed."""
from __future__ import annotations

import argparse
import json
import sys
import time
from collections import Counter
from dataclasses import dataclass
from fractions import Fraction
from typing import Any, Callable, Dict, Iterable, List, Set

from . import program
from .balance import Balance, Budget, after_moves, balance, level_primaries
from .blocks import CHANGE_ROLES, Block, copies_in
from .failure import Failure
from .files import document_from, name_of, read_value
from .fleet import Fleet, primary_of
from .limits import MOST_MOVES, MOST_REPLICAS, MOST_STREAMS
from .model import Json, document_of
from .placement import opening_findings
from .reach import Limits, Reach
from .reading import did_you_mean
from .targets import Wanted, as_in, demote, drain, scale
from .words import counted

# How many names stand in a line at most, and after how many seconds work tells how far it is.
MOST_NAMES, PATIENCE = 6, 2.0


def tell(text: str) -> None:
    print(f"smplan-tools: {text}", file=sys.stderr, flush=True)


class Progress:
    """Tells how far long work is, every few seconds."""

    def __init__(self, tell: Callable[[str], None]) -> None:
        self.tell, self.last = tell, time.monotonic()

    def __call__(self, text: str) -> None:
        """Tells it, unless something was told just now."""
        if time.monotonic() - self.last > PATIENCE:
            self.tell(text)
            self.last = time.monotonic()


def named(names: Iterable[str]) -> str:
    """Some names in a line, and how many more there are."""
    all_names = list(names)
    more = len(all_names) - MOST_NAMES
    return ", ".join(all_names[:MOST_NAMES]) + (f" and {more} more" if more > 0 else "")


def percent(share: Fraction) -> str:
    return f"{float(100 * share):.2f} %"


# ---- what is given

def fleet_from(value: Json, path: str) -> Fleet:
    """The fleet of a document whose placement may be opened."""
    document = document_from(value, path)
    findings = opening_findings(document)
    if findings:
        raise Failure("\n  ".join([f"there is no plan for {name_of(path)} as it is", *(f"{it.line}: {it.text}" for it in findings)]), 1)
    return Fleet(document)


def read_fleet(path: str) -> Fleet:
    return fleet_from(read_value(path), path)


def servers_in(fleet: Fleet, words: Iterable[str]) -> Set[int]:
    """The servers that words name: each by its name, or those of a region by `region:R`."""
    found: Set[int] = set()
    for word in words:
        region = word[len("region:"):] if word.startswith("region:") else None
        names, wanted = (fleet.servers, word) if region is None else (fleet.region, region)
        mine = {it for it, name in enumerate(names) if name == wanted}
        if not mine:
            known = fleet.servers if region is None else [f"region:{it}" for it in fleet.region]
            raise Failure(f"no {'server' if region is None else 'region'} is named '{region or word}'{did_you_mean(word, known)}")
        found |= mine
    return found


def limits_of(arguments: argparse.Namespace, fleet: Fleet) -> Limits:
    return Limits(
        streams=arguments.streams, at_server=arguments.at_server, blocks=arguments.batch, hops=arguments.hops, drops_first=arguments.drop_first,
        avoid=frozenset(servers_in(fleet, arguments.avoid)), has_gap=not getattr(arguments, "no_gap", False))


# ---- what is printed

@dataclass
class Sums:
    """What plans come to."""

    plans: int = 0
    calls: int = 0
    copies: int = 0
    load: int = 0
    roles: int = 0

    def add(self, plan: Json, blocks: List[Block], load: int) -> None:
        self.plans += 1
        self.calls += plan["budget"]
        self.copies += copies_in(blocks)
        self.load += load
        self.roles += sum(it.kind in CHANGE_ROLES for it in blocks)

    def __str__(self) -> str:
        roles = f"{counted(self.roles, 'change')} of a primary by two roles" if self.roles else "no change of roles"
        return f"{counted(self.plans, 'plan')}, {counted(self.calls, 'call')}: {counted(self.copies, 'copy', 'copies')} of load {self.load}, {roles}"


def check(path: str, document: Json) -> None:
    """Fails unless the program accepts the plan of a document."""
    answer = program.run(path, "check", json.dumps(document).encode())
    if not answer.report.startswith("accepted: "):
        raise Failure(f"smplan refuses a plan that was made, which is a fault of smplan-tools: {answer.report.strip()}", 1)


def most_used(fleet: Fleet) -> Fraction:
    """How full the fullest server is."""
    shares = (Fraction(used, room) for used, room in zip(fleet.used, fleet.room) if room)
    return max(shares, default=Fraction(0))


def most_led(fleet: Fleet) -> int:
    """How many shards the server leads that leads most."""
    counts = Counter(primary_of(it) for it in fleet.cells)
    del counts[None]
    return max(counts.values(), default=0)


def forecast(fleet: Fleet, wanted: Wanted, reach: Reach) -> str:
    """What a way to a placement comes to: what it copies, how full servers are, and how many shards they lead, before and after."""
    after = fleet.after(wanted.target)
    return (f"{counted(reach.copies, 'replica')} to copy, load {reach.load}, {percent(Fraction(reach.load, max(1, sum(fleet.used))))} of all; the fullest server "
            f"{percent(most_used(fleet))} -> {percent(most_used(after))}; most primaries at a server {most_led(fleet)} -> {most_led(after)}")


def tell_beforehand(tell: Callable[[str], None], fleet: Fleet, wanted: Wanted, reach: Reach) -> None:
    """Tells what a way to a placement comes to, and of which shards nobody is the primary meanwhile."""
    tell(forecast(fleet, wanted, reach))
    gaps = reach.without_primary()
    if gaps:
        tell(f"for one call each nobody is the primary of {named(gaps)}")


def print_plans(arguments: argparse.Namespace, fleet: Fleet, wanted: Wanted) -> int:
    """Makes the plans that lead to a placement, has each checked, and prints it. Tells what is left."""
    path, sums = program.required(arguments.program), Sums()
    reach = Reach(fleet, wanted.target, limits_of(arguments, fleet))
    progress, size = Progress(tell), reach.size
    tell_beforehand(tell, fleet, wanted, reach)
    for leg in reach.legs():
        document = leg.document()
        progress(f"{size - reach.size} of {size} steps are in plans; smplan checks plan {sums.plans}")
        check(path, document)
        print_document(arguments, document)
        sums.add(document["plan"], leg.blocks, leg.streams.copied)
    if not sums.plans:
        print_document(arguments, {**fleet.value(fleet.target()), "plan": {"budget": 0, "signals": [], "streams": []}})
    tell(str(sums))
    left = wanted.left + reach.left
    for line in left:
        tell(f"left: {line}")
    return 1 if left else 0


def print_document(arguments: argparse.Namespace, document: Json) -> None:
    print(json.dumps(document["plan"] if arguments.plan else document, indent=2 if arguments.pretty else None))


# ---- the commands

def make_demotion(arguments: argparse.Namespace) -> int:
    fleet = read_fleet(arguments.document)
    servers, avoid = servers_in(fleet, arguments.servers), servers_in(fleet, arguments.avoid)
    return print_plans(arguments, fleet, demote(fleet, servers, avoid, not arguments.no_gap))


def make_drain(arguments: argparse.Namespace) -> int:
    fleet = read_fleet(arguments.document)
    servers, avoid = servers_in(fleet, arguments.servers), servers_in(fleet, arguments.avoid)
    return print_plans(arguments, fleet, drain(fleet, servers, avoid, arguments.prefer_secondary, Progress(tell)))


def tell_balance(fleet: Fleet, found: Balance) -> None:
    """Tells how full servers are and will be, what is copied, and what any list of moves would have to copy."""
    total = max(1, sum(fleet.used))
    tell(f"use of room: mean {percent(found.mean)}, most {percent(found.most)}, after {counted(len(found.moves), 'move')} {percent(found.most_after)}")
    tell(f"load to copy: {found.load}, {percent(Fraction(found.load, total))} of all; whoever brings all servers to {percent(found.top)} copies at least "
         f"{found.least}, {percent(Fraction(found.least, total))}")


def make_balance(arguments: argparse.Namespace) -> int:
    fleet = read_fleet(arguments.document)
    avoid = servers_in(fleet, arguments.avoid)
    if arguments.primaries:
        return print_plans(arguments, fleet, level_primaries(fleet, avoid))
    found = balance(fleet, avoid, Fraction(arguments.over, 100), Budget(arguments.moves, arguments.load), Progress(tell))
    tell_balance(fleet, found)
    wanted = after_moves(fleet, found.moves)
    wanted.left = [f"{fleet.servers[it]} stays above {percent(found.top)}" for it in found.stuck]
    return print_plans(arguments, fleet, wanted)


def wants_of(fleet: Fleet, words: Iterable[str]) -> Dict[int, int]:
    """How many replicas of which shards are wanted, by words such as `orders=3`."""
    found = {}
    for word in words:
        name, equals, want = word.rpartition("=")
        if not equals:
            raise Failure(f"{word}: how many replicas is it to have? Say SHARD=WANT, as {word}=3")
        if name not in fleet.shard_of:
            raise Failure(f"no shard is named '{name}'{did_you_mean(name, fleet.shards)}")
        if not want.isascii() or not want.isdigit() or not 1 <= int(want) <= MOST_REPLICAS:
            raise Failure(f"{word}: a shard has 1 to {MOST_REPLICAS} replicas")
        found[fleet.shard_of[name]] = int(want)
    return found


def lowered(fleet: Fleet, wants: Dict[int, int]) -> Fleet:
    """The fleet in which no shard wants more than it is to get."""
    value = fleet.value(fleet.target())
    for shard, want in wants.items():
        row = value["shards"][shard]
        row["want"] = min(row["want"], want)
        row["cap"] = min(row["cap"], row["want"])
    return Fleet(document_of(value))


def make_scale(arguments: argparse.Namespace) -> int:
    fleet = read_fleet(arguments.document)
    wants = wants_of(fleet, arguments.wants)
    status = print_plans(arguments, lowered(fleet, wants), scale(lowered(fleet, wants), wants, servers_in(fleet, arguments.avoid)))
    for shard, want in wants.items():
        if want != fleet.want[shard]:
            when = "set it to that after the plan" if want > fleet.want[shard] else "as in these documents"
            tell(f"'want' of {fleet.shards[shard]} is {fleet.want[shard]}, and becomes {want}: {when}")
    return status


def wanted_as_in(now: Fleet, wanted: Fleet) -> Wanted:
    """The placement of another document. What only one of them has is left as it is."""
    for name in wanted.servers:
        if name not in now.server_of:
            raise Failure(f"the placement has no server '{name}'{did_you_mean(name, now.servers)}")
    found = as_in(now, wanted)
    found.left += [f"{name} is in one of the two documents alone" for name in sorted(set(now.shards) ^ set(wanted.shards))]
    return found


def make_reach(arguments: argparse.Namespace) -> int:
    fleet = read_fleet(arguments.document)
    return print_plans(arguments, fleet, wanted_as_in(fleet, Fleet(document_from(read_value(arguments.target), arguments.target))))


def make_undo(arguments: argparse.Namespace) -> int:
    now = read_fleet(arguments.next)
    return print_plans(arguments, now, wanted_as_in(now, Fleet(document_from(read_value(arguments.document), arguments.document))))


# ---- the command line

def whole(least: int, most: int) -> Callable[[str], int]:
    """How a whole number of a range is read."""
    def number(text: str) -> int:
        if not text.isascii() or not text.isdigit() or not least <= int(text) <= most:
            raise argparse.ArgumentTypeError(f"{text} is no whole number from {least} to {most}")
        return int(text)
    return number


def add_options(parser: argparse.ArgumentParser) -> None:
    """Adds the options of all commands that make plans."""
    program.add_option(parser)
    parser.add_argument("--avoid", action="append", default=[], metavar="SERVER", help="a server, or region:R, that gets nothing; may be given again")
    streams = whole(1, MOST_STREAMS)
    parser.add_argument("--streams", type=streams, default=MOST_STREAMS, metavar="N", help=f"streams of a plan: so many copies at once at most ({MOST_STREAMS})")
    parser.add_argument("--at-server", type=whole(0, MOST_STREAMS), default=0, metavar="N", help="copies at once that burden a server, from it or to it (any number)")
    parser.add_argument("--batch", type=whole(1, MOST_MOVES), default=MOST_MOVES, metavar="N", help="moves, changes of roles and such in a plan; several are printed then")
    parser.add_argument("--hops", type=whole(0, MOST_MOVES), default=0, metavar="N", help="if nothing fits, replicas that may go by a third server (0)")
    parser.add_argument("--drop-first", action="store_true", help="if nothing fits, drop a replica before its successor is added, where one may be spared")
    parser.add_argument("--plan", action="store_true", help="print plans alone")
    parser.add_argument("--pretty", action="store_true", help="print a line for each member")


def add_command(subparsers: Any, name: str, run: Callable[[argparse.Namespace], int], what: str, more: str, example: str) -> argparse.ArgumentParser:
    """Adds a command that makes plans."""
    parser = subparsers.add_parser(
        name, epilog=f"example: smplan-tools {example}", help=what,
        description=f"{more} Prints the document with its plan, or several if one plan cannot do it: each is of the placement that the one before leaves. 'smplan "
        "check' has accepted each. Standard error tells what the plans come to, and what is left and why. Exit status 0: nothing is left. 1: something is.")
    add_options(parser)
    parser.add_argument("document", metavar="DOCUMENT", help="the document; - is standard input")
    parser.set_defaults(run=run)
    return parser


def add_gap(parser: argparse.ArgumentParser) -> None:
    parser.add_argument("--no-gap", action="store_true", help="hand primaries over instead: nobody waits, the data is copied twice, and a live replica has to be spared")


def add_parser(subparsers: Any) -> None:
    """Adds the commands."""
    parser = add_command(subparsers, "demote", make_demotion, "make a plan that takes all primaries off servers, without a copy",
                         "Makes a secondary the primary wherever one of the servers has the primary.", "demote placement.json berlin-2 | smplan check")
    parser.add_argument("servers", nargs="+", metavar="SERVER", help="a server, or region:R for those of a region")
    add_gap(parser)
    parser = add_command(subparsers, "drain", make_drain, "make a plan that empties servers",
                         "Empties servers, greatest loads first; if nothing fits, another replica gives way.", "drain placement.json region:oslo --at-server 2 | smplan check")
    parser.add_argument("servers", nargs="+", metavar="SERVER", help="a server, or region:R for those of a region")
    parser.add_argument("--prefer-secondary", action="store_true", help="change the roles of primaries first, and copy secondaries alone")
    parser = add_command(subparsers, "balance", make_balance, "make a plan that levels load, or primaries",
                         "Moves replicas until no server's use of its room is far above the mean.", "balance placement.json --over 5 | smplan check")
    parser.add_argument("--over", type=whole(0, 1000), default=10, metavar="PERCENT", help="how far above the mean a server may be, in percent of the mean (10)")
    parser.add_argument("--moves", type=whole(0, MOST_MOVES), default=MOST_MOVES, metavar="N", help="moves at most")
    parser.add_argument("--load", type=whole(0, 2 ** 63), metavar="LOAD", help="load to copy at most")
    parser.add_argument("--primaries", action="store_true", help="level how many primaries each server has instead, by changes of roles")
    add_gap(parser)
    parser = add_command(subparsers, "scale", make_scale, "make a plan for other numbers of replicas",
                         "Adds or drops secondaries until shards have as many replicas as is said.", "scale placement.json orders=3 | smplan check")
    parser.add_argument("wants", nargs="+", metavar="SHARD=WANT", help="a shard, and how many replicas it is to have")
    parser = add_command(subparsers, "reach", make_reach, "make a plan from one placement to another",
                         "Brings the servers from the document's placement to that of another document.", "reach placement.json wanted.json | smplan check")
    parser.add_argument("target", metavar="TARGET", help="a document with the placement that is wanted")
    add_gap(parser)
    parser = add_command(subparsers, "undo", make_undo, "make a plan that takes plans back",
                         "Brings the servers from the placement as it is now back to that of the document.", "undo placement.json next.json | smplan check")
    parser.add_argument("next", metavar="NEXT", help="a document with the placement as it is now, whatever of the plans was made")
    add_gap(parser)
