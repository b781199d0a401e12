"""Who serves: requests and replies, what is acknowledged, and how many copies that asks for."""
from __future__ import annotations

import random
from collections import Counter

from driving_model import laws as driving
from driving_model.cells import Cell, Kind, serving
from driving_model.clients import PassedWrite, Write
from driving_model.server import Pass, Route

from .clients import Writes
from .commands import Copied, CopiedAt
from .controller import Controller
from .host import Host
from .messages import Lower
from .rules import Rules


class Serving:
    """The part of a world in which requests are executed and answered."""

    rules: Rules
    controller: Controller
    hosts: list[Host]
    writes: Writes
    dice: random.Random
    coverage: Counter[str]

    # Requests.

    def request(self, host: Host, write: Write, passed: Pass | None = None) -> None:
        """A request comes to a server: it is executed, passed on, or neither."""
        if not host.answers:
            return
        route = host.server.route(write.shard, host.copy(write.shard).position, passed)
        if isinstance(route, Pass):
            self.writes.passed.append(PassedWrite(write, route))
            self.say("server", host.number, "passes", write, "on:", route)
        elif route is Route.EXECUTE:
            driving.executes_where_it_serves(self, host, write.shard, "starts a request")
            self.say("server", host.number, "starts", write, passed or "")
            self.coverage["passed executed"] += passed is not None
            if write not in host.running:
                host.running.append(write)

    def finish(self, host: Host, write: Write) -> None:
        """A request that runs has been executed."""
        host.running.remove(write)
        shard = write.shard
        copy = host.copy(shard)
        if write.identity in copy.writes:
            return
        driving.executes_where_it_serves(self, host, shard, "ends a request")
        if copy.writes != self.writes.history[shard]:
            found = f"server {host.number} executes {write} upon {copy.writes}, not {self.writes.history[shard]}"
            raise driving.Violation("one_list_of_writes", found)
        copy.writes.append(write.identity)
        if self.dice.random() < 0.4:
            copy.flush()
        self.writes.history[shard].append(write.identity)
        self.say("server", host.number, "has executed", write)
        self.coverage["executed"] += 1

    def read(self, host: Host, shard: int) -> None:
        """A request that changes nothing comes to a server that serves: its reply shows all that was executed."""
        seen = tuple(host.copy(shard).writes)
        if not host.answers or host.server.route(shard, len(seen)) is not Route.EXECUTE:
            return
        if self.rules.replies_wait:
            host.at[shard].replies.append(seen)
        else:
            self.reply(host, shard, seen)

    def reply(self, host: Host, shard: int, seen: tuple[int, ...]) -> None:
        """A reply goes out."""
        new = set(seen) - self.writes.seen[shard]
        if new:
            self.writes.seen[shard] |= new
            self.say("server", host.number, "shows", sorted(new), "of shard", shard)
            self.coverage["seen"] += len(new)

    # What is acknowledged.

    def acknowledge(self, shard: int) -> None:
        """Who serves acknowledges the writes that as many copies have as it needs, and answers what saw them."""
        row = self.row(shard)
        for host in self.hosts:
            if host.answers and self.may_acknowledge(host, shard, row):
                self.acknowledge_at(host, shard)

    def acknowledge_at(self, host: Host, shard: int) -> None:
        """A server acknowledges what it may."""
        replica, copy = host.at[shard], host.copy(shard)
        needed = replica.needed if self.rules.enough_acknowledge else 1
        position = copy.position
        while position and self.count(host, shard, position) < needed:
            position -= 1
        if position:
            self.owe(host, shard)
            replica.owed = max(replica.owed, position)
        new = set(copy.writes[:position]) - self.writes.acknowledged[shard]
        if new:
            self.say("writes", sorted(new), "of shard", shard, "are acknowledged by", host.number, "at", needed)
            self.coverage["acknowledged"] += len(new)
            self.coverage["acknowledged at several"] += needed > 1
            self.writes.acknowledge(shard, new, self.promised(shard, replica.needed))
        for seen in [it for it in replica.replies if len(it) <= position]:
            replica.replies.remove(seen)
            self.reply(host, shard, seen)

    def promised(self, shard: int, needed: int) -> int:
        """How many copies are promised of a write that is acknowledged now. In the small form a reopening may take copies
        away that its primary counts until it is settled: of that no more are promised than it keeps."""
        reopening, kept = self.controller.reopening, [needed]
        if self.rules.is_small and reopening is not None:
            kept += [reopening.least(shard)] if self.controller.replaced else []
            kept += [0 if shard in reopening.perhaps else reopening.copies[shard]] if reopening.settles else []
        return min(kept)

    def owe(self, host: Host, shard: int) -> None:
        """Before it first acknowledges since it started, or gives leave, all that it has may have been acknowledged."""
        replica = host.at[shard]
        if replica.owed is None:
            replica.began = host.copy(shard).position
            replica.owed = replica.began if self.rules.leave_of_earlier else 0

    def may_acknowledge(self, host: Host, shard: int, row: list[Cell]) -> bool:
        """It is primary, or is handed the shard and has reached the cut."""
        cell, slot = row[host.number], host.server.slots[shard]
        if cell.kind is not Kind.PREPARED:
            return cell.kind is Kind.PRIMARY
        return serving(row) == [host.number] and slot.cut is not None and host.copy(shard).position >= slot.cut

    # How many copies are asked for.

    def deliver_lower(self, host: Host, lower: Lower) -> None:
        """A primary is told that replicas are recorded down."""
        server, replica = host.server, host.at[lower.shard]
        if not server.is_known or server.journal != lower.journal or server.is_fenced or server.base < lower.fence:
            return
        is_new = lower.permit > max(replica.raised, replica.lowered) and lower.permit > server.base
        if host.cell(lower.shard).kind is Kind.PRIMARY and (is_new or not self.rules.lower_numbered):
            replica.needed, replica.lowered = lower.copies, lower.permit
            replica.taken = (replica.needed, replica.lowered, replica.raised)
            self.say("server", host.number, "lowers shard", lower.shard, "to", lower.copies, "for", lower.permit)
            self.coverage["copies lowered"] += 1
        elif lower.permit == replica.raised and replica.needed == replica.terms.wanted:
            self.say_copied(host, lower.shard)
        replica.up = (lower.permit, lower.up)

    def say_copied(self, host: Host, shard: int) -> None:
        """A primary says that it asks for all copies again; it does so whenever it hears that this is not recorded."""
        replica, server = host.at[shard], host.server
        self.network.copied.append(Copied(host.number, server.nonce, server.base, shard, replica.raised))

    def may_go(self, host: Host, shard: int) -> frozenset[int]:
        """Which replicas may go: all but those of which the server was told otherwise since its number was lowered
        last."""
        replica = host.at[shard]
        if not self.rules.raised_by_those_that_stay:
            return frozenset()
        stay = replica.up[1] if replica.up and replica.up[0] == replica.lowered else frozenset()
        return frozenset(it.number for it in self.hosts) - stay

    def raise_copies(self, shard: int) -> None:
        """A primary asks for all copies again, and says so, when as many have all that is acknowledged."""
        for host in self.hosts if self.rules.is_small else ():
            self.say_copied_at(host, shard)
        for host in self.hosts if not self.rules.is_small else ():
            server, replica = host.server, host.at[shard]
            if not host.answers or not server.is_known or host.cell(shard).kind is not Kind.PRIMARY or server.is_fenced:
                continue
            wanted, others = replica.terms.wanted, self.may_go(host, shard)
            self.owe(host, shard)
            if replica.needed < wanted and self.count(host, shard, replica.owed, but=others) >= wanted:
                replica.needed, replica.raised = wanted, replica.lowered
                self.say("server", host.number, "raises shard", shard, "to", wanted)
                self.say_copied(host, shard)

    def say_copied_at(self, host: Host, shard: int) -> None:
        """In the small form: a primary says, whenever it is so, that as many copies as are wanted have all that it had
        when it began to serve."""
        server, replica, rules = host.server, host.at[shard], self.rules
        if not host.answers or host.cell(shard).kind is not Kind.PRIMARY or replica.needed == 1:
            return
        self.owe(host, shard)
        if rules.copied_of_all and self.count(host, shard, replica.began) < replica.needed:
            return
        settled = host.reopened if rules.copied_names_settled else server.base
        copies = replica.needed if rules.is_built else 0
        copied, said = CopiedAt(host.number, server.journal, settled, shard, copies), self.network.copied
        if copied in said:
            said.remove(copied)
        said.append(copied)
