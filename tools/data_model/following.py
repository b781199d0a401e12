"""Who follows whom: copies that come, words on numbered connections, and whom an acknowledger counts."""
from __future__ import annotations

import random
from collections import Counter

from driving_model.cells import ABSENT, Cell, Kind, SECONDARY, Verb, serving

from . import laws
from .clients import Writes
from .copies import Copy, Told
from .host import Heard, Host
from .messages import Question, Word
from .rules import Rules

# How many words are kept that may still come.
MOST_WORDS = 80


class Following:
    """The part of a world in which copies come and are told."""

    rules: Rules
    hosts: list[Host]
    writes: Writes
    dice: random.Random
    coverage: Counter[str]
    is_fair: bool
    words: list[Word]

    # Whom a server follows.

    def sources(self, host: Host, shard: int, row: list[Cell]) -> list[Host]:
        """Whom a server follows: a party of a handover the other one; a secondary, and who is at work to be one, the
        primary, in a handover both parties, and if it was told that there is no primary whoever has more."""
        cell, call = row[host.number], host.server.slots[shard].call
        if cell.is_in_handover:
            return [self.hosts[it] for it in self.source_of(row, host.number)]
        brings = cell == ABSENT and call is not None and call.verb in (Verb.ADD, Verb.PREPARE_ADD)
        if cell != SECONDARY and not brings:
            return []
        owners = serving(row) + [it for it, other in enumerate(row) if other.kind is Kind.FORWARDING]
        if owners or host.at[shard].terms.primary is not None:
            return [self.hosts[it] for it in owners]
        mine = host.copy(shard).all or Told(host.copy(shard).view, -1)
        others = (it for it in self.hosts if it is not host and it.cell(shard) == SECONDARY)
        return [it for it in others if it.copy(shard).all and it.copy(shard).all > mine]

    def follow(self, shard: int) -> None:
        """Each server that follows another one gets some of the writes that it lacks; some becomes durable, and is
        told."""
        row = self.row(shard)
        for host in self.hosts:
            able = [it for it in self.sources(host, shard, row) if it.answers and it.copy(shard).is_whole]
            if able and host.answers and host.server.is_known and (self.is_fair or self.dice.random() < 0.6):
                self.follow_one(host, max(able, key=lambda it: it.copy(shard).all), shard)
        for host in self.hosts:
            if host.answers and self.dice.random() < 0.6:
                host.copy(shard).flush()
        self.tell(shard, row)
        for _ in range(self.dice.choice([1, 2, 4])):
            self.hear(shard)
        for it in self.words[-12:] if self.is_fair else ():
            self.hear_word(it)

    def follow_one(self, host: Host, source: Host, shard: int) -> None:
        """A server gets some of the writes of its source."""
        replica, rules = host.at[shard], self.rules
        copy, sent = replica.copy, source.copy(shard).sent(rules.durable_first)
        if not copy.is_whole and not self.may_copy_from(host, source, shard):
            return
        if replica.has_lost_stream and not copy.part:
            if self.may_copy_from(host, source, shard):
                self.copy_anew(host, shard, sent)
            return
        most = self.dice.choice([sent.position, self.dice.randint(0, sent.position)])
        was, had = (copy.all, bool(copy.part)), copy.kept()
        copy.take(sent, most, rules.views_resumed, rules.lesser_waits, rules.anew_beside, rules.views_in_turn)
        self.coverage["copies anew"] += bool(copy.part) and not was[1]
        if bool(was[0]) != copy.is_whole:
            self.say("server", host.number, "has copied shard", shard, "of", source.number, "or has to")
        if was[0] and (not copy.is_whole or was[1] and not copy.part):
            self.replaced_copy(host, shard)
        self.set_aside(host, shard, had)

    def may_copy_from(self, host: Host, source: Host, shard: int) -> bool:
        """A copy may be made anew from this source: it may acknowledge, or hands the shard over to the server; or that
        has lost no copy, since it has one, or is only to be a replica."""
        row = self.row(shard)
        cell = row[host.number]
        if self.may_acknowledge(source, shard, row) or (cell.kind is Kind.PREPARED and cell.party == source.number):
            return True
        has_lost_none = host.copy(shard).is_whole or cell == ABSENT
        return (row[source.number] == SECONDARY and has_lost_none) or not self.rules.anew_of_acknowledger

    def copy_anew(self, host: Host, shard: int, sent: Copy) -> None:
        """A stream is lost, so that a copy is made anew although it is a beginning of its source."""
        copy = host.copy(shard)
        if self.rules.lesser_waits and copy.all and copy.all > Told(sent.view, sent.position):
            return
        if not self.rules.anew_beside:
            copy.clear()
        self.coverage["copies anew though a beginning"] += copy.is_whole
        had = copy.kept()
        copy.make_anew(sent, self.dice.choice([sent.position, self.dice.randint(0, sent.position)]))
        if copy.part is None or not copy.is_whole:
            self.replaced_copy(host, shard)
        self.set_aside(host, shard, had)

    def replaced_copy(self, host: Host, shard: int) -> None:
        """Another copy has taken the place of the old one, or that was deleted: the server connects anew."""
        host.at[shard].has_lost_stream = False
        host.hang_up(shard)
        self.say("server", host.number, "has another copy of shard", shard)

    def set_aside(self, host: Host, shard: int, had: frozenset[int]) -> None:
        """What a server had before its copy was replaced or taken away, and has no more."""
        gone = had.difference(host.copy(shard).writes)
        if self.rules.set_aside:
            host.at[shard].aside |= gone
            self.coverage["set aside"] += bool(gone & self.writes.named[shard])
        laws.named_writes_stay(self, host, shard, gone)

    # What followers tell.

    def has_replica(self, host: Host, shard: int) -> bool:
        """The server is a replica of the shard: no order that is to bring it is still at work."""
        brings = host.order(shard) is not None and not self.rules.told_committed
        return host.cell(shard) != ABSENT or brings

    def tell(self, shard: int, row: list[Cell]) -> None:
        """Followers tell what they have."""
        for host in self.hosts:
            replica = host.at[shard]
            if not host.answers or not host.server.is_known or not self.has_replica(host, shard):
                continue
            if self.rules.leaver_silent and host.drops(shard) and (replica.asking or replica.has_leave):
                continue
            told = replica.copy.told(self.rules.told_flushed)
            if told is None:
                continue
            for source in self.sources(host, shard, row):
                if source is not host and source.answers:
                    names = (shard, host.number, source.number, replica.connection, source.life_of(shard))
                    self.words.append(Word(*names, replica.settled, told))
        del self.words[:-MOST_WORDS]

    def hear(self, shard: int) -> None:
        """What a follower has told comes, now or late, and maybe again."""
        words = [it for it in self.words if it.shard == shard]
        if words:
            self.hear_word(self.dice.choice(words[-8:]))

    def hear_word(self, word: Word) -> None:
        """A word comes."""
        host = self.hosts[word.to]
        replica = host.at[word.shard]
        is_late = self.rules.connections_numbered and replica.newest.get(word.by, -1) > word.connection
        if not host.answers or self.has_ended(host, word) or is_late:
            self.coverage["told too late"] += 1
            return
        replica.newest[word.by] = word.connection
        before = replica.heard.get(word.by)
        if before is None or before.connection != word.connection or before.told <= word.told:
            replica.heard[word.by] = Heard(word.connection, word.settled, word.told)

    def has_ended(self, host: Host, said: Word | Question) -> bool:
        """The connection has ended since this was said."""
        starts, endings = said.life
        return (starts != host.life and self.rules.connections_end) or endings != host.at[said.shard].endings

    # Whom an acknowledger counts.

    def counts(self, host: Host, shard: int, other: int, position: int) -> bool:
        """The server counts another one for the writes up to a position, by what it has heard."""
        replica = host.at[shard]
        heard, left = replica.heard.get(other), replica.left.get(other)
        if heard is None or heard.told.position < position:
            return False
        if self.rules.counted_settled and not self.is_settled_with(host, heard):
            return False
        if left is not None and heard.connection <= left and self.rules.leaver_uncounted:
            return False
        return heard.told.view == replica.copy.view or not self.rules.told_at_view

    @staticmethod
    def is_settled_with(host: Host, heard: Heard) -> bool:
        """The follower began its connection settled in the journal, at the last reopening or after it."""
        journal, base = heard.settled or (None, 0)
        return heard.settled is not None and journal == host.server.journal and base >= host.reopened

    def count(self, host: Host, shard: int, position: int, but: frozenset[int] = frozenset()) -> int:
        """How many copies have the writes up to a position, its own first, but for these; without that none."""
        copy = host.copy(shard)
        own = copy.is_whole and (copy.durable if self.rules.own_durable else copy.position) >= position
        others = [it.number for it in self.hosts if it is not host and it.number not in but]
        return 1 + sum(self.counts(host, shard, it, position) for it in others) if own else 0
