"""Questions between replicas: leave to drop, and who has the greatest copy. They are numbered, and come late, or
again."""
from __future__ import annotations

import random
from collections import Counter

from driving_model.cells import Kind, PRIMARY, Verb, serving

from .copies import Told
from .host import Host, Open
from .messages import Answer, Asks, Question
from .rules import Rules

# How many questions and answers are kept that may still come.
MOST_KEPT = 60


class Asking:
    """The part of a world in which replicas ask each other."""

    rules: Rules
    hosts: list[Host]
    dice: random.Random
    coverage: Counter[str]
    is_fair: bool
    questions: list[Question]
    answered: list[Answer]
    questions_asked: int

    # Asking.

    def ask(self, host: Host, shard: int) -> None:
        """A server asks what its shard's work needs, and some questions and answers come."""
        asks = self.asks_for(host, shard)
        if asks is None or not host.answers or not host.server.is_known:
            return
        if asks is Asks.LEAVE and host.runs(shard) and not self.has_primary_elsewhere(host, shard):
            return
        for to in self.asked_by(host, shard, asks):
            if self.hosts[to].answers:
                self.ask_one(host, shard, to)
        del self.questions[:-MOST_KEPT], self.answered[:-MOST_KEPT]
        self.exchange(host, shard)

    def ask_one(self, host: Host, shard: int, to: int) -> None:
        """A question goes to a server, under the number that is open, or under a fresh one."""
        asks, replica = self.asks_for(host, shard), host.at[shard]
        if replica.asking is None or replica.asking.asks is not asks:
            self.questions_asked += 1
            replica.asking = Open(self.questions_asked, asks)
            replica.copy.flush()
        number, life = replica.asking.number, self.hosts[to].life_of(shard)
        others = len(replica.terms.replicas - {host.number})
        self.questions.append(Question(number, asks, shard, host.number, to, replica.connection, life, others))

    def exchange(self, host: Host, shard: int) -> None:
        """Some questions and answers come; in a fair end all that are open."""
        if self.is_fair:
            self.questions = [it for it in self.questions if self.is_open(it)]
            for it in list(self.questions):
                self.answer(it)
            for it in list(self.answered):
                self.take_answer(it)
        late = [it for it in self.answered if (it.question.by, it.question.shard) == (host.number, shard)]
        if late and self.dice.random() < 0.4:
            self.take_answer(self.dice.choice(late))
        for _ in range(self.dice.choice([1, 2, 5])):
            if self.questions:
                self.answer(self.dice.choice(self.questions[-6:]))
            if self.answered:
                self.take_answer(self.dice.choice(self.answered[-6:]))

    def is_open(self, question: Question) -> bool:
        """The question is still open."""
        asking = self.hosts[question.by].at[question.shard].asking
        return asking is not None and asking.number == question.number

    def asks_for(self, host: Host, shard: int) -> Asks | None:
        """What a server asks: leave for a drop, and who has the greatest copy for a `change` to primary."""
        call, replica = host.server.slots[shard].call, host.at[shard]
        if call is not None and call.verb is Verb.DROP:
            return None if replica.has_leave or self.is_alone(host, shard) else Asks.LEAVE
        is_change = call is not None and call.verb is Verb.CHANGE and call.role is Kind.PRIMARY
        return Asks.GREATEST if is_change else None

    def asked_by(self, host: Host, shard: int, asks: Asks) -> list[int]:
        """Whom a server asks: for leave who serves the shard, or else the replicas that it was told of."""
        if asks is Asks.LEAVE and self.has_primary_elsewhere(host, shard):
            return [it for it in serving(self.row(shard)) if it != host.number]
        return [it for it in sorted(host.at[shard].terms.replicas) if it != host.number]

    @staticmethod
    def has_primary_elsewhere(host: Host, shard: int) -> bool:
        """The server was told of a primary, and is none itself."""
        return host.at[shard].terms.primary is not None and host.cell(shard).kind is not Kind.PRIMARY

    @staticmethod
    def is_alone(host: Host, shard: int) -> bool:
        """Nobody else was named as a replica of the shard."""
        return host.at[shard].terms.replicas <= {host.number}

    # Answering.

    def answer(self, question: Question) -> None:
        """A question comes to the primary, or to a replica."""
        host = self.hosts[question.to]
        if not host.answers or self.has_ended(host, question) or not self.has_replica(host, question.shard):
            return
        replica = host.at[question.shard]
        if self.rules.connections_numbered and replica.newest.get(question.by, -1) > question.connection:
            self.coverage["a question too late"] += 1
            return
        replica.newest[question.by] = question.connection
        if question.asks is Asks.GREATEST:
            self.tell_copy(host, question)
        elif host.number in serving(self.row(question.shard)) and not (host.drops(question.shard) and replica.asking):
            self.give_leave(host, question)
        else:
            self.answer_as_replica(host, question)

    def give_leave(self, host: Host, question: Question) -> None:
        """Who serves, and has reached the cut, gives leave if enough others have all that is acknowledged, now or
        before it started."""
        replica, shard = host.at[question.shard], question.shard
        if not self.may_acknowledge(host, shard, self.row(shard)) and self.rules.leave_at_cut:
            return
        self.owe(host, shard)
        needed = self.leave_asks(replica.needed, replica.terms.wanted, question.others)
        if self.count(host, shard, replica.owed, but=frozenset({question.by})) >= needed:
            replica.left[question.by] = question.connection
            self.answered.append(Answer(question, None, gives_leave=True))
            self.coverage["leave given"] += 1

    def answer_as_replica(self, host: Host, question: Question) -> None:
        """A replica says to one that leaves what it has. Who asks for leave itself answers a lower server, and asks
        anew; who has leave answers nobody."""
        replica = host.at[question.shard]
        is_leaving = host.drops(question.shard) and self.rules.leaver_uncounted
        if is_leaving and replica.has_leave:
            return
        if is_leaving and replica.asking:
            if not self.rules.lower_asks_first or host.number < question.by:
                return
            replica.asking = None
        self.tell_copy(host, question)

    def tell_copy(self, host: Host, question: Question) -> None:
        """A replica says what it has."""
        replica = host.at[question.shard]
        told = replica.copy.told(self.rules.told_flushed)
        if told is not None or not self.rules.change_counts_whole:
            self.answered.append(Answer(question, told, former=replica.former))

    # Taking answers.

    def take_answer(self, answer: Answer) -> None:
        """An answer comes to the one that asked."""
        question = answer.question
        host = self.hosts[question.by]
        replica = host.at[question.shard]
        is_open = replica.asking is not None and replica.asking.asks is question.asks
        is_it = is_open and (replica.asking.number == question.number or not self.rules.leave_numbered)
        if not host.answers or not is_it:
            self.coverage["an answer too late"] += 1
            return
        if not answer.gives_leave:
            replica.asking.answers[question.to] = answer
        if question.asks is Asks.LEAVE and (answer.gives_leave or self.others_have_all(host, question.shard)):
            if answer.gives_leave == self.has_primary_elsewhere(host, question.shard):
                replica.has_leave = True
                self.say("server", host.number, "has leave to drop shard", question.shard, "by", answer)
                self.coverage["leave taken"] += 1

    def others_have_all(self, host: Host, shard: int) -> bool:
        """Without another primary: enough replicas have told all that the leaver has."""
        replica, order = host.at[shard], host.order(shard)
        if not replica.copy.is_whole and self.rules.leave_of_whole:
            return False
        if self.has_a_later_view(host, shard):
            return False
        own = replica.copy.told() or Told(replica.copy.view, -1)
        others = len(replica.terms.replicas - {host.number})
        needed = order.terms.copies if order else replica.needed
        enough = self.leave_asks(needed, replica.terms.wanted, others)
        told = [it.told for it in replica.asking.answers.values() if it.told]
        return sum(it >= own for it in told) >= enough and not host.runs(shard)

    def leave_asks(self, needed: int, wanted: int, others: int) -> int:
        """How many copies leave asks for at others, though fewer acknowledge."""
        if self.rules.is_small:
            return wanted if self.rules.leave_of_wanted else 1
        if not self.rules.leave_of_all:
            return max(needed, 1)
        return max(needed, min(wanted, others) if self.rules.leave_of_fewer else wanted)

    def has_a_later_view(self, host: Host, shard: int) -> bool:
        """The server's copy is of a view that began after what ended the last primary that it was told of: another one
        serves, or has served, and may count it. In the built form nobody is told of that."""
        rules = self.rules
        if not (rules.leave_of_settled_view if rules.is_built else rules.leave_of_present):
            return False
        former = host.at[shard].terms.former if not rules.is_built else None
        return host.cell(shard) != PRIMARY and host.copy(shard).view > (former[1] if former else host.reopened)

    def has_greatest(self, host: Host, shard: int) -> bool:
        """The server may become primary: it has a whole copy, and of the replicas that were named all but `copies` less
        one, itself among them, have told whole ones, none of them greater; or the former primary is among them."""
        replica, mine = host.at[shard], host.copy(shard).told()
        if mine is None:
            return False
        terms, asking = replica.terms, replica.asking
        told = asking.answers if asking and asking.asks is Asks.GREATEST else {}
        answers = {by: it for by, it in told.items() if by in terms.replicas}
        if any(it.told and it.told > mine for it in answers.values()):
            return False
        ended = {(by, it.former) for by, it in answers.items()} | {(host.number, replica.former)}
        if self.rules.former_counts and terms.former in ended:
            return True
        missing = terms.copies - 1 if self.rules.change_by_count else 0
        return len(answers) + 1 >= len(terms.replicas | {host.number}) - missing
