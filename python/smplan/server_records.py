"""What a server keeps: its base, slots, and of each shard the list of its writes with the identities of their requests, and the list's views."""
from __future__ import annotations

import json
import time
from dataclasses import asdict, astuple, dataclass, replace
from typing import Any, Dict, List, Optional, Sequence, Tuple
from urllib.parse import quote, unquote

from . import agent
from .agent import VACANT, Answer, Base, Cell, Slot, ToldCopy, ViewStart
from .server_storage import Transaction

# How many writes a follower may lack before it is sent a whole copy.
MOST_WRITES = 1000


@dataclass(frozen=True)
class End:
    """Where a list of writes ends: how many there are, and the stamp of the last one."""

    position: int = 0
    stamp: str = ""


@dataclass(frozen=True)
class Mark:
    """Where a list of writes ends, and in which view. Two lists with one mark are the same."""

    position: int = 0
    stamp: str = ""
    view: int = 0

    @property
    def end(self) -> End:
        """Its end, whatever the view."""
        return End(self.position, self.stamp)

    @property
    def copy(self) -> ToldCopy:
        """What the agent takes for it."""
        return ToldCopy(self.view, self.position)

    def has_more_than(self, other: "Mark") -> bool:
        """Whether a copy that ends here is greater than one that ends there."""
        return agent.compare(self.copy, other.copy) == Answer.GREATER


@dataclass(frozen=True)
class Write:
    """A write of a shard: its place, a random stamp of its own, the request's identity, the command, the reply, and when (ms) it was executed."""

    position: int
    stamp: str
    request: Optional[str]
    command: Any
    reply: Any
    at: int

    @property
    def end(self) -> End:
        """Where the list ends behind this write."""
        return End(self.position, self.stamp)


@dataclass(frozen=True)
class Ledger:
    """A shard's list: its end, and the end before the first write that is still kept."""

    end: End = End()
    before: End = End()


def now() -> int:
    """The time in milliseconds."""
    return time.time_ns() // 1_000_000


class Records:
    """What is kept, in a transaction."""

    def __init__(self, tx: Transaction) -> None:
        self.tx = tx

    def place(self, kind: str, *words: str) -> str:
        """The key of a record."""
        return "/".join(["frame", kind, *(quote(it, safe="") for it in words)])

    # -- the server

    def base(self) -> Base:
        """The base; of zeros if there is none."""
        text = self.tx.get("frame/base")
        return Base(*json.loads(text)) if text else Base()

    def heard(self) -> int:
        """The number of the last reopening of its journal that it has heard of."""
        return int(self.tx.get("frame/heard") or 0)

    def put_base(self, base: Base, heard: int) -> None:
        """Stores the base."""
        self.tx.put("frame/base", json.dumps([int(it) for it in astuple(base)]))
        self.tx.put("frame/heard", str(heard))

    def counting(self) -> Tuple[int, int]:
        """The last reopening of which it has taken slots: who was settled there counts. And how many servers, itself among them, have each write that
        it acknowledges."""
        text = self.tx.get("frame/settled")
        if text is None:  # (a store of before this was kept)
            return (0 if self.base().fenced else self.heard()), 1
        settled, copies = json.loads(text)
        return settled, copies

    def put_copies(self, copies: int) -> int:
        """Stores at a start how many these are to be, and returns how many they are: no fewer than before, since a controller may count by them."""
        settled, before = self.counting()
        self.tx.put("frame/settled", json.dumps([settled, max(copies, before)]))
        return max(copies, before)

    def put_settled(self, number: int, copies: int, is_settle: bool) -> None:
        """Stores of which reopening it takes slots. Only a settle is taken before its reopening is in force: by no restore its writes are at fewer
        servers than before."""
        self.tx.put("frame/settled", json.dumps([number, copies if is_settle else max(copies, self.counting()[1])]))

    def fleet(self) -> Dict[str, Any]:
        """The servers that it knows: their numbers and addresses."""
        return json.loads(self.tx.get("frame/fleet") or "{}")

    def is_new(self) -> bool:
        """Whether the service is new, so that no shard has data yet."""
        return self.tx.get("frame/new") is not None

    # -- slots

    def slot(self, shard: str) -> Slot:
        """The slot of a shard."""
        text = self.tx.get(self.place("slot", shard))
        return Slot(*json.loads(text)[1:]) if text else VACANT if self.base().known else Slot()

    def put_slot(self, shard: str, slot: Slot) -> None:
        """Stores a slot."""
        self.tx.put(self.place("slot", shard), json.dumps([shard, *(int(it) for it in astuple(slot))]))

    def delete_slot(self, shard: str) -> None:
        """Deletes a slot."""
        self.tx.delete(self.place("slot", shard))

    def slots(self) -> Dict[str, Slot]:
        """All slots by shard."""
        told = [json.loads(text) for _, text in self.tx.list("frame/slot/")]
        return {it[0]: Slot(*it[1:]) for it in told}

    def old_owner(self, shard: str, slot: Slot) -> int:
        """Who has to have each write of a handover, live or not: the old owner until it has dropped the shard; 0 if nobody."""
        return slot.party if slot.cell == Cell.PREPARED else int(self.tx.get(self.place("old", shard)) or 0)

    def put_old_owner(self, shard: str, number: int) -> None:
        """Stores the old owner; 0 if there is none."""
        self.tx.put(self.place("old", shard), str(number)) if number else self.tx.delete(self.place("old", shard))

    # -- writes

    def has_copy(self, shard: str) -> bool:
        """Whether it has a copy of the shard, be it an empty one."""
        return self.tx.get(self.place("list", shard)) is not None

    def copies(self) -> List[str]:
        """The shards that it has a copy of."""
        return [unquote(key.rsplit("/", 1)[1]) for key, _ in self.tx.list("frame/list/")]

    def ledger(self, shard: str) -> Ledger:
        """A shard's list."""
        text = self.tx.get(self.place("list", shard))
        if text is None:
            return Ledger()
        position, stamp, *before = json.loads(text)
        return Ledger(End(position, stamp), End(*before))

    def put_ledger(self, shard: str, ledger: Ledger) -> None:
        """Stores a shard's list."""
        self.tx.put(self.place("list", shard), json.dumps([*astuple(ledger.end), *astuple(ledger.before)]))

    def views(self, shard: str) -> List[ViewStart]:
        """The views of a shard's list, in rising order. A list of before there were views is of view 0."""
        return [ViewStart(*it) for it in json.loads(self.tx.get(self.place("views", shard)) or "[[0, 0]]")]

    def put_views(self, shard: str, views: Sequence[ViewStart]) -> None:
        """Stores the views of a shard's list."""
        self.tx.put(self.place("views", shard), json.dumps(views))

    def take_views(self, shard: str, views: Sequence[ViewStart]) -> None:
        """Takes over the views of a list with the same end, which tells those from one on that this list has, too."""
        before = self.views(shard)
        after = [*(it for it in before if it.view < views[0].view), *views]
        if not self.has_copy(shard):
            self.put_ledger(shard, Ledger())
        if after != before:
            self.put_views(shard, after)

    def begin_view(self, shard: str, number: int) -> None:
        """A primary goes on from what is here, or from nothing, in a view with the number of what made it the primary."""
        earlier = self.views(shard) if self.has_copy(shard) else []
        self.put_ledger(shard, self.ledger(shard))
        self.put_views(shard, [*earlier, ViewStart(number, self.ledger(shard).end.position)])

    def mark(self, shard: str) -> Mark:
        """Where a shard's list ends."""
        return Mark(*astuple(self.ledger(shard).end), self.views(shard)[-1].view)

    def write_at(self, shard: str, position: int) -> Optional[Write]:
        """A write that is still kept."""
        text = self.tx.get(self.place("write", shard, str(position)))
        return Write(**json.loads(text)) if text else None

    def write_of(self, shard: str, request: Optional[str]) -> Optional[Write]:
        """What a request has written, if it has."""
        position = None if request is None else self.tx.get(self.place("request", shard, request))
        return None if position is None else self.write_at(shard, int(position))

    def append(self, shard: str, write: Write, keeping: float) -> None:
        """Adds a write to a shard's list, and deletes those that are old enough."""
        ledger = self.ledger(shard)
        self.tx.put(self.place("write", shard, str(write.position)), json.dumps(asdict(write)))
        if write.request is not None:
            self.tx.put(self.place("request", shard, write.request), str(write.position))
        before = ledger.before
        for _ in range(2):
            first = self.write_at(shard, before.position + 1)
            if first is None or first.position == write.position or first.at >= now() - keeping * 1000:
                break
            self.delete_write(shard, first)
            before = first.end
        self.put_ledger(shard, replace(ledger, end=write.end, before=before))

    def delete_write(self, shard: str, write: Write) -> None:
        """Deletes a write with the identity of its request."""
        self.tx.delete(self.place("write", shard, str(write.position)))
        if write.request is not None and self.tx.get(self.place("request", shard, write.request)) == str(write.position):
            self.tx.delete(self.place("request", shard, write.request))

    def kept(self, shard: str, after: int = 0) -> List[Write]:
        """The writes that are kept behind a position."""
        ledger = self.ledger(shard)
        places = range(max(after, ledger.before.position) + 1, ledger.end.position + 1)
        return [it for it in (self.write_at(shard, place) for place in places) if it is not None]

    def has(self, shard: str, mark: Mark) -> bool:
        """Whether the shard's list has another one, that ends at this mark, as its beginning; false if that can't be told any more."""
        return self.resumes(shard, mark) and self.end_at(shard, mark.position) == mark.end

    def resumes(self, shard: str, mark: Mark) -> bool:
        """Whether a list that ends at this mark is a beginning of the shard's, by its view and position."""
        return agent.resumes(mark.copy, self.views(shard), self.ledger(shard).end.position)

    def differs(self, shard: str, mark: Mark) -> bool:
        """Whether a list that ends at this mark is another one, though its view and position are those of a beginning of the shard's: a bug."""
        return self.resumes(shard, mark) and self.end_at(shard, mark.position) not in (None, mark.end)

    def end_at(self, shard: str, position: int) -> Optional[End]:
        """Where the shard's list ended when it had so many writes; none if that can't be told any more."""
        ledger, write = self.ledger(shard), self.write_at(shard, position)
        return write.end if write else next((it for it in (ledger.end, ledger.before) if it.position == position), None)

    def clear(self, shard: str) -> None:
        """Deletes a shard's list, and who was the old owner."""
        for write in self.kept(shard):
            self.delete_write(shard, write)
        for kind in ("list", "views"):
            self.tx.delete(self.place(kind, shard))
        self.put_old_owner(shard, 0)
