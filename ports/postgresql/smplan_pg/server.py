"""A PostgreSQL server's side of moving shards, driven by `smplan-control run`: all that docs/YOUR-SERVERS.md asks for, over the records of schema sm."""
from __future__ import annotations

import os
import sys
import threading
import time
from concurrent.futures import ThreadPoolExecutor
from dataclasses import dataclass, field
from typing import Any, Callable, Dict, List, Optional, Sequence, Tuple

import psycopg
from psycopg.conninfo import make_conninfo
from smplan.failure import Failure
from smplan.server_http import Caller, listen

from .copied import Copied
from .copies import Copies
from .database import Connection, Database, value
from .decisions import decisions_of
from .following import Following
from .keeping import Keeping
from .orders import Orders
from .records import Peer, Records
from .silence import Silence, patiently, say
from .sources import Sources
from .streams import Stuck
from .whole import Whole

Line = Dict[str, Any]


@dataclass(frozen=True)
class Limits:
    """Times in seconds: for how long an order's answer waits for its work; for how long an order holds new requests back while it waits for those that
    run, and rests between such tries; when it ends them; for how long a fence waits for them; when a follower that reads nothing counts no more; for how
    long identities are kept. How many copies may be made from one server at once. And how many servers have each write that is acknowledged."""

    answering: float = 1.0
    holding: float = 0.15
    resting: float = 1.0
    ending: float = 30.0
    fencing: float = 2.0
    dead: float = 5.0
    stalled: float = 60.0
    keeping: float = 3600.0
    at_once: int = 2
    copies: int = 1


@dataclass
class Live:
    """A shard in memory. Who changes its streams has its hands."""

    hands: threading.RLock = field(default_factory=threading.RLock)
    worker: int = 0
    said: str = ""
    rest_until: float = 0.0
    first_try: Dict[int, float] = field(default_factory=dict)


class Server:
    """One server: its database, its peers, and what it does by itself."""

    def __init__(self, name: str, database: Database, reach: str, controllers: Sequence[str], token: Optional[str] = None, limits: Limits = Limits(),
                 http: Optional[str] = None) -> None:
        self.name, self.database, self.reach, self.controllers, self.token, self.limits = name, database, reach, list(controllers), token, limits
        self.http = http
        self.call: Callable[[str, Optional[Line], float], Any] = Caller(token).call
        self.beside, self.lock = ThreadPoolExecutor(256), threading.Lock()
        self.agent = decisions_of(database)
        self.shards: Dict[str, Live] = {}
        self.peers: Dict[int, Peer] = {}
        self.databases: Dict[str, Database] = {}
        self.number, self.silence = 0, Silence(name)
        self.own: Optional[Connection] = None
        self.sources, self.copies, self.orders, self.following = Sources(self), Copies(self), Orders(self), Following(self)
        self.keeping, self.whole, self.copied = Keeping(self), Whole(self), Copied(self)
        routes: Dict[str, Callable[[Line], Line]] = {
            "/order": self.orders.take, "/fence": self.whole.fence, "/settle": self.whole.settle, "/restore": self.whole.restore,
            "/notice": self.whole.notice, "/base": self.whole.tell_base, "/slots": self.whole.tell_slots, "/reach": self.tell_reach}
        self.routes = {path: self.answered(route) for path, route in routes.items()}

    def say(self, *words: object) -> None:
        """Tells what happens, in the log."""
        say(self.name, *words)

    def live(self, shard: str) -> Live:
        """What it has of a shard in memory."""
        with self.lock:
            return self.shards.setdefault(shard, Live())

    # -- other servers

    @property
    def numbers(self) -> Dict[str, int]:
        """All servers' numbers by name."""
        return {it.name: it.number for it in self.peers.values()}

    @property
    def names(self) -> Dict[int, str]:
        """All servers' names by number."""
        return {it.number: it.name for it in self.peers.values()}

    def others(self) -> List[int]:
        """The numbers of all others that the fleet's file has now."""
        return [it.number for it in self.peers.values() if it.number != self.number and it.url]

    def tell_reach(self, _: Line) -> Line:
        """How other servers reach the database."""
        return {"name": self.name, "reach": make_conninfo(self.reach, **{"connect_timeout": "5", "application_name": f"smplan-{self.name}"})}

    def peer(self, number: int) -> Database:
        """Another server's database."""
        it = self.peers.get(number)
        if it is None or it.reach is None:
            raise Stuck(f"the database of server {number} is not known yet")
        with self.lock:
            if it.reach not in self.databases:
                self.databases[it.reach] = Database(it.reach, patience=5.0)
            return self.databases[it.reach]

    def cut_off(self) -> None:
        """Waits no more for servers that stand still."""
        with self.lock:
            its = list(self.databases.values())
        for it in its:
            it.cut_off()

    def learn(self, told: Dict[str, Any]) -> None:
        """Takes the servers that a controller tells of. A number belongs to one name for ever, also if the server is gone."""
        with self.database.transaction() as tx:
            known = Records(tx).peers()
            for name, it in told.items():
                if any((name == one.name) != (it["number"] == number) for number, one in known.items()):
                    raise Failure(f"{self.name}: the number {it['number']} of {name} was another one, or another server's: {known}")
                tx.execute("INSERT INTO sm.servers VALUES (%s, %s, %s) ON CONFLICT (number) DO UPDATE SET url = excluded.url WHERE sm.servers.url <> excluded.url",
                           (it["number"], name, it["url"]))
            tx.execute("UPDATE sm.servers SET url = '' WHERE url <> '' AND NOT name = ANY(%s)", (list(told),))
            number = told[self.name]["number"] if self.name in told else self.number
            if self.name in told:
                tx.execute("UPDATE sm.state SET me = %s, name = %s WHERE me IS DISTINCT FROM %s",
                           (number, self.name, number))
            peers = Records(tx).peers()
        self.number, self.peers = number, peers

    def look(self) -> bool:
        """Asks the controllers for the servers, and these for their databases. Whether a controller has answered."""
        for controller in self.controllers:
            try:
                self.learn(self.call(f"{controller}/fleet", None, 3.0)["servers"])
                break
            except (OSError, ValueError, KeyError, TypeError):
                continue
        else:
            return False
        for it in self.peers.values():
            if it.url and it.number != self.number:
                self.ask_reach(it)
        return True

    def ask_reach(self, peer: Peer) -> None:
        """Asks another server how its database is reached, and stores it."""
        try:
            reach = self.call(f"{peer.url}/reach", None, 1.0)["reach"]
        except (OSError, ValueError, KeyError):
            return
        if reach != peer.reach:
            self.database.do("UPDATE sm.servers SET reach = %s WHERE number = %s", reach, peer.number)
            self.peers[peer.number] = Peer(peer.number, peer.name, peer.url, reach)

    def know(self, line: Line) -> None:
        """Looks for servers that a message names, and that it does not know yet."""
        named = {line.get("from"), line.get("to"), line.get("primary"), *(line.get("replicas") or ())}
        named |= {it.get("party") for it in line.get("slots") or ()}
        if named - {None, "primary", "secondary"} - set(self.numbers):
            self.look()

    # -- what goes on by itself

    def repeat(self, work: Callable[[], Any], seconds: float) -> None:
        """Does something again and again. The same trouble is told once."""
        told = ""
        while True:
            try:
                work()
                told = ""
            except Failure as why:
                print(why, file=sys.stderr, flush=True)
                os._exit(2)
            except Exception as why:  # pylint: disable=broad-exception-caught  (the next round comes)
                told = self.tell(why, told)
            time.sleep(seconds)

    def tell(self, why: Exception, told: str) -> str:
        """Tells of trouble, unless it was told before. Its words."""
        words = f"{type(why).__name__} {why}".strip()
        if words != told:
            self.say(words)
        return words

    def ask_for_slots(self) -> None:
        """Asks each controller, under its nonce, if it is Unknown."""
        for controller in self.controllers:
            with self.database.transaction() as tx:
                base = Records(tx).base()
            if base.known:
                return
            try:
                told = self.call(f"{controller}/restore", {"server": self.name, "nonce": f"{base.nonce:x}"}, 3.0)
                self.whole.restore(told["restore"])
            except (OSError, ValueError, KeyError):
                continue  # (it is not there, does not lead, or gives none yet)

    def start(self, tries: int = 50) -> None:
        """Takes the database for itself, and begins without work, with the servers that are stored."""
        own = self.database.connect()
        try:
            while not value(own.execute("SELECT pg_try_advisory_lock(1936531058, 0)").fetchone()):
                tries -= 1
                if not tries:
                    raise Failure(f"another smplan-pg serves the database of {self.name}")
                time.sleep(0.1)
            self.whole.start()
            with self.database.transaction() as tx:
                self.peers = Records(tx).peers()
            self.number = self.numbers.get(self.name, self.number)
        except BaseException:
            own.close()
            raise
        self.own = own

    def begin(self, *works: Tuple[Callable[[], Any], float]) -> None:
        """Begins what goes on by itself, each again after so many seconds."""
        for work, seconds in works:
            threading.Thread(target=self.repeat, args=(work, seconds), daemon=True).start()

    def find(self) -> None:
        """Looks until the fleet's file has told its number, however long controllers or the database are away."""
        told = ""
        while not self.number:
            try:
                if self.look() and not self.number:
                    raise Failure(f"the fleet's file names no {self.name}")
            except psycopg.OperationalError as why:
                told = self.tell(why, told)
            time.sleep(0.2)

    def run(self) -> None:
        """Listens at its address, that of the fleet's file unless it was told another one, for ever."""
        patiently(self.silence, self.database, self.start)
        self.begin((self.keep_own, 1.0), (self.silence.look, 0.5))
        self.find()
        self.begin((self.look, 2.0), (self.cut_off, 1.0), (self.ask_for_slots, 0.5), (self.following.watch, 0.2),
                   (self.following.listen, 0.5), (self.keeping.leave_out_the_dead, 1.0), (self.keeping.tidy, 2.0),
                   (self.keeping.tidy_sources, 3.0), (self.keeping.drop_unread, 2.0), (self.copied.tell, 0.5),
                   (self.copied.look, 2.0))
        listen(self.http or self.peers[self.number].url, self.routes, self.token, tls=None)

    def keep_own(self) -> None:
        """Takes the database again after its restart, and begins without work then."""
        assert self.own is not None
        try:
            self.own.execute("SELECT 1")
        except psycopg.Error as why:
            self.own.close()
            self.silence.begin(why)
            self.start()
        self.silence.end()

    def answered(self, route: Callable[[Line], Line]) -> Callable[[Line], Line]:
        """A route whose trouble with a database is an answer, too: none, so that the message comes again. It has no
        other one before the database is taken again."""
        def answer(line: Line) -> Line:
            if self.own is not None and self.own.closed:
                raise OSError(f"the database of {self.name} is away")
            try:
                return route(line)
            except (Stuck, psycopg.Error) as why:
                raise OSError(f"{type(why).__name__} {why}".strip()) from None
        return answer
