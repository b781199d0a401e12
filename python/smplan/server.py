"""A frame for servers whose shards move by `smplan-control run`: all that docs/YOUR-SERVERS.md asks for, over a service's own work
(`server_shard.Service`) and a store (`server_storage`). examples/kv_http.py is a service. ports/go has the same frame, and moves shards with it.
"""
from __future__ import annotations

import argparse
import json
import os
import ssl
import sys
import threading
import time
from concurrent.futures import ThreadPoolExecutor
from dataclasses import dataclass
from typing import Any, Callable, Dict, List, Optional, Sequence

from .access import read_certificate, read_token
from .failure import Failure
from .server_aside import Aside
from .server_copied import TOO_FEW, Copied, copies_of
from .server_http import Caller, listen
from .server_leave import Leaves
from .server_offers import Offers
from .server_orders import Orders
from .server_records import Records
from .server_requests import Requests
from .server_shard import Live, Service
from .server_storage import Sqlite, Storage
from .server_streams import Streams
from .server_whole import Whole

__all__ = ["Limits", "Server", "Service", "Sqlite", "Storage", "main", "run"]

Line = Dict[str, Any]


@dataclass(frozen=True)
class Limits:
    """Times in seconds: for how long an order's answer waits for its work, work is tried, a request waits, a peer may be silent, a fence waits for
    requests, between two tries, and for how long the identities of requests are kept."""

    answering: float = 1.0
    working: float = 30.0
    waiting: float = 3.0
    peer: float = 3.0
    fencing: float = 2.0
    resting: float = 0.5
    keeping: float = 3600.0


class Server:
    """A server, which takes messages by `answer`, and sends them by `call`. It acknowledges only what `copies` servers have, itself among them."""

    def __init__(self, name: str, service: Service, storage: Storage, controllers: Sequence[str], is_new: bool = False, token: Optional[str] = None,
                 limits: Limits = Limits(), tls: Optional[ssl.SSLContext] = None, forgets: bool = False, copies: int = 1) -> None:
        if copies < 1:
            raise Failure(TOO_FEW)
        self.name, self.service, self.storage, self.controllers, self.limits = name, service, storage, list(controllers), limits
        self.token, self.tls, self.copies = token, tls, copies
        self.changed, self.pool, self.beside = threading.Condition(), ThreadPoolExecutor(64), ThreadPoolExecutor(16)
        self.shards: Dict[str, Live] = {}
        self.call: Callable[[str, Optional[Line], float], Any] = Caller(token).call
        self.offers, self.streams, self.leaves, self.orders = Offers(self), Streams(self), Leaves(self), Orders(self)
        self.requests, self.whole, self.aside, self.copied = Requests(self), Whole(self), Aside(self), Copied(self)
        with storage.transaction() as tx:
            if is_new and tx.get("frame/base") is None:
                tx.put("frame/new", "1")
            if forgets:
                tx.delete("frame/new")
                self.whole.forget(Records(tx))
            self.fleet: Dict[str, Any] = Records(tx).fleet()
        told = {"/order": self.orders.take, "/fence": self.whole.fence, "/settle": self.whole.settle, "/restore": self.whole.restore,
                "/notice": self.whole.notice}
        self.routes = {
            **{path: self.to_it(take) for path, take in told.items()}, "/base": self.whole.tell_base, "/slots": self.whole.tell_slots,
            "/aside": self.aside.answer, "/peer/follow": self.offers.taken, "/peer/copy": self.offers.given, "/peer/leave": self.leaves.given,
            "/peer/pass": self.requests.passed, "/peer/life": self.whole.tell_life, "/request": self.requests.take}
        self.whole.start()

    def to_it(self, take: Callable[[Line], Line]) -> Callable[[Line], Line]:
        """Takes a controller's messages, and refuses those that name another server."""
        def taken(line: Line) -> Line:
            if line.get("server") not in (None, self.name):
                raise ValueError(f"it is {self.name}, and not {line['server']}")
            return take(line)
        return taken

    def answer(self, path: str, line: Line) -> Line:
        """Answers a message."""
        return self.routes[path](line)

    # -- servers and their numbers, which last

    @property
    def numbers(self) -> Dict[str, int]:
        """All servers' numbers by name."""
        return {name: it["number"] for name, it in self.fleet.items()}

    @property
    def names(self) -> Dict[int, str]:
        """All servers' names by number."""
        return {it["number"]: name for name, it in self.fleet.items()}

    @property
    def number(self) -> int:
        """Its own number."""
        return self.fleet[self.name]["number"]

    def others(self) -> List[int]:
        """The numbers of all others that the fleet's file has now."""
        return [it["number"] for name, it in self.fleet.items() if name != self.name and it["url"]]

    def name_of(self, number: int) -> str:
        """A server's name."""
        return self.names.get(number, str(number))

    def learn(self, told: Dict[str, Any]) -> None:
        """Takes the servers that a controller tells of. A number belongs to one name for ever, also if the server is gone."""
        with self.storage.transaction() as tx:
            known = Records(tx).fleet()
            for name, it in told.items():
                if any((name == other) != (it["number"] == one["number"]) for other, one in known.items()):
                    raise Failure(f"{self.name}: the number {it['number']} of {name} was another one, or another server's: {known}")
            fleet = {**{name: {**it, "url": ""} for name, it in known.items()}, **told}
            if fleet != known:
                tx.put("frame/fleet", json.dumps(fleet))
            self.fleet = fleet

    def look(self) -> bool:
        """Asks the controllers for the servers. Whether one has answered."""
        for controller in self.controllers:
            try:
                self.learn(self.call(f"{controller}/fleet", None, self.limits.peer)["servers"])
                return True
            except (OSError, ValueError, KeyError, TypeError):
                continue
        return False

    def know(self, line: Line) -> None:
        """Looks for servers that a message names, and that it does not know yet."""
        named = {line.get("from"), line.get("to"), line.get("primary"), *(line.get("replicas") or ())}
        named |= {it.get("party") for it in line.get("slots") or ()}
        if named - {None, "primary", "secondary"} - set(self.fleet):
            self.look()

    def ask(self, number: int, route: str, line: Line, seconds: float) -> Line:
        """Asks another server; OSError or ValueError if it does not answer."""
        url = self.fleet.get(self.name_of(number), {}).get("url")
        if not url:
            raise OSError(f"there is no server {number}")
        return self.call(f"{url}/peer/{route}", line, seconds)

    # -- what changes in memory

    def live(self, shard: str) -> Live:
        """What it has of a shard in memory."""
        with self.changed:
            return self.shards.setdefault(shard, Live())

    def wake(self) -> None:
        """Lets all who wait look again."""
        with self.changed:
            self.changed.notify_all()

    def wait(self, condition: Callable[[], bool], seconds: float) -> bool:
        """Waits for something that changes in memory. Whether it has come."""
        with self.changed:
            return self.changed.wait_for(condition, seconds)

    def heed(self, journal: int, fence: int) -> None:
        """Looks at the last reopening that a message names."""
        self.whole.heed(journal, fence)

    # -- what goes on by itself

    def repeat(self, work: Callable[[], Any], seconds: float) -> None:
        """Does something again and again."""
        while True:
            time.sleep(seconds)
            try:
                work()
            except Failure as why:
                print(why, file=sys.stderr, flush=True)
                os._exit(2)
            except Exception as why:  # pylint: disable=broad-exception-caught  (the next round comes)
                print(f"{self.name}: {type(why).__name__} {why}", file=sys.stderr, flush=True)

    def ask_for_slots(self) -> None:
        """Asks each controller, under its nonce, if it is Unknown."""
        for controller in self.controllers:
            with self.storage.transaction() as tx:
                base = Records(tx).base()
            if base.known:
                return
            try:
                told = self.call(f"{controller}/restore", {"server": self.name, "nonce": f"{base.nonce:x}"}, self.limits.peer)
                self.whole.restore(told["restore"])
            except (OSError, ValueError, KeyError):
                continue  # (it is not there, does not lead, or gives none yet)

    def run(self) -> None:
        """Listens at its address, for ever."""
        while self.name not in self.fleet:
            if not self.look():
                time.sleep(0.2)
            elif self.name not in self.fleet:
                raise Failure(f"the fleet's file names no {self.name}")
        rest = self.limits.resting
        for work, seconds in ((self.streams.keep_up, rest), (self.ask_for_slots, rest), (self.copied.tell, rest), (self.look, 4 * rest)):
            threading.Thread(target=self.repeat, args=(work, seconds), daemon=True).start()
        listen(self.fleet[self.name]["url"], self.routes, self.token, self.tls)


def run(name: str, service: Service, storage: Storage, controllers: Sequence[str], **rest: Any) -> None:
    """Runs a server of a service."""
    Server(name, service, storage, controllers, **rest).run()


def main(service: Service, text: str) -> None:
    """Runs a server of a service over a store in SQLite, as the command line says; `text` tells of the service."""
    parser = argparse.ArgumentParser(description=text, formatter_class=argparse.RawDescriptionHelpFormatter)
    parser.add_argument("name", metavar="NAME", help="the server's, as the fleet's file has it")
    parser.add_argument("controllers", metavar="CONTROLLERS", help="their addresses, with commas: http://127.0.0.1:9200")
    parser.add_argument("store", metavar="STORE", help="the file of its store: /var/lib/kv/NAME.sqlite")
    once = parser.add_mutually_exclusive_group()
    once.add_argument("--new", action="store_true", help="the service is new, and no shard has data yet")
    once.add_argument("--forget", action="store_true", help="the server was given up: it is to be added again, and asks for its slots anew")
    parser.add_argument("--copies", type=copies_of, default=1, metavar="N", help="acknowledge only what N servers have, the same at all servers of the service (1)")
    parser.add_argument("--token", metavar="FILE", help="the controller's token: all but clients have to show it")
    parser.add_argument("--tls", nargs=2, metavar=("CERT", "KEY"), help="serve by TLS, at an address with https")
    told = parser.parse_args()
    try:
        token, tls = read_token(told.token), read_certificate(told.tls)
        run(told.name, service, Sqlite(told.store), told.controllers.split(","), is_new=told.new, forgets=told.forget, token=token, tls=tls,
            copies=told.copies)
    except Failure as why:
        sys.exit(f"{told.name}: {why}")
