"""`smplan-control run`: a controller over a session that keeps its own journal, for servers in any language (docs/CONTROLLER.md)."""
from __future__ import annotations

import argparse
import asyncio
import json
import logging
import secrets
import shlex
import signal
import socket
import ssl
import sys
from dataclasses import dataclass
from pathlib import Path
from typing import TYPE_CHECKING, Any, Dict, List, Optional, Sequence, Set, Tuple
from urllib.parse import urlsplit

from .access import is_loopback, read_certificate, read_token
from .control import Controller, Line, Pace, Session, SessionEnded, StoreLost
from .control_begins import emptied_by, servers_of
from .control_document import Unknown, document_of_state
from .control_drain import at_least
from .control_fleet import FleetFile, HttpFleet
from .control_http import Page, Route, Server, serve
from .control_map import MapFile
from .control_metrics import metric, metrics_of
from .control_rotation import Rotation
from .control_rotation_file import FileRotation
from .control_serve import line_of, routes_of
from .failure import Failure

if TYPE_CHECKING:
    from .control_run_etcd import EtcdSettings

log = logging.getLogger("smplan.run")

# What a handler may say that an operator should hear of, as no checked plan is behind it.
ALARMING = ("old", "foreign", "refused", "down", "already_held", "not_held", "wrong_role", "no_room")

# How old a message is when it is told as stuck, in seconds.
STUCK = 60.0

# What the end of a session may be that this program ends with as well, so that whoever restarts it knows: a fault of the command line, a journal that takes
# nothing, one that another process has, one that is damaged. Any other end is told as 3.
PASSED_ON = frozenset([2, 4, 5, 6])


@dataclass(frozen=True)
class Settings:
    """How a controller runs."""

    fleet: str
    program: Tuple[str, ...]
    host: str
    port: int
    document: Optional[Line] = None
    token: Optional[str] = None
    tls: Optional[ssl.SSLContext] = None
    pace: Pace = Pace()
    rotate_at: Optional[int] = None


async def keep(lines: Sequence[str]) -> Sequence[str]:
    """The store of a session that keeps its journal itself: it says a reply once its line is synced."""
    return lines


class Running:
    """A controller that runs: its session, its servers, its map, and its HTTP server."""

    may_follow = False

    def __init__(self, settings: Settings) -> None:
        self.settings = settings
        file = FleetFile.read(settings.fleet)
        self.owner = MapFile(file.map_file, file.then)
        self.fleet = HttpFleet(file, self.owner, settings.pace.timeout, settings.token)
        self.controller: Optional[Controller] = None
        self.server: Optional[Server] = None
        self.stopping = asyncio.Event()
        self.looking: Optional["asyncio.Task[None]"] = None
        self.told: Set[Tuple[Any, ...]] = set()
        self.rotation: Rotation = FileRotation(self, settings.rotate_at)

    async def run(self) -> int:
        """Runs until it is told to stop, 0, or its session ends: as that has ended, or 3."""
        session = await Session.start(self.settings.program, is_apart=True)
        controller = self.controller = Controller(session, self.fleet, keep, self.settings.pace)
        self.listen_to_signals()
        status = 3
        try:
            self.server = await serve(self.settings.host, self.settings.port, self.routes(), self.settings.token, self.settings.tls)
            await self.rotation.begin()
            await self.adopt_map()
            await controller.lead()
            await self.open()
            log.info("leads over %s, listens at %s:%d", shlex.join(self.settings.program), self.settings.host, self.server.port)
            await self.act()
            status = 0
        except (SessionEnded, StoreLost) as why:
            log.error("%s", why)
        except OSError as why:
            log.error("%s:%d: %s", self.settings.host, self.settings.port, why.strerror or why)
        finally:
            ended = await self.end()
        return ended if status and ended in PASSED_ON else status

    async def ask(self, line: Line) -> Line:
        """Asks the session."""
        assert self.controller is not None
        return await self.controller.ask(line)

    def listen_to_signals(self) -> None:
        """Stops at SIGTERM and SIGINT, reads the fleet's file anew at SIGHUP."""
        loop = asyncio.get_running_loop()
        for it in (signal.SIGTERM, signal.SIGINT):
            loop.add_signal_handler(it, self.stopping.set)
        loop.add_signal_handler(signal.SIGHUP, self.read_fleet)

    def read_fleet(self) -> None:
        """Reads the fleet's file anew. (The map's file stays where it is.)"""
        try:
            self.fleet.take(FleetFile.read(self.settings.fleet))
            log.info("%s was read: %d servers", self.settings.fleet, len(self.fleet.links))
        except Failure as why:
            log.error("the fleet stays as it is: %s", why)

    async def adopt_map(self) -> None:
        """Shows all that the journal has recorded of the map, before anything else is shown."""
        assert self.controller is not None
        state = (await self.controller.ask({"do": "state"}))["state"]
        if state["is"] == "new":
            self.owner.load()
        else:
            await self.owner.adopt(await self.controller.ask({"do": "map"}), state)

    async def open(self) -> None:
        """Opens the service by the document, if nothing was opened yet."""
        assert self.controller is not None
        state = (await self.controller.ask({"do": "state"}))["state"]
        if state["is"] != "new" or self.settings.document is None:
            return
        reply = await self.controller.do({"do": "open", "document": self.settings.document, "journal": secrets.token_hex(8), "epoch": 0})
        if "opened" not in reply:
            raise Failure(f"the document is not opened: {text_of_reply(reply)}; `smplan-tools explain` says why", 1)
        await self.adopt_map()
        log.info("opened journal %s", reply["opened"]["journal"])

    async def act(self) -> None:
        """Leads until it is told to stop."""
        controller = self.controller
        assert controller is not None
        while not self.stopping.is_set():
            try:
                await asyncio.wait_for(self.stopping.wait(), 0.5)
            except asyncio.TimeoutError:
                pass
            if controller.lost is not None:
                raise controller.lost
            await controller.refresh()
            await self.rotation.step()
            if self.looking is None or self.looking.done():
                self.looking = asyncio.create_task(self.owner.look())
            self.tell_of_messages()
        log.info("stops")

    async def end(self) -> Optional[int]:
        """Answers nobody any longer, sends nothing, lets the session end, and returns its exit status."""
        if self.server is not None:
            await asyncio.get_running_loop().run_in_executor(None, self.server.close)
        if self.looking is not None:
            self.looking.cancel()
        status: Optional[int] = None
        if self.controller is not None:
            await self.controller.rest()
            status = await self.controller.session.close()
            if status:
                log.error("%s ended with %s", shlex.join(self.settings.program), status)
        self.fleet.close()
        return status

    def tell_of_messages(self) -> None:
        """Logs once of each message that is stuck, or answered in a way that no checked plan has."""
        assert self.controller is not None
        outgoing = dict(self.controller.outgoing)
        present = {(key, it.message.get("number", it.message.get("base"))) for key, it in outgoing.items()}
        self.told = {it for it in self.told if it[0] in present}
        for key, it in outgoing.items():
            name = (key, it.message.get("number", it.message.get("base")))
            for what, is_so in (("is not answered", it.age > STUCK), ("is answered in a way that no plan has", it.said.lower() in ALARMING)):
                if is_so and (name, what) not in self.told:
                    self.told.add((name, what))
                    log.warning("%s %s: %s, sent %d times in %.0f s, said %s", key[0], what, json.dumps(it.message), it.tries, it.age, it.said or "nothing")

    # HTTP.

    def routes(self) -> Dict[str, Route]:
        """What is served."""
        assert self.controller is not None
        routes = routes_of(self.controller)
        return {**routes, "POST /do": self.logged(self.remembering(self.beginning(routes["POST /do"]))), "POST /restarted": self.logged(routes["POST /restarted"]),
                "POST /restore": self.restore, "POST /base": self.base, "GET /document": self.told_document, "GET /healthz": self.health, "GET /fleet": self.told_fleet,
                "GET /metrics": self.metrics, "GET /rotate": self.told_rotation, "POST /rotate": self.rotate}

    def logged(self, route: Route) -> Route:
        """A route that logs what an operator does. What is opened has a map."""
        async def answer(body: bytes) -> Page:
            page = await route(body)
            reply = json.loads(page.body)
            if "opened" in reply:
                await self.adopt_map()
            is_good = page.status == 200 and not {"refused", "bad"} & set(reply)
            log.log(logging.INFO if is_good else logging.WARNING, "%s: %s", named(body), text_of_reply(reply))
            return page
        return answer

    def beginning(self, route: Route) -> Route:
        """A route that begins no plan over servers that have no slots yet: while a plan names them, they would get none. Nor does it begin one that may
        drop a shard's last replica before it adds another."""
        async def answer(body: bytes) -> Page:
            try:
                line = line_of(body)
            except ValueError as why:
                return Page.of({"fault": str(why)}, 400)
            servers = servers_of(line)
            told = await asyncio.gather(*(self.fleet.call(it, "GET", "/base") for it in servers))
            unknown = [it for it, answer in zip(servers, told) if "base" in answer and answer["base"] is None]
            if unknown:
                text = f"refused: Unknown server {unknown[0]}, which has no slots yet"
                return Page.of({"refused": {"kind": "Unknown", "server": unknown[0], "text": text}})
            emptied = emptied_by(line, await self.shards()) if servers else None
            if emptied is not None:
                text = f"refused: LastReplica shard {emptied}: the plan may drop it before it adds another, which begins empty; let the drop wait for the add"
                return Page.of({"refused": {"kind": "LastReplica", "shard": emptied, "text": text}})
            return await route(body)
        return answer

    def remembering(self, route: Route) -> Route:
        """A route that knows the names which the last epoch of the journal before this one has."""
        async def answer(body: bytes) -> Page:
            try:
                reply = await self.rotation.again(line_of(body))
            except (ValueError, SessionEnded):  # (the route says so)
                reply = None
            return await route(body) if reply is None else Page.of(reply)
        return answer

    async def told_rotation(self, _: bytes) -> Page:
        """How the rotation of the journal stands. Who does not lead does not know."""
        controller = self.controller
        assert controller is not None
        try:
            told = await self.rotation.told()
            leads = controller.leads and controller.lost is None
            return Page.of(told) if leads else Page.of({"fault": "this controller does not lead"}, 409)
        except SessionEnded as why:
            return Page.of({"fault": str(why)}, 503)

    async def rotate(self, body: bytes) -> Page:
        """Has the journal end once all is at rest, `{"wait":60}` seconds long."""
        try:
            wait = float(line_of(body)["wait"])
        except (ValueError, LookupError, TypeError) as why:
            return Page.of({"fault": f"this says not how long to wait: {why}"}, 400)
        page = await self.told_rotation(b"")
        if page.status != 200:
            return page
        self.rotation.ask_for(wait)
        return await self.told_rotation(b"")

    async def shards(self) -> List[Line]:
        """The shards as they are recorded; none before something is open."""
        assert self.controller is not None
        try:
            return (await self.controller.ask({"do": "state"})).get("state", {}).get("shards", [])
        except SessionEnded:
            return []

    async def restore(self, body: bytes) -> Page:
        """Answers a server that asks for its slots under a nonce: `{"server":"a","nonce":"77ab"}`."""
        assert self.controller is not None
        try:
            line = line_of(body)
            reply = await self.controller.do({"do": "restore", "server": line["server"], "nonce": line["nonce"]})
        except (ValueError, KeyError) as why:
            return Page.of({"fault": f"this asks for no slots: {why}"}, 400)
        except (StoreLost, SessionEnded) as why:
            return Page.of({"fault": str(why)}, 409)
        log.info("restore of %s: %s", line["server"], "given" if "restore" in reply else text_of_reply(reply))
        return Page.of(reply)

    async def health(self, _: bytes) -> Page:
        """Whether this controller leads, and its session answers."""
        controller = self.controller
        assert controller is not None
        try:
            told = (await asyncio.wait_for(controller.ask({"do": "hello"}), 2.0)).get("hello", {})
        except (SessionEnded, asyncio.TimeoutError) as why:
            return Page.of({"leads": False, "fault": str(why) or "the session does not answer"}, 503)
        leads = controller.leads and controller.lost is None
        told = {"leads": leads, "place": told.get("place"), "outstanding": len(controller.outgoing), "map": self.owner.said}
        return Page.of(told, 200 if leads or self.may_follow else 503)

    async def metrics(self, _: bytes) -> Page:
        """Figures of the controller, of the map's file and of the journal."""
        assert self.controller is not None
        try:
            figures = await metrics_of(self.controller)
        except SessionEnded as why:
            return Page.of({"fault": str(why)}, 503)
        lines = [
            *metric("map_writes_total", "counter", "how often the map was written and told", [({}, float(self.owner.writes))]),
            *metric("map_failures_total", "counter", "how often that failed", [({}, float(self.owner.failures))]),
            *metric("map_is_shown", "gauge", "whether all that is published is shown", [({}, float(self.owner.shown == self.owner.changes))]),
            *self.journal_figures(),
        ]
        return Page((figures + "\n".join(lines) + "\n").encode(), "text/plain; version=0.0.4; charset=utf-8")

    def journal_figures(self) -> List[str]:
        """The size of the journal, which is the file that the session's last word names."""
        try:
            size = [({}, float(Path(self.settings.program[-1]).stat().st_size))]
        except OSError:
            size = []
        return metric("journal_bytes", "gauge", "size of the journal", size)

    async def told_fleet(self, _: bytes) -> Page:
        """Where the servers are."""
        return Page.of(self.fleet.file.told())

    async def base(self, body: bytes) -> Page:
        """Asks a server, `{"server":"a"}`, for the number of its base, and tells whether it answers at all."""
        try:
            told = await self.fleet.call(line_of(body)["server"], "GET", "/base")
        except (ValueError, KeyError) as why:
            return Page.of({"fault": f"this names no server: {why}"}, 400)
        return Page.of({"answers": "base" in told, "base": told.get("base"), "said": told.get("said", "")})

    async def told_document(self, _: bytes) -> Page:
        """The service as a document."""
        assert self.controller is not None
        try:
            told = await self.controller.ask({"do": "document"})
            state = (await self.controller.ask({"do": "state"}))["state"]
        except SessionEnded as why:
            return Page.of({"fault": str(why)}, 503)
        if "document" in told:
            return Page.of(told["document"])
        try:
            if state["is"] == "new":
                raise Unknown("nothing is opened yet")
            if "shards" not in state:  # (the first reopening of a journal is under way)
                return Page.of({"fault": "a reopening is under way, and nothing was opened before"}, 503)
            if self.settings.document is None:
                raise Unknown("this session does not tell what shards want, and --open names no document that does")
            return Page.of(document_of_state(state, self.settings.document))
        except Unknown as why:
            return Page.of({"fault": str(why)}, 404)


def named(body: bytes) -> str:
    """An operator's line as the log names it."""
    try:
        line = line_of(body)
    except ValueError:
        return "what is no line"
    words = [str(line.get("do", "restarted"))]
    return " ".join(words + [f"{name} {line[name]}" for name in ("server", "name", "by", "permit", "base", "lost", "why") if name in line])


def text_of_reply(reply: Line) -> str:
    """What a reply says, in a few words."""
    told = reply.get("refused") or reply.get("bad")
    if told is not None:
        return str(told.get("text", told))
    return str(reply["fault"]) if "fault" in reply else next((it for it in reply if it != "id"), "done")


def address_of(text: str) -> Tuple[str, int]:
    """Reads HOST:PORT."""
    found = urlsplit(f"//{text}")
    if found.hostname is None or found.port is None:
        raise argparse.ArgumentTypeError(f"{text} is no HOST:PORT")
    return found.hostname, found.port


def size_of(text: str) -> int:
    """Reads a size: bytes, or as 64M."""
    number, unit = (text[:-1], text[-1].upper()) if text[-1:].upper() in ("K", "M", "G") else (text, "")
    if not number.isdecimal() or int(number) == 0:
        raise argparse.ArgumentTypeError(f"{text} is no size as 64M")
    return int(number) << {"": 0, "K": 10, "M": 20, "G": 30}[unit]


def read_document(path: Optional[str]) -> Optional[Line]:
    """Reads the document to open, if one is named. (The session says whether it is one.)"""
    if path is None:
        return None
    try:
        return dict(json.loads(Path(path).read_text(encoding="utf-8")))
    except OSError as why:
        raise Failure(f"{path}: {why.strerror}") from None
    except (ValueError, TypeError) as why:
        raise Failure(f"{path} is no document: {why}") from None


def settings_of(told: argparse.Namespace) -> Settings:
    """What the command line says."""
    host, port = told.http
    token = read_token(told.token)
    if token is None and not is_loopback(host):
        raise Failure(f"whoever reaches {host}:{port} can move everything: name a --token FILE, or a loopback address")
    return Settings(told.fleet, tuple(shlex.split(told.session)), host, port, read_document(told.open), token, read_certificate(told.tls), Pace(timeout=told.timeout),
                    told.rotate_at)


def etcd_of(told: argparse.Namespace) -> "Optional[EtcdSettings]":
    """Where etcd is, if the command line says so."""
    from .control_run_etcd import EtcdSettings

    if not told.etcd:
        return None
    tls = user = None
    try:
        if any(it.startswith("https:") for it in told.etcd):
            tls = ssl.create_default_context(cafile=told.etcd_ca)
            if told.etcd_cert:
                tls.load_cert_chain(*told.etcd_cert)
        if told.etcd_user:
            name, _, password = Path(told.etcd_user).read_text(encoding="utf-8").strip().partition(":")
            user = name, password
    except (OSError, ValueError) as why:
        raise Failure(f"what etcd asks for: {why}") from None
    return EtcdSettings(tuple(told.etcd), told.name or socket.gethostname(), told.etcd_prefix, told.lease, tls, user)


def run(told: argparse.Namespace) -> int:
    """Runs the command."""
    from .control_run_etcd import AmongOthers

    logging.basicConfig(stream=sys.stderr, level=told.level.upper(), format="%(asctime)s %(levelname)s %(message)s")
    settings, etcd = settings_of(told), etcd_of(told)

    async def running() -> int:
        return await (AmongOthers(settings, etcd) if etcd else Running(settings)).run()

    try:
        return asyncio.run(running())
    except FileNotFoundError as why:
        raise Failure(f"the session {settings.program[0]}: {why.strerror}", 3) from None


EXAMPLE = """example:
  smplan-control run fleet.json --session 'smpland /var/lib/smplan/journal' --http 127.0.0.1:9200 --open service.json

fleet.json, in which each server keeps its number for ever:
  {"servers":{"a":{"number":1,"url":"http://10.0.0.1:9300"},"b":{"number":2,"url":"http://10.0.0.2:9300"}},
   "map":{"file":"/run/smplan/map.json","then":"systemctl reload router"}}
"""


def add_parser(subparsers: Any) -> None:
    """Adds the command."""
    parser = subparsers.add_parser(
        "run", help="runs a controller over a session, for servers that speak HTTP", epilog=EXAMPLE, formatter_class=argparse.RawDescriptionHelpFormatter,
        description="Runs a controller until SIGTERM or SIGINT. SIGHUP reads the fleet's file anew. Servers have six routes, docs/CONTROLLER.md tells of them.\n"
        "Exit status 0: it was told to stop. 1: the document may not be opened. 2: bad input. 3: the session has ended, or the address is taken.\n"
        "The session's own: 4, its journal failed; 5, another process has it; 6, it is damaged, or etcd has lost lines of it.",
    )
    parser.add_argument("fleet", metavar="FLEET.json", help="where the servers are, and the published map")
    parser.add_argument("--session", required=True, metavar="COMMAND", help="the session, which keeps its journal: 'smpland /var/lib/smplan/journal'")
    parser.add_argument("--http", type=address_of, default=("127.0.0.1", 9200), metavar="HOST:PORT", help="where servers and operators ask (127.0.0.1:9200)")
    parser.add_argument("--open", metavar="DOCUMENT", help="what there is, if nothing was opened yet")
    parser.add_argument("--token", metavar="FILE", help="its text is shown by whoever asks, and to servers, as Authorization: Bearer")
    parser.add_argument("--tls", nargs=2, metavar=("CERT", "KEY"), help="serve by TLS")
    parser.add_argument("--rotate-at", type=size_of, metavar="SIZE", help="once the journal has this size, as 64M, begin a new one at rest, as `rotate` does")
    parser.add_argument("--timeout", type=at_least(0.1), default=5.0, metavar="SECONDS", help="how long a server may take to answer (5)")
    among = parser.add_argument_group("one of several controllers, over a journal in etcd; the session is 'smpland -'")
    among.add_argument("--etcd", action="append", metavar="URL", help="a member of etcd; may be given again")
    among.add_argument("--name", help="this controller's name (the host's)")
    among.add_argument("--lease", type=at_least(1, int), default=5, metavar="SECONDS", help="after how long another one leads (5)")
    among.add_argument("--etcd-prefix", default="smplan/", metavar="PREFIX", help="what all keys of this service begin with (smplan/)")
    among.add_argument("--etcd-user", metavar="FILE", help="its text is NAME:PASSWORD")
    among.add_argument("--etcd-ca", metavar="FILE", help="who has signed etcd's certificates, for https")
    among.add_argument("--etcd-cert", nargs=2, metavar=("CERT", "KEY"), help="this controller's own certificate, for https")
    parser.add_argument("--level", choices=["debug", "info", "warning", "error"], default="info", help="the least that is logged to standard error (info)")
    parser.set_defaults(run=run)
