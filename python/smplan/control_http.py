"""A controller's HTTP server: its page, its figures, and lines that operators send; and how commands ask it."""
from __future__ import annotations

import asyncio
import hmac
import json
import logging
import socket
import socketserver
import ssl
import threading
from dataclasses import dataclass
from http.client import HTTPException
from http.server import BaseHTTPRequestHandler, ThreadingHTTPServer
from typing import Any, Awaitable, Callable, Dict, Mapping, Optional
from urllib.error import HTTPError, URLError
from urllib.parse import urlsplit
from urllib.request import Request, urlopen

from .failure import Failure

log = logging.getLogger("smplan.http")

# The longest line that an operator may send.
LONGEST_BODY = 64 << 20


@dataclass(frozen=True)
class Page:
    """What is answered to a request."""

    body: bytes
    kind: str = "application/json"
    status: int = 200

    @staticmethod
    def of(value: Any, status: int = 200) -> "Page":
        """Writes a value as JSON."""
        return Page(json.dumps(value).encode() + b"\n", "application/json", status)


# What answers a path; the body of the request is handed in.
Route = Callable[[bytes], Awaitable[Page]]

# What may be read by everyone.
OPEN_PATHS = frozenset(["GET /healthz"])

# How long a request may take, and how long a connection may rest.
PATIENCE = 120.0


class Server(ThreadingHTTPServer):
    """A server, whose requests are answered in a loop's routes."""

    request_queue_size = 128
    daemon_threads = True

    def __init__(self, address: Any, routes: Mapping[str, Route], token: Optional[str]) -> None:
        self.routes, self.token, self.loop = routes, token, asyncio.get_running_loop()
        self.address_family = socket.AF_INET6 if ":" in address[0] else socket.AF_INET
        super().__init__(address, Handler)

    def server_bind(self) -> None:
        """Binds, without asking for the host's name, which may take long."""
        socketserver.TCPServer.server_bind(self)
        self.server_name, self.server_port = str(self.server_address[0]), self.port

    @property
    def port(self) -> int:
        """The port on which it listens."""
        return self.server_address[1]

    def close(self) -> None:
        """Listens no longer."""
        self.shutdown()
        self.server_close()

    def handle_error(self, request: Any, client_address: Any) -> None:
        """Says nothing of connections that end."""


class Handler(BaseHTTPRequestHandler):
    """One connection."""

    protocol_version = "HTTP/1.1"
    disable_nagle_algorithm = True
    wbufsize = -1
    timeout = PATIENCE
    server: Server

    def do_GET(self) -> None:
        """Answers a request."""
        page = self.page()
        self.send_response(page.status)
        self.send_header("Content-Type", page.kind)
        self.send_header("Content-Length", str(len(page.body)))
        self.end_headers()
        self.wfile.write(page.body)

    do_POST = do_GET

    def page(self) -> Page:
        """What is answered."""
        size = self.headers.get("Content-Length", "0")
        if not size.isdigit() or int(size) > LONGEST_BODY or self.headers.get("Transfer-Encoding"):
            self.close_connection = True
            return Page.of({"fault": f"a request has a Content-Length, of at most {LONGEST_BODY} bytes"}, 413)
        body = self.rfile.read(int(size))
        path = f"{self.command} {self.path.partition('?')[0]}"
        if not self.is_allowed(path):
            return Page.of({"fault": "this needs the token, as Authorization: Bearer"}, 401)
        if self.is_of_another_site():
            return Page.of({"fault": "a page of another site asks this"}, 403)
        route = self.server.routes.get(path)
        return Page.of({"fault": "no such page"}, 404) if route is None else self.answer(path, route, body)

    def answer(self, path: str, route: Route, body: bytes) -> Page:
        """What a route answers."""
        try:
            return asyncio.run_coroutine_threadsafe(called(route, body), self.server.loop).result(PATIENCE)
        except Exception as why:  # (whatever befalls a route, whoever asks is told)
            log.exception("%s failed", path)
            return Page.of({"fault": f"{type(why).__name__} {why}".strip()}, 500)

    def is_allowed(self, path: str) -> bool:
        """Whether whoever asks has shown the token."""
        token = self.server.token
        return token is None or path in OPEN_PATHS or hmac.compare_digest(self.headers.get("Authorization", "").encode(), f"Bearer {token}".encode())

    def is_of_another_site(self) -> bool:
        """Whether a browser sends this for a page of somebody else."""
        origin = self.headers.get("Origin")
        return origin is not None and urlsplit(origin).netloc != self.headers.get("Host")

    def log_message(self, format: str, *args: Any) -> None:
        """Says nothing of each request."""


async def called(route: Route, body: bytes) -> Page:
    """Calls a route in its loop."""
    return await route(body)


async def serve(host: str, port: int, routes: Mapping[str, Route], token: Optional[str] = None, tls: Optional[ssl.SSLContext] = None) -> Server:
    """Serves routes, named by method and path, as `GET /`. With a token whoever asks has to show it."""
    server = Server((host, port), routes, token)
    if tls is not None:
        server.socket = tls.wrap_socket(server.socket, server_side=True, do_handshake_on_connect=False)
    threading.Thread(target=server.serve_forever, name="http", daemon=True).start()
    return server


def fault_of(body: bytes) -> str:
    """Returns what a page says that is no answer: its `fault`, or its text."""
    try:
        return str(json.loads(body)["fault"])
    except (ValueError, KeyError, TypeError):
        return body.decode(errors="replace").strip()


class NotThere(Failure):
    """A controller does not answer, or does not lead: another one may."""

    def __init__(self, text: str) -> None:
        super().__init__(text, 3)


def fetch(url: str, line: Optional[Dict[str, Any]] = None, timeout: float = 30.0, token: Optional[str] = None) -> Any:
    """Gets a page, or posts a line, and returns the answer; fails with status 3 if there is none."""
    body = None if line is None else json.dumps(line).encode()
    try:
        with urlopen(Request(url, data=body, headers={"Authorization": f"Bearer {token}"} if token else {}), timeout=timeout) as answer:
            text = answer.read()
    except HTTPError as why:
        fault = f"{url}: {fault_of(why.read()) or why.reason}"
        raise (NotThere(fault) if why.code == 409 or why.code >= 500 else Failure(fault, 3)) from None
    except (URLError, OSError, HTTPException) as why:
        raise NotThere(f"{url}: {getattr(why, 'reason', why)}") from None
    except ValueError:
        raise Failure(f"{url}: a controller is named as http://HOST:PORT") from None
    try:
        return json.loads(text)
    except ValueError:
        return text.decode(errors="replace")


def leads(url: str, token: Optional[str] = None) -> bool:
    """Asks a controller whether it leads."""
    return "\nsmplan_leads 1" in fetch(url + "/metrics", token=token)
