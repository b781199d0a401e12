"""Messages of servers over HTTP: lines of JSON to routes, and calls of other processes."""
from __future__ import annotations

import hmac
import http.client
import json
import sqlite3
import ssl
import sys
import threading
from http.server import BaseHTTPRequestHandler, ThreadingHTTPServer
from typing import Any, Callable, Dict, List, Mapping, Optional, Tuple
from urllib.parse import SplitResult, urlsplit

from .access import is_loopback
from .failure import Failure

Line = Dict[str, Any]
Routes = Mapping[str, Callable[[Line], Line]]

# How long a connection may say nothing, in seconds.
PATIENCE = 120.0


class Caller:
    """Calls of other processes, over connections that are kept."""

    def __init__(self, token: Optional[str]) -> None:
        self.fields = {"Content-Type": "application/json", **({"Authorization": f"Bearer {token}"} if token else {})}
        self.idle: Dict[Tuple[str, str], List[http.client.HTTPConnection]] = {}
        self.lock = threading.Lock()

    def call(self, url: str, line: Optional[Line], seconds: float) -> Any:
        """Returns what is answered; OSError or ValueError if nothing is."""
        parts = urlsplit(url)
        place = (parts.scheme, parts.netloc)
        with self.lock:
            rested = self.idle.setdefault(place, [])
            connection = rested.pop() if rested else None
        try:
            if connection is not None:
                try:
                    return self.exchange(connection, place, parts.path, line, seconds)
                except (http.client.HTTPException, ConnectionError, ssl.SSLError):
                    connection.close()  # (it had ended meanwhile)
            kind = http.client.HTTPSConnection if parts.scheme == "https" else http.client.HTTPConnection
            return self.exchange(kind(parts.hostname or "", parts.port, timeout=seconds), place, parts.path, line, seconds)
        except http.client.HTTPException as why:
            raise OSError(f"{url}: {type(why).__name__}") from None

    def exchange(self, connection: http.client.HTTPConnection, place: Tuple[str, str], path: str, line: Optional[Line], seconds: float) -> Any:
        """Sends a line, and reads the answer."""
        try:
            if connection.sock is not None:
                connection.sock.settimeout(seconds)
            connection.request("GET" if line is None else "POST", path, None if line is None else json.dumps(line).encode(), self.fields)
            answer = connection.getresponse()
            text = answer.read()
        except BaseException:
            connection.close()
            raise
        with self.lock:
            self.idle[place].append(connection)
        if answer.status != 200:
            raise OSError(f"{answer.status} {text[:200].decode(errors='replace')}")
        return json.loads(text)


class Handler(BaseHTTPRequestHandler):
    """One connection. A kind of it has what a server answers, to which routes, and the token that all but clients tell."""

    protocol_version, disable_nagle_algorithm, wbufsize, timeout = "HTTP/1.1", True, -1, PATIENCE
    base, token = "", ""
    routes: Routes = {}

    def do_POST(self) -> None:
        """Answers one message."""
        text = self.rfile.read(int(self.headers.get("Content-Length", 0)))
        status, told = self.told(self.path[len(self.base):], text)
        body = json.dumps(told).encode()
        self.send_response(status)
        self.send_header("Content-Type", "application/json")
        self.send_header("Content-Length", str(len(body)))
        self.end_headers()
        self.wfile.write(body)

    do_GET = do_POST

    def told(self, path: str, text: bytes) -> Tuple[int, Line]:
        """The status and the answer."""
        if path not in self.routes:
            return 404, {"fault": "there is no such route"}
        given = self.headers.get("Authorization", "")
        if self.token and path != "/request" and not hmac.compare_digest(given.encode(), f"Bearer {self.token}".encode()):
            return 401, {"fault": "the token is missing"}
        try:
            return 200, self.routes[path](json.loads(text or b"null"))
        except (ValueError, LookupError, TypeError, AttributeError) as why:
            if path != "/request":
                print(f"{path}: {type(why).__name__} {why}", file=sys.stderr, flush=True)
            return 400, {"fault": f"{type(why).__name__} {why}"}
        except (OSError, sqlite3.Error) as why:
            return 503, {"fault": f"{type(why).__name__} {why}"}

    def log_message(self, *words: Any) -> None:  # pylint: disable=arguments-differ
        """Says nothing of each request."""


class Listener(ThreadingHTTPServer):
    """A server of connections, which speak TLS if there is a certificate; a slow one holds up no other."""

    request_queue_size = 128
    tls: Optional[ssl.SSLContext] = None

    def get_request(self) -> Any:
        """Accepts a connection, whose handshake is its own thread's."""
        connection, address = self.socket.accept()
        if self.tls is not None:
            connection = self.tls.wrap_socket(connection, server_side=True, do_handshake_on_connect=False)
        return connection, address

    def handle_error(self, request: Any, client_address: Any) -> None:
        """Says nothing of connections that end."""
        if not isinstance(sys.exc_info()[1], OSError):
            super().handle_error(request, client_address)


def refuse(parts: SplitResult, token: Optional[str], tls: Optional[ssl.SSLContext]) -> None:
    """Fails if more than this machine would reach a server that asks for no token, or if its address says other things of TLS than it has."""
    if token is None and not is_loopback(parts.hostname or ""):
        raise Failure(f"whoever reaches {parts.netloc} can change everything: name a token, or a loopback address")
    if (parts.scheme == "https") != (tls is not None):
        raise Failure(f"{parts.geturl()}: an address with https needs a certificate, and only such a one")


def listen(url: str, routes: Routes, token: Optional[str], tls: Optional[ssl.SSLContext]) -> None:
    """Answers messages at an address, for ever. With a token, who does not tell it may send requests alone."""
    parts = urlsplit(url)
    refuse(parts, token, tls)
    kind = type("Handler", (Handler,), {"base": parts.path, "token": token or "", "routes": routes})
    listener = Listener((parts.hostname or "", parts.port or (443 if tls else 80)), kind)
    listener.tls = tls
    print(f"listens at {parts.netloc}", flush=True)
    listener.serve_forever()
