"""A gate's routes: FleetLock's two, Kubernetes' reviews of evictions, and questions of scripts."""
from __future__ import annotations

import hmac
import json
import re
import ssl
import sys
from http.server import BaseHTTPRequestHandler, ThreadingHTTPServer
from typing import Any, Callable, Dict, Mapping, Optional, Tuple, Type

from .gate import Answer, Gate, Word, metrics_of, state_of
from .import_kubernetes import PodName

LONGEST_BODY = 8 << 20
# How long a connection may say nothing.
PATIENCE = 30.0
GROUP = re.compile(r"[a-zA-Z0-9.-]+")
TEXT = "text/plain; version=0.0.4; charset=utf-8"

Page = Tuple[int, Any]


class BadRequest(Exception):
    """A request that is none: what is wrong with it."""


def status_of(answer: Answer, no: int) -> int:
    """Returns the status of an answer, of which a no has another one on each route."""
    return {Word.YES: 200, Word.NO: no, Word.FAULT: 503}[answer.word]


def text_in(value: Any, name: str, otherwise: Optional[str] = None) -> str:
    """Returns a member that is a text and not empty."""
    found = value.get(name, otherwise) if isinstance(value, dict) else None
    if not isinstance(found, str) or not found:
        raise BadRequest(f"the member '{name}' is to be a text")
    return found


# ---- FleetLock (its requests have a header of their own, so that no browser can be made to send one)

def fleet_lock(gate: Gate, value: Any, headers: Mapping[str, str], is_back: bool) -> Page:
    if headers.get("fleet-lock-protocol") != "true":
        return 400, {"kind": "bad_request", "value": "the header 'fleet-lock-protocol: true' is missing"}
    try:
        parameters = value.get("client_params") if isinstance(value, dict) else None
        machine, group = text_in(parameters, "id"), text_in(parameters, "group")
    except BadRequest as why:
        return 400, {"kind": "bad_request", "value": str(why)}
    if not GROUP.fullmatch(group):
        return 400, {"kind": "bad_request", "value": f"no group is named '{group}'"}
    by = f"fleetlock/{group}"
    answer = gate.back(machine, by) if is_back else gate.ask(machine, by)
    kind = {Word.YES: "ok", Word.NO: "failed_lock", Word.FAULT: "not_available"}[answer.word]
    return status_of(answer, 409), {"kind": kind, "value": answer.text}


def pre_reboot(gate: Gate, value: Any, headers: Mapping[str, str]) -> Page:
    return fleet_lock(gate, value, headers, is_back=False)


def steady_state(gate: Gate, value: Any, headers: Mapping[str, str]) -> Page:
    return fleet_lock(gate, value, headers, is_back=True)


# ---- Kubernetes (https://kubernetes.io/docs/reference/access-authn-authz/extensible-admission-controllers/)

def is_trial(request: Any) -> bool:
    """Tells whether a request is a dry run, by itself or by the options of the eviction."""
    options = (request.get("object") or {}).get("deleteOptions") or {}
    return request.get("dryRun") is True or bool(options.get("dryRun"))


def response(uid: str, answer: Answer) -> Any:
    """Returns the response to a review. A no has the status of a budget that is spent, so that `kubectl drain` asks again."""
    told: Dict[str, Any] = {"uid": uid, "allowed": answer.is_yes}
    if not answer.is_yes:
        told["status"] = {"code": 429, "reason": "TooManyRequests", "message": answer.text}
    return {"apiVersion": "admission.k8s.io/v1", "kind": "AdmissionReview", "response": told}


def evict(gate: Gate, value: Any, _: Mapping[str, str]) -> Page:
    request = value.get("request") if isinstance(value, dict) else None
    uid = text_in(request, "uid")
    assert isinstance(request, dict)
    if value.get("apiVersion") != "admission.k8s.io/v1" or value.get("kind") != "AdmissionReview":
        raise BadRequest("this is no AdmissionReview of admission.k8s.io/v1")
    resource = request.get("resource") or {}
    if (resource.get("resource"), request.get("subResource")) != ("pods", "eviction"):
        review = response(uid, Answer(Word.YES, ""))
        review["response"]["warnings"] = ["smplan-control gate answers for pods/eviction alone: correct the rules of its webhook"]
        return 200, review
    pod = PodName(text_in(request, "namespace"), text_in(request, "name", ((request.get("object") or {}).get("metadata") or {}).get("name")))
    return 200, response(uid, gate.evict(pod, is_trial(request)))


# ---- scripts

def ask(gate: Gate, value: Any, _: Mapping[str, str]) -> Page:
    server, by = text_in(value, "server"), text_in(value, "by", "ask")
    answer = gate.ask(server, f"ask/{by}", value.get("dry_run") is True)
    return status_of(answer, 429), {"allowed": answer.is_yes, "server": server, "by": by, "text": answer.text}


def back(gate: Gate, value: Any, _: Mapping[str, str]) -> Page:
    """Ends a leave. `holder`, as `GET /state` tells it, ends one that was given by another route."""
    server, by = text_in(value, "server"), text_in(value, "by", "ask")
    answer = gate.back(server, text_in(value, "holder", f"ask/{by}"))
    return status_of(answer, 429), {"server": server, "text": answer.text}


Route = Callable[[Gate, Any, Mapping[str, str]], Page]
ROUTES: Dict[str, Route] = {
    "POST /v1/pre-reboot": pre_reboot, "POST /v1/steady-state": steady_state, "POST /evict": evict, "POST /ask": ask, "POST /back": back,
    "GET /state": lambda gate, _value, _headers: (200, state_of(gate)),
    "GET /metrics": lambda gate, _value, _headers: (200, metrics_of(gate)),
    "GET /healthz": lambda _gate, _value, _headers: (200, "ok\n"),
}


class Handler(BaseHTTPRequestHandler):
    """Answers requests for a gate. With a token, its paths lie below `/TOKEN`, or the token comes in the header `Authorization`."""

    gate: Gate
    token: Optional[str] = None
    protocol_version = "HTTP/1.1"
    timeout = PATIENCE

    def do_GET(self) -> None:
        self.answer(None)

    def do_POST(self) -> None:
        length = self.headers.get("content-length", "")
        if not length.isdecimal() or int(length) > LONGEST_BODY:
            self.close_connection = True
            self.send(411 if not length else 413, {"fault": "a request has a body with a length, of at most 8 MB"})
            return
        self.answer(self.rfile.read(int(length)))

    def path_without_token(self) -> Optional[str]:
        """Returns the path that is asked for, or none if a token is missing."""
        path = self.path.partition("?")[0]
        if self.token is None or path == "/healthz":
            return path
        given = self.headers.get("authorization", "")
        if hmac.compare_digest(given.encode(), f"Bearer {self.token}".encode()):
            return path
        head, _, rest = path[1:].partition("/")
        return f"/{rest}" if hmac.compare_digest(head.encode(), self.token.encode()) else None

    def answer(self, body: Optional[bytes]) -> None:
        path = self.path_without_token()
        if path is None:
            self.send(403, {"fault": "the token is missing, or another one"})
            return
        route = ROUTES.get(f"{self.command} {path}")
        if route is None:
            self.send(404, {"fault": "no such page"})
            return
        try:
            self.send(*route(self.gate, json.loads(body) if body is not None else None, self.headers))
        except (BadRequest, ValueError, RecursionError) as why:
            self.send(400, {"fault": str(why)})

    def send(self, status: int, value: Any) -> None:
        data = value.encode() if isinstance(value, str) else json.dumps(value).encode() + b"\n"
        self.send_response(status)
        self.send_header("Content-Type", TEXT if isinstance(value, str) else "application/json")
        self.send_header("Content-Length", str(len(data)))
        self.end_headers()
        self.wfile.write(data)

    def log_message(self, *_: Any) -> None:
        """The gate tells its answers itself."""


class Server(ThreadingHTTPServer):
    """A server whose connections speak TLS if there is a context; a slow one holds up no other."""

    daemon_threads = True
    tls: Optional[ssl.SSLContext] = None

    def get_request(self) -> Any:
        connection, address = self.socket.accept()
        connection.settimeout(PATIENCE)
        if self.tls is not None:
            connection = self.tls.wrap_socket(connection, server_side=True, do_handshake_on_connect=False)
        return connection, address

    def handle_error(self, request: Any, client_address: Any) -> None:
        why = sys.exc_info()[1]
        if not isinstance(why, (OSError, ssl.SSLError)):
            super().handle_error(request, client_address)


def handler_for(gate: Gate, token: Optional[str]) -> Type[Handler]:
    return type("GateHandler", (Handler,), {"gate": gate, "token": token})
