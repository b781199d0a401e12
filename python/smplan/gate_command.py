"""`gate`: answers whether machines may go down."""
from __future__ import annotations

import argparse
import signal
import sys
import threading
from pathlib import Path
from typing import Any, Optional, Tuple

from . import program
from .access import is_loopback, load_certificate, read_certificate
from .failure import Failure
from .gate import Gate, Sources, look, world_text
from .gate_http import Server, handler_for
from .gate_state import Store
from .import_groups import Names, read_names

EXAMPLE = """example:
  smplan-control gate --state /var/lib/smplan/gate.json --http 127.0.0.1:9201 \\
      --import '{ etcdctl member list -w json; etcdctl endpoint health --cluster -w json; } | smplan-tools import etcd'
  curl -f -d '{"server":"n1","by":"rollout-7"}' http://127.0.0.1:9201/ask && reboot"""


def address_of(text: str) -> Tuple[str, int]:
    """Reads HOST:PORT; without a host it is this machine's own."""
    host, _, port = text.rpartition(":")
    if not port.isdecimal() or int(port) > 65535:
        raise argparse.ArgumentTypeError(f"'{text}' is no HOST:PORT")
    return host.strip("[]") or "127.0.0.1", int(port)


def token_of(path: Optional[str]) -> Optional[str]:
    if path is None:
        return None
    try:
        token = Path(path).read_text(encoding="utf-8").strip()
    except OSError as why:
        raise Failure(f"{path}: {why.strerror}") from None
    if not token or "/" in token or " " in token:
        raise Failure(f"{path}: a token is one word without a slash")
    return token


def sources_of(told: argparse.Namespace) -> Sources:
    if not told.imports and not told.kubernetes:
        raise Failure("what is so? Say --import COMMAND, or --kubernetes COMMAND")
    names = read_names(told.names) if told.names else Names()
    return Sources(tuple(told.imports), told.kubernetes, told.primary, names, told.limit, told.timeout)


def tell(text: str) -> None:
    print(f"smplan-control gate: {text}", file=sys.stderr, flush=True)


def serve(server: Server, files: Optional[Tuple[str, str]]) -> None:
    """Serves until it is told to end. At a hangup the certificate is read anew."""
    def end(*_: object) -> None:
        threading.Thread(target=server.shutdown, daemon=True).start()

    def reload(*_: object) -> None:
        if server.tls is not None and files is not None:
            try:
                load_certificate(server.tls, files)
            except Failure as why:
                tell(f"the certificate stays as it was: {why}")

    for number, how in ((signal.SIGTERM, end), (signal.SIGINT, end), (signal.SIGHUP, reload)):
        signal.signal(number, how)
    server.serve_forever(poll_interval=0.2)


def run(told: argparse.Namespace) -> int:
    sources = sources_of(told)
    if told.print:
        print(world_text(look(sources)))
        return 0
    host, port = told.http
    token, files = token_of(told.token), tuple(told.tls) if told.tls else None
    if not is_loopback(host) and token is None and not told.no_token:
        raise Failure(f"whoever reaches {host} could take all leaves, or give them back: say --token FILE, or --no-token if all who reach it may")
    context = read_certificate(files)
    store = Store.open(told.state)
    gate = Gate(store, lambda: look(sources), program.required(told.program), sources.names, told.settle, told.no_primaries, tell)
    try:
        server = Server((host, port), handler_for(gate, token))
    except OSError as why:
        raise Failure(f"{host}:{port}: {why.strerror}", 3) from None
    server.tls = context
    tell(f"serves {'https' if context else 'http'}://{host}:{server.server_port}/; {len(store.held)} machines have leave")
    with server:
        serve(server, files)
    store.close()
    return 0


def add_parser(subparsers: Any) -> None:
    """Adds the command."""
    parser = subparsers.add_parser(
        "gate", help="answers whether a machine may go down: to FleetLock, to Kubernetes' evictions, to scripts",
        epilog=EXAMPLE, formatter_class=argparse.RawDescriptionHelpFormatter,
        description="Answers whether a machine may go down now. For each question it looks anew, by the commands that it is given, and asks smplan. A yes is\n"
        "stored before it is told, and holds until the machine is back. It moves nothing, and needs nothing on the machines.\n"
        "Exit status 0: it was told to stop. 2: bad input. 3: no program, or the address is taken. 4: the state can't be opened. 5: another gate has it.\n"
        "6: the state is damaged.",
    )
    program.add_option(parser)
    parser.add_argument("--import", dest="imports", action="append", default=[], metavar="COMMAND", help="prints a document, as 'smplan-tools import' does; may be given again")
    parser.add_argument("--kubernetes", metavar="COMMAND", help="prints nodes, pods and budgets: 'kubectl get nodes,pods,pdb -A -o json'; for POST /evict")
    parser.add_argument("--primary", metavar="LABEL=VALUE", help="the label of a pod that is its group's primary")
    parser.add_argument("--names", metavar="FILE", help="a JSON object with the names of machines here, by those that sources and askers give them")
    parser.add_argument("--limit", type=int, metavar="N", help="how many machines may be down at once (the least that a source says)")
    parser.add_argument("--no-primaries", action="store_true", help="say no to a machine that has a primary")
    parser.add_argument("--state", default="gate.json", metavar="FILE", help="where leaves are stored (gate.json)")
    parser.add_argument("--http", type=address_of, default=("127.0.0.1", 9201), metavar="HOST:PORT", help="where it serves (127.0.0.1:9201)")
    parser.add_argument("--tls", nargs=2, metavar=("CERT", "KEY"), help="files for TLS; read anew at SIGHUP")
    parser.add_argument("--token", metavar="FILE", help="a file with a word: who asks sends it as 'Authorization: Bearer WORD', or begins the path with /WORD")
    parser.add_argument("--no-token", action="store_true", help="serve an address of other machines without a token")
    parser.add_argument("--settle", type=float, default=60.0, metavar="SECONDS", help="a node that takes pods is back this long after its last eviction (60)")
    parser.add_argument("--timeout", type=float, default=8.0, metavar="SECONDS", help="how long a command may take (8)")
    parser.add_argument("--print", action="store_true", help="print the document of what is so now, and end")
    parser.set_defaults(run=run)
