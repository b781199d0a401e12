"""`import`: documents of what other systems print."""
from __future__ import annotations

import argparse
import json
import sys
from typing import Any

from . import import_etcd, import_kubernetes, import_patroni, import_postgresql
from .failure import Failure
from .files import name_of
from .import_groups import Names, document_of, read_names, read_values

SYSTEMS = {"kubernetes": import_kubernetes, "patroni": import_patroni, "etcd": import_etcd, "postgresql": import_postgresql}


def import_document(arguments: argparse.Namespace) -> int:
    values, system = read_values(arguments.input), SYSTEMS[arguments.system]
    try:
        imported = system.read(values, arguments)
    except (KeyError, TypeError, AttributeError, ValueError) as why:
        what = f"a member {why} is missing" if isinstance(why, KeyError) else str(why)
        raise Failure(f"{name_of(arguments.input)}: {what}; this reads what '{system.COMMAND}' prints") from None
    names = read_names(arguments.names) if arguments.names else Names()
    if not imported.groups:
        print("smplan-tools: there is no group, such as a disruption budget's pods: only 'limit' says which machines may go", file=sys.stderr)
    print(json.dumps(document_of(imported, arguments.limit, names), indent=2 if arguments.pretty else None))
    return 0


def add_parser(subparsers: Any) -> None:
    """Adds the command `import`."""
    parser = subparsers.add_parser(
        "import", help="make a document of what another system prints",
        epilog="example: kubectl get nodes,pods,pdb -A -o json | smplan-tools import kubernetes > document.json",
        description="Makes a document of what another system prints: its machines are servers, and what has members on them is a shard. The document has "
        "the members that live now, without loads: it serves to ask which machine may go down.",
    )
    systems = parser.add_subparsers(metavar="SYSTEM", dest="system", required=True)
    for name, system in SYSTEMS.items():
        own = systems.add_parser(name, help=f"what '{system.COMMAND}' prints", description=f"Reads what '{system.COMMAND}' prints.".replace("%", "%%"))
        system.add_options(own)
        own.add_argument("--limit", type=int, default=1, metavar="N", help="how many machines may be down at once (1)")
        own.add_argument("--names", metavar="FILE", help="a JSON object with the names of machines here, by those that the system gives them")
        own.add_argument("--pretty", action="store_true", help="print a line for each member")
        own.add_argument("input", nargs="?", default="-", metavar="FILE", help="what the system printed (standard input)")
        own.set_defaults(run=import_document)
