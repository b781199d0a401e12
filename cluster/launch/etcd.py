"""Starts the members of etcd."""
from __future__ import annotations

from pathlib import Path

from .processes import Ports, Processes


# How many milliseconds pass between two words of the member that leads, and how many without one until another does, on a busy machine longer.
WORDS, ELECTION, LONGER = 100, 1000, 3


def add_etcd(processes: Processes, free: Ports, directory: Path, count: int = 3, is_busy: bool = False) -> list[tuple[str, int]]:
    """Adds the members of a new etcd cluster. Returns the name of each, and the port at which it serves."""
    longer = LONGER if is_busy else 1
    names = [f"etcd-{it}" for it in range(count)]
    ports = free.take(2 * count)
    peers = {name: f"http://127.0.0.1:{ports[count + it]}" for it, name in enumerate(names)}
    together = ",".join(f"{name}={url}" for name, url in peers.items())
    for name, port in zip(names, ports):
        url = f"http://127.0.0.1:{port}"
        processes.add(name, [
            "etcd", "--name", name, "--data-dir", str(directory / name), "--initial-cluster", together, "--initial-cluster-token", directory.name,
            "--listen-client-urls", url, "--advertise-client-urls", url, "--listen-peer-urls", peers[name],
            "--initial-advertise-peer-urls", peers[name], "--initial-cluster-state", "new", "--max-txn-ops", "10000",
            "--heartbeat-interval", str(longer * WORDS), "--election-timeout", str(longer * ELECTION), "--log-level", "error", "--logger", "zap",
        ], says_ready=False, GOMAXPROCS="1", GOGC="400")
    return list(zip(names, ports))
