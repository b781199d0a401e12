"""A client of etcd's JSON gateway, with the standard library alone: reads, guarded writes and leases."""
from __future__ import annotations

import asyncio
import json
import ssl
from base64 import b64decode, b64encode
from contextlib import contextmanager
from dataclasses import dataclass
from typing import Any, Iterator, List, Optional, Sequence, Tuple
from urllib.parse import urlsplit

Connection = Tuple[asyncio.StreamReader, asyncio.StreamWriter]


# The code of an answer to a request that can never be carried out, as one that is too large; and to one whose token is none, or has ended.
INVALID, UNAUTHENTICATED = 3, 16


class EtcdFault(OSError):
    """etcd gave no answer, or one that says no. Whether a write was made is unknown."""


class EtcdRefused(EtcdFault):
    """etcd refuses this request for good. Nothing was written."""


@dataclass(frozen=True)
class Entry:
    """A key as it is stored."""

    key: str
    value: str
    version: int
    revision: int


def members_of(urls: Sequence[str]) -> list[tuple[str, int]]:
    """Where the members listen."""
    found = [urlsplit(it if "//" in it else f"//{it}") for it in urls]
    return [(it.hostname or "", it.port or 2379) for it in found]


def encoded(text: str) -> str:
    """Returns a text as the gateway wants it."""
    return b64encode(text.encode()).decode()


def decoded(text: str) -> str:
    """Returns the text that the gateway gives."""
    return b64decode(text).decode()


def end_of(prefix: str) -> str:
    """Returns the first key behind all keys with a prefix."""
    return prefix[:-1] + chr(ord(prefix[-1]) + 1)


def put(key: str, value: str, lease: str | None = None) -> dict[str, Any]:
    """A write, to be part of a transaction."""
    request = {"key": encoded(key), "value": encoded(value)}
    return {"request_put": request | ({"lease": lease} if lease else {})}


def drop(key: str) -> dict[str, Any]:
    """A deletion, to be part of a transaction."""
    return {"request_delete_range": {"key": encoded(key)}}


def is_absent(key: str) -> dict[str, Any]:
    """A guard: the key is not there."""
    return {"key": encoded(key), "target": "CREATE", "result": "EQUAL", "create_revision": "0"}


def is_unchanged(key: str, revision: int) -> dict[str, Any]:
    """A guard: the key was last written at this revision, 0 if it is not there."""
    return {"key": encoded(key), "target": "MOD", "result": "EQUAL", "mod_revision": str(revision)}


def has_value(key: str, value: str) -> dict[str, Any]:
    """A guard: the key has this value."""
    return {"key": encoded(key), "target": "VALUE", "result": "EQUAL", "value": encoded(value)}


@contextmanager
def reading() -> Iterator[None]:
    """Makes a fault of what is no answer of etcd."""
    try:
        yield
    except (LookupError, ValueError, TypeError, AttributeError, RecursionError) as why:
        raise EtcdFault(f"etcd: this is no answer: {type(why).__name__} {why}") from None


def object_of(text: bytes) -> dict[str, Any]:
    """Reads an answer."""
    answer = json.loads(text)
    if not isinstance(answer, dict):
        raise ValueError("it is no JSON object")
    return answer


def refusal_of(text: bytes) -> dict[str, Any]:
    """Reads an answer that is none of the request, which may be bare words."""
    try:
        return object_of(text)
    except ValueError:
        return {"message": text.decode(errors="replace").strip()[:200]}


def entries_of(answer: dict[str, Any]) -> list[Entry]:
    """Returns the keys of an answer."""
    with reading():
        return [
            Entry(decoded(it["key"]), decoded(it.get("value", "")), int(it["version"]), int(it["mod_revision"])) for it in answer.get("kvs", [])
        ]


class Etcd:
    """A client of a cluster, which goes to the next member when one does not answer."""

    def __init__(
        self, members: Sequence[tuple[str, int]], timeout: float = 1.0, first: int = 0, tls: Optional[ssl.SSLContext] = None,
        user: Optional[tuple[str, str]] = None,
    ) -> None:
        self.members, self.timeout, self.at = list(members), timeout, first % len(members)
        self.tls, self.user, self.token = tls, user, ""
        self.idle: List[Connection] = []
        self.retries = 0

    async def close(self) -> None:
        """Closes the connections that are open."""
        idle, self.idle = self.idle, []
        self.close_all(idle)

    @staticmethod
    def close_all(connections: Sequence[Connection]) -> None:
        """Closes connections."""
        for _, writer in connections:
            writer.close()

    async def post(self, path: str, body: dict[str, Any]) -> dict[str, Any]:
        """Asks the present member once. If it does not answer the next one is asked from now on, and the call fails."""
        if self.user is not None and not self.token:
            self.token = "-"
            answer = await self.post("/v3/auth/authenticate", {"name": self.user[0], "password": self.user[1]})
            self.token = str(answer.get("token", ""))
        used: List[Connection] = []
        try:
            status, text = await asyncio.wait_for(self.exchange_once(used, path, body), self.timeout)
            answer = object_of(text) if status == 200 else refusal_of(text)
        except (OSError, EOFError, LookupError, ValueError, RecursionError, asyncio.LimitOverrunError, asyncio.TimeoutError) as why:
            self.leave_member(used[0] if used else None)
            raise EtcdFault(f"etcd: {type(why).__name__} {why}") from None
        except asyncio.CancelledError:
            self.close_all(used)
            raise
        self.idle.append(used[0])
        if status != 200:
            raise self.fault_of(answer, status)
        return answer

    async def exchange_once(self, used: List[Connection], path: str, body: dict[str, Any]) -> tuple[int, bytes]:
        """Asks over a connection, which is told as used."""
        used.append(self.idle.pop() if self.idle else await asyncio.open_connection(*self.members[self.at], ssl=self.tls))
        return await exchange(*used[0], path, body, self.token if self.token != "-" else "")

    def fault_of(self, answer: dict[str, Any], status: int) -> EtcdFault:
        """What an answer means that is none of the request. Another member would not take what is too large, either."""
        text = f"etcd: {answer.get('message', status)}"
        if answer.get("code") == UNAUTHENTICATED or "invalid auth token" in text:
            self.token = ""
            return EtcdFault(text)
        if answer.get("code") == INVALID or "larger than max" in text:
            return EtcdRefused(text)
        self.leave_member(None)
        return EtcdFault(text)

    def leave_member(self, failed: Optional[Connection]) -> None:
        """Goes to the next member."""
        self.close_all(self.idle + ([failed] if failed else []))
        self.idle, self.at, self.retries = [], (self.at + 1) % len(self.members), self.retries + 1

    async def post_again(self, path: str, body: dict[str, Any], tries: int = 6) -> dict[str, Any]:
        """Asks until a member answers. Only for what may be done twice."""
        for left in reversed(range(tries)):
            try:
                return await self.post(path, body)
            except EtcdFault:
                if not left:
                    raise
                await asyncio.sleep(0.05)
        raise AssertionError("there is a last try")

    async def range(self, first: str, end: str | None = None, limit: int = 0, may_lag: bool = False) -> list[Entry]:
        """Reads a key, or the keys from the first to before the end; if it may lag, from one member alone, which may not have the last writes yet."""
        body: dict[str, Any] = {"key": encoded(first), "serializable": may_lag}
        if end is not None:
            body |= {"range_end": encoded(end), "limit": limit}
        return entries_of(await self.post_again("/v3/kv/range", body))

    async def changes(self, first: str, end: str, revision: int) -> tuple[list[Entry], int]:
        """Asks a member once, without the others, for the keys from the first to before the end that were written behind a revision, and for the revision
        up to which it knows."""
        body = {"key": encoded(first), "range_end": encoded(end), "serializable": True, "min_mod_revision": str(revision + 1)}
        answer = await self.post("/v3/kv/range", body)
        with reading():
            return entries_of(answer), int(answer["header"]["revision"])

    async def get(self, key: str, may_lag: bool = False) -> Entry | None:
        """Reads a key."""
        found = await self.range(key, may_lag=may_lag)
        return found[0] if found else None

    async def past(self, entry: Entry) -> list[Entry]:
        """Reads what a key was before, the first value first, and this one at the end."""
        found = [entry]
        while found[0].version > 1:
            body = {"key": encoded(entry.key), "revision": str(found[0].revision - 1)}
            (before,) = entries_of(await self.post_again("/v3/kv/range", body))
            found.insert(0, before)
        return found

    async def delete(self, first: str, end: str) -> None:
        """Deletes the keys from the first to before the end."""
        await self.post_again("/v3/kv/deleterange", {"key": encoded(first), "range_end": encoded(end)})

    async def transact(self, guards: Sequence[dict], writes: Sequence[dict]) -> bool:
        """Writes if all guards hold, and returns whether it did. A fault leaves open whether it was written."""
        answer = await self.post("/v3/kv/txn", {"compare": list(guards), "success": list(writes), "failure": []})
        return bool(answer.get("succeeded", False))

    async def grant(self, seconds: int) -> str:
        """Makes a lease."""
        answer = await self.post("/v3/lease/grant", {"TTL": str(seconds)})
        with reading():
            return str(answer["ID"])

    async def keep_alive(self, lease: str) -> bool:
        """Renews a lease, and returns whether it is still there."""
        answer = await self.post("/v3/lease/keepalive", {"ID": lease})
        with reading():
            return int(answer.get("result", {}).get("TTL", 0)) > 0

    async def revoke(self, lease: str) -> None:
        """Ends a lease, and deletes its keys."""
        await self.post("/v3/lease/revoke", {"ID": lease})


async def exchange(
    reader: asyncio.StreamReader, writer: asyncio.StreamWriter, path: str, body: Optional[dict], token: str = "",
) -> tuple[int, bytes]:
    """Sends a request over HTTP/1.1, which asks for a page if it has no body, and returns the status and the text of the answer."""
    text = b"" if body is None else json.dumps(body).encode()
    method = "GET" if body is None else "POST"
    head = f"{method} {path} HTTP/1.1\r\nHost: localhost\r\nContent-Type: application/json\r\nContent-Length: {len(text)}\r\n"
    head += f"Authorization: {token}\r\n\r\n" if token else "\r\n"
    writer.write(head.encode() + text)
    await writer.drain()
    status = int((await reader.readuntil(b"\r\n")).split()[1])
    fields = {}
    while (line := await reader.readuntil(b"\r\n")) != b"\r\n":
        name, _, value = line.decode().partition(":")
        fields[name.strip().lower()] = value.strip()
    return status, await body_of(reader, fields)


async def body_of(reader: asyncio.StreamReader, fields: dict[str, str]) -> bytes:
    """Reads the text behind the head of an answer."""
    if fields.get("transfer-encoding") != "chunked":
        return await reader.readexactly(int(fields.get("content-length", 0)))
    text = b""
    while size := int((await reader.readuntil(b"\r\n")).split(b";")[0], 16):
        text += (await reader.readexactly(size + 2))[:-2]
    await reader.readuntil(b"\r\n")
    return text
