"""Who leads: the controller whose name stands under a key that a lease keeps."""
from __future__ import annotations

import asyncio
import time
from typing import Optional

from .control_etcd import Etcd, EtcdFault, is_absent, put
from .control_etcd_journal import Keys


class Lease:
    """A controller's try to lead, and its leadership while it lasts. Nothing that is promised rests on it: two who lead at once do no harm."""

    def __init__(self, etcd: Etcd, name: str, seconds: int = 2, keys: Keys = Keys(), is_told: bool = False) -> None:
        self.etcd, self.name, self.seconds, self.key, self.is_told = etcd, name, seconds, keys.leader, is_told
        self.lease: Optional[str] = None
        self.until = 0.0

    def leader_of(self, lease: str) -> str:
        """What stands under the key of the leader: its name, and behind it the lease's id if that is told."""
        return f"{self.name} {lease}" if self.is_told else self.name

    @property
    def leader(self) -> str:
        """What stands under the key while the lease is held. Told with its id, it is of this leadership alone."""
        return self.leader_of(self.lease or "-")

    @property
    def is_leader(self) -> bool:
        """Whether the lease is held, by this process's own clock."""
        return self.lease is not None and time.monotonic() < self.until

    async def campaign(self) -> bool:
        """Tries once to become the leader, if nobody is."""
        begun = time.monotonic()
        try:
            if await self.etcd.get(self.key, may_lag=True) is not None:
                return False
            lease = await self.etcd.grant(self.seconds)
            if not await self.etcd.transact([is_absent(self.key)], [put(self.key, self.leader_of(lease), lease)]):
                await self.etcd.revoke(lease)
                return False
        except EtcdFault:
            return False
        self.lease, self.until = lease, begun + self.seconds
        return True

    async def keep(self) -> None:
        """Renews the lease until it is lost."""
        while self.is_leader:
            await asyncio.sleep(self.seconds / 4)
            begun = time.monotonic()
            try:
                if not await self.etcd.keep_alive(self.lease or ""):
                    break
                self.until = begun + self.seconds
            except EtcdFault:
                continue
        self.lease = None

    async def leave(self) -> None:
        """Gives the leadership up."""
        lease, self.lease = self.lease, None
        try:
            if lease is not None:
                await self.etcd.revoke(lease)
        except EtcdFault:
            pass
