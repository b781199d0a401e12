"""Members of etcd that are killed or stopped: one, the one that leads them, most of them, and all."""
from __future__ import annotations

import asyncio
import json
import signal

from cluster.controllers.etcd import Etcd, EtcdFault, encoded, exchange
from cluster.launch.shown import add_shown, shown_at

from .story import Story

# For how long members are stopped, in seconds.
STOPPED = 4.0


class MemberStory(Story):
    """What happens to the members of etcd."""

    async def kill_member(self) -> None:
        """Kills a member of etcd, and starts it again."""
        name, _ = self.dice.choice(self.cluster.members)
        self.tell(f"kill -9 {name}")
        await self.cluster.processes[name].kill()
        self.counts["members of etcd killed"] += 1
        await asyncio.sleep(1.5)
        await self.cluster.processes[name].start()

    async def kill_members(self) -> None:
        """Kills all members of etcd at once, and starts them again."""
        names = [name for name, _ in self.cluster.members]
        self.tell("kill -9 all of etcd at once")
        await asyncio.gather(*(self.cluster.processes[it].kill() for it in names))
        self.counts["crashes of all of etcd at once"] += 1
        await asyncio.sleep(1.0)
        await self.cluster.processes.start(*names)

    async def lose_quorum(self) -> None:
        """Stops two of three members of etcd for a while: nothing can be written."""
        names = self.dice.sample([name for name, _ in self.cluster.members], 2)
        self.tell(f"stop {' and '.join(sorted(names))}: etcd has no quorum")
        await self.stop_members(names)
        self.counts["times without a quorum of etcd"] += 1

    async def kill_first_member(self) -> None:
        """Kills the member of etcd that leads the others, and starts it again."""
        name = await self.first_member()
        if name is None:
            return
        self.tell(f"kill -9 {name}, which leads etcd")
        await self.cluster.processes[name].kill()
        self.counts["leaders of etcd killed"] += 1
        await asyncio.sleep(1.5)
        await self.cluster.processes[name].start()

    async def stop_first_member(self) -> None:
        """Stops the member of etcd that leads the others until another one does, and lets it go on."""
        name = await self.first_member()
        if name is None:
            return
        self.tell(f"stop {name}, which leads etcd")
        await self.stop_members([name])
        self.counts["leaders of etcd stopped"] += 1

    async def compact(self) -> None:
        """Has etcd forget all revisions but the present one. What the map has shown is read before."""
        etcd = Etcd([("127.0.0.1", port) for _, port in self.cluster.members], timeout=5.0)
        try:
            answer = await etcd.post_again("/v3/kv/range", {"key": encoded("/")})
            revision = int(answer["header"]["revision"])
            self.shown = add_shown(self.shown, await shown_at(etcd, self.compacted_at, revision))
            await etcd.post("/v3/kv/compaction", {"revision": str(revision), "physical": True})
            self.compacted_at = revision
            self.tell(f"etcd forgets what was before revision {revision}")
            self.counts["compactions of etcd"] += 1
        except EtcdFault as why:
            self.tell(f"etcd is not compacted: {why}")
        finally:
            await etcd.close()

    async def stop_members(self, names: list[str]) -> None:
        """Stops members of etcd for a while."""
        for name in names:
            self.cluster.processes[name].signal(signal.SIGSTOP)
        try:
            await asyncio.sleep(STOPPED)
        finally:
            for name in names:
                self.cluster.processes[name].signal(signal.SIGCONT)

    async def first_member(self) -> str | None:
        """The member of etcd that leads the others, as it says."""
        for name, port in self.cluster.members:
            try:
                async with asyncio.timeout(1.0):
                    reader, writer = await asyncio.open_connection("127.0.0.1", port)
                    _, text = await exchange(reader, writer, "/v3/maintenance/status", {})
                writer.close()
            except (OSError, EOFError, TimeoutError):
                continue
            told = json.loads(text)
            if told.get("leader") == told["header"]["member_id"]:
                return name
        return None
