"""One shard's primary moves from a server to another and back, again and again, while clients push and read all the
time: no acknowledged push is lost
or doubled, and no request fails."""
from __future__ import annotations

import asyncio
import json

from scripted import PLAYING, Scripted, ServersTest

from cluster.clients.load import Generator, Load


async def moved(moves: int) -> tuple[list[dict], int]:
    """The lines of the clients' history, and how many requests failed."""
    scripted = Scripted("abc")
    try:
        await scripted.start()
        await scripted.open({"s": {"a": "primary", "c": "secondary"}, "t": {"b": "primary"}})
        path = scripted.dir / "clients.jsonl"
        with open(path, "w", encoding="utf-8") as history:
            generator = Generator(scripted.cluster, Load(("s", "t"), clients=8), history)
            stopping = asyncio.Event()
            running = asyncio.create_task(generator.run_until(stopping))
            await asyncio.sleep(1)
            for number in range(moves):
                old, new = ("a", "b") if number % 2 == 0 else ("b", "a")
                await scripted.move("s", old, new, [old, "c"])
                await asyncio.sleep(0.3)
            stopping.set()
            await running
        return [json.loads(it) for it in path.read_text(encoding="utf-8").splitlines()], generator.failures
    finally:
        scripted.close()


class MoveTest(ServersTest):
    """A primary that moves while it is used."""

    def test_each_acknowledged_push_is_in_the_final_list_once(self):
        lines, failures = asyncio.run(asyncio.wait_for(moved(4), PLAYING))
        final = {it["key"]: it["reply"] for it in lines if it.get("final") and it["op"] == "read"}
        acknowledged = [it for it in lines if it["op"] == "push" and "reply" in it]
        self.assertTrue(acknowledged)
        self.assertEqual([it for it in acknowledged if final[it["key"]].count(it["value"]) != 1], [])
        self.assertEqual([value for values in final.values() for value in set(values) if values.count(value) > 1], [])
        self.assertEqual(failures, 0)
