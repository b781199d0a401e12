"""A key-value service over the frame for servers (python/smplan/server.py), driven by `smplan-control run` (docs/CONTROLLER.md).

    python3 examples/kv_http.py NAME http://127.0.0.1:9200 /var/lib/kv/NAME.sqlite [--new] [--token FILE] [--tls CERT KEY]

A client sends {"shard":"s","request":"c1-7","command":["append","k","x"]} to POST /request, or ["get","k"]. ports/go/examples/kv is the same
service in Go.
"""
import os
import sys
from urllib.parse import quote

sys.path.insert(0, os.path.join(os.path.dirname(os.path.abspath(__file__)), "../python"))
from smplan.server import main  # noqa: E402  (the path comes first)


class Texts:
    """A shard has texts by key. `append` adds to one; the reply is the whole text."""

    def place(self, shard, key=""):
        return f"kv/{quote(shard, safe='')}/{key}"

    def is_read(self, command):
        return command[0] == "get"

    def read(self, tx, shard, command):
        return tx.get(self.place(shard, command[1])) or ""

    def apply(self, tx, shard, command):
        word, key, text = command
        if word != "append" or not isinstance(text, str):
            raise ValueError(f"no command: {command}")
        after = self.read(tx, shard, ["get", key]) + text
        tx.put(self.place(shard, key), after)
        return after

    def copy(self, tx, shard):
        begin = self.place(shard)
        return {key[len(begin):]: text for key, text in tx.list(begin)}

    def load(self, tx, shard, copy):
        for key, text in copy.items():
            tx.put(self.place(shard, key), text)

    def drop(self, tx, shard):
        for key, _ in tx.list(self.place(shard)):
            tx.delete(key)


if __name__ == "__main__":
    main(Texts(), __doc__)
