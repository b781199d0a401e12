"""A server over HTTP that has slots and no data, and that a test may have withhold answers, or fall silent."""
import json
import threading
from http.server import BaseHTTPRequestHandler, ThreadingHTTPServer


class ScriptedServer:
    """Takes orders, fences, settles and restores. Messages for which `withholds(kind, message)` is true are not answered yet."""

    def __init__(self):
        self.base, self.slots, self.heard, self.withholds, self.is_silent = None, {}, [], lambda kind, message: False, False
        server = self

        class Handler(BaseHTTPRequestHandler):
            """One request."""

            protocol_version = "HTTP/1.1"

            def do_GET(self):
                self.answer({"base": server.base})

            def do_POST(self):
                body = json.loads(self.rfile.read(int(self.headers["Content-Length"])))
                self.answer(server.told(self.path.rpartition("/")[2], body))

            def answer(self, value):
                if server.is_silent:
                    self.close_connection = True
                    return
                body = json.dumps(value).encode()
                self.send_response(200)
                self.send_header("Content-Length", str(len(body)))
                self.end_headers()
                self.wfile.write(body)

            def log_message(self, *_):
                """Tells nobody."""

        self.http = ThreadingHTTPServer(("127.0.0.1", 0), Handler)
        self.http.daemon_threads, self.http.handle_error = True, lambda request, client: None
        self.port = self.http.server_address[1]
        self.thread = threading.Thread(target=self.http.serve_forever, args=(0.05,), daemon=True)
        self.thread.start()

    def close(self):
        self.http.shutdown()
        self.http.server_close()
        self.thread.join()

    def told(self, kind, message):
        """The answer to a message."""
        if self.withholds(kind, message):
            return {"said": "working"}
        self.heard.append((kind, message))
        return getattr(self, kind)(message)

    def order(self, order):
        shard, call = order["shard"], order["call"]
        if call == "drop":
            self.slots.pop(shard, None)
        else:
            self.slots[shard] = {"shard": shard, "cell": order["role"] if call == "add" else order["to"], "last": order["number"], "load": order["load"]}
        return {"done": True}

    def fence(self, message):
        return {"slots": [{**it, "position": 1, "view": 0} for it in self.slots.values()]}

    def settle(self, message):
        self.base = message["base"]
        self.slots = {it["shard"]: {**it, "last": 0} for it in message["slots"] if it["cell"] != "absent"}
        return {"done": True}

    def restore(self, message):
        return self.settle(message)

    def notice(self, message):
        return {"done": True}
