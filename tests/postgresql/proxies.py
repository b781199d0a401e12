"""HTTP between a controller and servers that loses messages and answers, sends them late, and sends them twice."""
import http.client
import random
import threading
import time
from http.server import BaseHTTPRequestHandler, ThreadingHTTPServer
from urllib.parse import urlsplit


class Rough(BaseHTTPRequestHandler):
    """One connection to a server behind a proxy."""

    protocol_version = "HTTP/1.1"
    target, harm, dice, counts = "", 0.0, random.Random(), {}

    def do_POST(self):
        body = self.rfile.read(int(self.headers.get("Content-Length", 0)))
        kind = self.dice.random()
        if self.path in ("/order", "/fence", "/settle", "/restore", "/notice") and kind < self.harm:
            what = ("lost", "late", "twice", "unanswered")[int(kind / self.harm * 4)]
            self.counts[what] = self.counts.get(what, 0) + 1
            if what == "lost":
                return self.answer(503, b'{"fault":"lost"}')
            if what == "late":
                threading.Thread(target=self.later, args=(body,), daemon=True).start()
                return self.answer(503, b'{"fault":"late"}')
            if what == "twice":
                self.forward(body)
            if what == "unanswered":
                self.forward(body)
                return self.answer(503, b'{"fault":"the answer is lost"}')
        return self.answer(*self.forward(body))

    do_GET = do_POST

    def later(self, body):
        time.sleep(self.dice.random() * 4)
        self.forward(body)

    def forward(self, body):
        try:
            parts = urlsplit(self.target)
            c = http.client.HTTPConnection(parts.hostname, parts.port, timeout=20)
            c.request(self.command, self.path, body, {"Content-Type": "application/json"})
            told = c.getresponse()
            text = told.read()
            c.close()
            return told.status, text
        except (OSError, http.client.HTTPException):
            return 503, b'{"fault":"the server is away"}'

    def answer(self, status, text):
        try:
            self.send_response(status)
            self.send_header("Content-Length", str(len(text)))
            self.end_headers()
            self.wfile.write(text)
        except OSError:
            pass

    def log_message(self, *_):
        pass


def start(target, port, harm, seed):
    """Begins a proxy; harm is the share of messages that do not come as they were sent. Returns what happened to them."""
    counts = {}
    kind = type("It", (Rough,), {"target": target, "harm": harm, "dice": random.Random(seed), "counts": counts})
    server = ThreadingHTTPServer(("127.0.0.1", port), kind)
    server.daemon_threads, server.handle_error = True, lambda *_: None  # (a controller that is killed ends its connections)
    threading.Thread(target=server.serve_forever, daemon=True).start()
    return counts
