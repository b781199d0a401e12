"""A place between two processes, at which a test holds, loses or changes the messages of one to the other."""
import json
import sys
import threading
from http.server import BaseHTTPRequestHandler, ThreadingHTTPServer
from urllib.request import urlopen


class Listener(ThreadingHTTPServer):
    """Says nothing of who ends a connection."""

    daemon_threads = True

    def handle_error(self, request, client_address):
        if not isinstance(sys.exc_info()[1], OSError):
            super().handle_error(request, client_address)


class Between:
    """Sends messages on to an address: `tell` makes the answer to each, of its path and line; its third word asks the
    other process. An OSError of it loses the message, or the answer."""

    def __init__(self, url, tell):
        class Handler(BaseHTTPRequestHandler):
            """One connection."""

            protocol_version = "HTTP/1.1"

            def do_GET(self):
                self.answer(None)

            def do_POST(self):
                self.answer(self.rfile.read(int(self.headers["Content-Length"])))

            def answer(self, body):
                try:
                    status, told = 200, tell(self.path, json.loads(body or b"null"), lambda: asked(url + self.path, body))
                except OSError:
                    status, told = 503, {}
                text = json.dumps(told).encode()
                self.send_response(status)
                self.send_header("Content-Length", str(len(text)))
                self.end_headers()
                self.wfile.write(text)

            def log_message(self, *_):
                """Tells nobody."""

        self.http = Listener(("127.0.0.1", 0), Handler)
        self.url = f"http://127.0.0.1:{self.http.server_address[1]}"
        self.thread = threading.Thread(target=self.http.serve_forever, args=(0.05,), daemon=True)
        self.thread.start()

    def close(self):
        self.http.shutdown()
        self.http.server_close()
        self.thread.join()


def asked(url, body):
    """What a process answers."""
    with urlopen(url, body, timeout=60.0) as answer:
        return json.load(answer)
