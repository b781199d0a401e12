"""A headless browser, driven over a pipe by the DevTools protocol."""
import base64
import json
import os
import select
import shutil
import subprocess
import tempfile
import time
from typing import Any, Dict, List, Optional

NAMES = ("chromium", "chromium-browser", "google-chrome")
SECONDS = 60


def find_browser() -> Optional[str]:
    return next((found for found in map(shutil.which, NAMES) if found), None)


class NoBrowser(Exception):
    """The browser does not start."""


class Browser:
    """A browser with one page. Use it as a context manager."""

    def __init__(self, path: str):
        self.folder = tempfile.mkdtemp(prefix="page-test-")
        to_browser, self.write_end = os.pipe()
        self.read_end, from_browser = os.pipe()
        # (the browser reads commands from its descriptor 3 and writes answers to its descriptor 4)
        words = [path, "--headless=new", "--no-sandbox", "--disable-gpu", "--disable-dev-shm-usage", "--no-first-run", "--hide-scrollbars",
                 f"--user-data-dir={self.folder}", "--remote-debugging-pipe", "about:blank"]
        script = f'exec 3<&{to_browser} 4>&{from_browser}; exec "$@"'
        self.process = subprocess.Popen(["bash", "-c", script, "browser", *words], pass_fds=(to_browser, from_browser), stdout=subprocess.DEVNULL,
                                        stderr=subprocess.DEVNULL, start_new_session=True)
        os.close(to_browser)
        os.close(from_browser)
        self.pending, self.number, self.session = b"", 0, None  # type: bytes, int, Optional[str]
        self.events: List[Dict[str, Any]] = []
        try:
            self._open_page()
        except (RuntimeError, OSError) as why:
            self.close()
            raise NoBrowser(f"{path} does not start: {why}") from None

    def _open_page(self) -> None:
        target = self.ask("Target.createTarget", url="about:blank")["targetId"]
        self.session = self.ask("Target.attachToTarget", targetId=target, flatten=True)["sessionId"]
        for domain in ("Page", "Runtime", "Log", "Network"):
            self.ask(f"{domain}.enable")

    def __enter__(self) -> "Browser":
        return self

    def __exit__(self, *_: object) -> None:
        self.close()

    def close(self) -> None:
        """Ends the browser."""
        os.close(self.write_end)
        try:
            self.process.wait(10)
        except subprocess.TimeoutExpired:
            os.killpg(self.process.pid, 9)
            self.process.wait()
        os.close(self.read_end)
        shutil.rmtree(self.folder, ignore_errors=True)

    def _message(self) -> Dict[str, Any]:
        while b"\0" not in self.pending:
            is_there, _, _ = select.select([self.read_end], [], [], SECONDS)
            got = os.read(self.read_end, 1 << 20) if is_there else b""
            if not got:
                raise RuntimeError("the browser ended" if is_there else f"the browser says nothing for {SECONDS} seconds")
            self.pending += got
        text, self.pending = self.pending.split(b"\0", 1)
        return json.loads(text)

    def ask(self, method: str, **parameters: Any) -> Dict[str, Any]:
        """Asks the browser something, and keeps the events that come before the answer."""
        self.number += 1
        message = {"id": self.number, "method": method, "params": parameters} | ({"sessionId": self.session} if self.session else {})
        os.write(self.write_end, json.dumps(message).encode() + b"\0")
        while True:
            got = self._message()
            if got.get("id") == self.number:
                if "error" in got:
                    raise RuntimeError(f"{method}: {got['error']['message']}")
                return got["result"]
            self.events.append(got)

    def load(self, path: str, is_dark: bool = False, width: int = 1440) -> None:
        """Loads a file, and waits until it stands."""
        self.events = []
        self.ask("Emulation.setEmulatedMedia", features=[{"name": "prefers-color-scheme", "value": "dark" if is_dark else "light"}])
        self.ask("Emulation.setDeviceMetricsOverride", width=width, height=1000, deviceScaleFactor=1, mobile=False)
        self.ask("Page.navigate", url=f"file://{path}")
        end = time.monotonic() + SECONDS
        while not any(it["method"] == "Page.loadEventFired" for it in self.events):
            if time.monotonic() > end:
                raise RuntimeError(f"{path} does not load")
            self.ask("Runtime.evaluate", expression="0")
            time.sleep(0.02)

    def value(self, expression: str) -> Any:
        """Returns what an expression comes to in the page."""
        got = self.ask("Runtime.evaluate", expression=expression, returnByValue=True)
        if "exceptionDetails" in got:
            raise RuntimeError(got["exceptionDetails"]["exception"]["description"])
        return got["result"].get("value")

    def errors(self) -> List[str]:
        """Returns what the page's scripts did wrong, and what it asked the network for."""
        found = []
        for event in self.events:
            method, told = event["method"], event.get("params", {})
            if method == "Runtime.exceptionThrown":
                details = told["exceptionDetails"]
                found.append(details.get("exception", {}).get("description", details["text"]))
            elif method == "Log.entryAdded" and told["entry"]["level"] in ("error", "warning"):
                found.append(told["entry"]["text"])
            elif method == "Runtime.consoleAPICalled" and told["type"] in ("error", "warning"):
                found.append(str(told["args"]))
            elif method == "Network.requestWillBeSent" and not told["request"]["url"].startswith(("file:", "data:")):
                found.append(f"it asks the network for {told['request']['url']}")
        return found

    def screenshot(self, path: str, most_height: int = 6000) -> None:
        """Writes a picture of the whole page."""
        size = self.ask("Page.getLayoutMetrics")["cssContentSize"]
        clip = {"x": 0, "y": 0, "width": size["width"], "height": min(size["height"], most_height), "scale": 1}
        got = self.ask("Page.captureScreenshot", format="png", captureBeyondViewport=True, clip=clip)
        with open(path, "wb") as file:
            file.write(base64.b64decode(got["data"]))
