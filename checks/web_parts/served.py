"""A `desk web` of its own, over a folder of its own, and requests that are made by hand."""

from __future__ import annotations

import contextlib
import http.client
import os
import re
import shutil
import signal
import subprocess
import sys
import tempfile
import threading
import time
import urllib.parse
from collections.abc import Mapping
from dataclasses import dataclass

DESK = os.environ.get("DESK_FOLDER", os.path.join(os.path.dirname(os.path.dirname(os.path.dirname(os.path.realpath(__file__)))), "desk"))
PATIENCE = 60.0         # seconds for what the server does on a machine that has much to do
BEGINS = 180.0          # for its beginning, when its libraries are read anew
TICK = 0.02

# what a shell runs in the background ignores this, and so would the server, which it has to end
signal.signal(signal.SIGINT, signal.default_int_handler)


@dataclass(frozen=True)
class Reply:
    """What came back."""

    status: int
    headers: Mapping[str, str]
    text: str

    @property
    def number(self) -> int:
        """The number of the sheet that the page shows; -1 where it shows none."""
        found = re.search(r'data-number="(\d+)"', self.text)
        return int(found[1]) if found else -1

    @property
    def head(self) -> str:
        """Its heading."""
        found = re.search(r"<h1[^>]*>(.*?)</h1>", self.text, re.DOTALL)
        return found[1].strip() if found else ""


class Web:
    """A server; a context manager."""

    def __init__(self, program: str, cases: Mapping[str, str], *words: str, place: str = "", environment: Mapping[str, str] | None = None) -> None:
        self.folder = tempfile.mkdtemp(prefix="web-cases-")
        self.program, self._words, self._place = program, words, place
        self._environment = environment or {}
        self.cookie = ""
        self.errors = ""
        for name, text in cases.items():
            with open(os.path.join(self.folder, name), "w", encoding="utf-8") as file:
                file.write(text)
        self.start()

    def start(self) -> None:
        """Starts it, and reads what it says."""
        environment = {**os.environ, "DESK_ACQUIRE": self.program, "PYTHONDONTWRITEBYTECODE": "1", **self._environment}
        for name in ("XDG_RUNTIME_DIR", "DISPLAY", "WAYLAND_DISPLAY", "BROWSER"):
            if name not in self._environment:
                environment.pop(name, None)
        self._log = tempfile.TemporaryFile("w+", encoding="utf-8")
        self.process = subprocess.Popen(
            [sys.executable, os.path.join(DESK, "desk"), "web", os.path.join(self.folder, self._place), *(self._words or ("--no-browser",))],
            stdin=subprocess.DEVNULL, stdout=subprocess.PIPE, stderr=self._log, env=environment, text=True)
        said = self.said = self._begins()
        self.file = re.findall(r"this file leads there: (.*)", said)[0]
        self.address = re.findall(r"this address, once: (.*)", said)[0]
        found = urllib.parse.urlsplit(self.address)
        self.port, self.token = found.port or 0, urllib.parse.parse_qs(found.query)["token"][0]
        self.path = found.path.removesuffix("/enter")
        self.host = f"127.0.0.1:{self.port}"

    def _begins(self) -> str:
        """What it prints until it serves."""
        assert self.process.stdout
        late = threading.Timer(BEGINS, self.process.kill)
        late.start()
        said = ""
        while "Ctrl-C" not in said:
            line = self.process.stdout.readline()
            if not line:
                self._log.seek(0)
                raise AssertionError(f"desk web doesn't begin: {said!r} {self._log.read()!r}")
            said += line
        late.cancel()
        return said

    def __enter__(self) -> Web:
        return self

    def __exit__(self, *_: object) -> None:
        self.end()
        shutil.rmtree(self.folder, ignore_errors=True)

    def end(self, number: int = signal.SIGTERM) -> None:
        """Ends it; what it printed on standard error is in `errors`."""
        if self.process.poll() is None:
            self.process.send_signal(number)
            try:
                self.process.wait(20)
            except subprocess.TimeoutExpired:
                self.process.kill()
                self.process.wait()
        with contextlib.suppress(ValueError):
            self._log.seek(0)
            self.errors = self._log.read()
        if self.process.stdout:
            self.said += self.process.stdout.read() if not self.process.stdout.closed else ""
            self.process.stdout.close()

    # ---- requests

    def ask(self, method: str, path: str, body: bytes | None = None, **headers: str | None) -> Reply:
        """A request as it is; `_` in a header's name stands for `-`, and None leaves one out."""
        wanted: dict[str, str | None] = {"Host": self.host, "Cookie": f"desk={self.cookie}" if self.cookie else None}
        wanted.update({name.replace("_", "-"): value for name, value in headers.items()})
        connection = http.client.HTTPConnection("127.0.0.1", self.port, timeout=60)
        try:
            connection.putrequest(method, path, skip_host=True, skip_accept_encoding=True)
            for name, value in wanted.items():
                if value is not None:
                    connection.putheader(name, value)
            if body is not None:
                connection.putheader("Content-Length", str(len(body)))
            connection.endheaders(body)
            reply = connection.getresponse()
            return Reply(reply.status, {name.lower(): value for name, value in reply.getheaders()}, reply.read().decode(errors="replace"))
        finally:
            connection.close()

    def get(self, path: str, **headers: str | None) -> Reply:
        """A page below the server's own path."""
        return self.ask("GET", self.path + path, **headers)

    def post(self, path: str, form: Mapping[str, object] | list[tuple[str, object]], **headers: str | None) -> Reply:
        """Sends a form, as a browser does from desk's own page."""
        given: dict[str, str | None] = {"Origin": f"http://{self.host}", "Sec_Fetch_Site": "same-origin", "Content_Type": "application/x-www-form-urlencoded"}
        return self.ask("POST", self.path + path, urllib.parse.urlencode(form).encode(), **{**given, **headers})

    def enter(self) -> Reply:
        """Comes in by the token that is in the file."""
        with open(self.file, encoding="utf-8") as file:
            self.token = re.findall(r"token=([\w-]+)", file.read())[0]
        reply = self.get(f"/enter?token={self.token}", Cookie=None)
        found = re.match(r"desk=([^;]+)", reply.headers.get("set-cookie", ""))
        self.cookie = found[1] if found else ""
        return reply

    # ---- a sitting

    def begin(self, name: str) -> Reply:
        """Begins the questions of a case."""
        self.post(f"/ask/{name}/begin", {})
        return self.settled(name)

    def settled(self, name: str) -> Reply:
        """The page of a case once nothing takes a while."""
        end = time.monotonic() + PATIENCE
        while True:
            page = self.get(f"/ask/{name}")
            if 'id="share"' not in page.text or time.monotonic() > end:
                return page
            time.sleep(TICK)

    def does(self, name: str, do: str, number: int, **more: object) -> Reply:
        """Sends one step, and gives the page that it leads to; `status` is that of the step where it was refused."""
        reply = self.post(f"/ask/{name}/step", {"sheet": number, "do": do, **more})
        if reply.status != 303:
            return reply
        location = reply.headers.get("location", "")
        page = self.ask("GET", location)
        if 'id="share"' in page.text:
            page = self.settled(name)
        return Reply(page.status, {**page.headers, "late": "yes" if "late=1" in location else ""}, page.text)

    def shows(self, name: str) -> list[str]:
        """The answers of a case's journal, as the program shows them."""
        journal = os.path.join(self.folder, name.removesuffix(".case") + ".journal")
        ran = subprocess.run([self.program, journal, "show"], stdin=subprocess.DEVNULL, capture_output=True, text=True, check=False)
        return [line for line in ran.stdout.splitlines() if re.match(r"q\d+ .* (yes|no)$", line)]


def processes(path: str) -> list[int]:
    """The processes that name a path among their words."""
    found = []
    for name in os.listdir("/proc"):
        if name.isdecimal():
            with contextlib.suppress(OSError), open(f"/proc/{name}/cmdline", "rb") as file:
                if path.encode() in file.read():
                    found.append(int(name))
    return found
