"""What is answered: once for each sheet, by one writer, and kept whatever ends the server."""

from __future__ import annotations

import http.client
import os
import random
import re
import signal
import socket
import subprocess
import sys
import tempfile
import threading
import time
from collections.abc import Iterator
from concurrent.futures import ThreadPoolExecutor

from people import SEATS, WARD
from refused import CASE
from served import DESK, TICK, Web, processes

KILLS = int(os.environ.get("DESK_KILLS", "12"))
SOON = 10.0             # seconds for what has to come about soon
ALIVE = 2.0             # seconds in which a page has to come while something takes long

Faults = Iterator[str]


def gone(web: Web) -> list[int]:
    """The processes of a server's folder that are left after a while."""
    end = time.monotonic() + SOON
    while (left := processes(web.folder)) and time.monotonic() < end:
        time.sleep(TICK)
    return left


def once(program: str) -> Faults:
    """A sheet is answered once, whoever sends its number again; a number of an earlier run counts for nothing."""
    with Web(program, {"x.case": WARD}) as web:
        web.enter()
        page = web.begin("x.case")
        first = page.number
        before = len(web.shows("x.case"))
        with ThreadPoolExecutor(5) as pool:     # a held key and a double click
            sent = list(pool.map(lambda do: web.post("/ask/x.case/step", {"sheet": first, "do": do}), "yyyyy"))
        late = [reply for reply in sent if "late=1" in reply.headers.get("location", "")]
        if len(late) != 4 or {reply.status for reply in sent} != {303}:
            yield f"of five forms with one number {len(late)} came too late: {[reply.status for reply in sent]}"
        page = web.settled("x.case")
        stand = web.shows("x.case")
        own = [answer for answer in stand[before:] if answer.endswith("yes")]
        if len(own) != 1:
            yield f"five forms with one number have given {len(own)} answers: {stand}"
        for do in ("y", "n", "b", "q"):
            again = web.does("x.case", do, first)
            if again.headers.get("late") != "yes" or again.number != page.number or "too late" not in again.text:
                yield f"an old number with {do} isn't told that it is too late"
        if web.shows("x.case") != stand:
            yield "an old number has changed something"
        for _ in range(3):                      # a page that is loaded again
            if web.get("/ask/x.case").number != page.number:
                yield "a reload shows another sheet"
        web.end(signal.SIGKILL)
        web.start()
        web.enter()
        web.begin("x.case")
        for number in (first, page.number):
            if web.does("x.case", "y", number).headers.get("late") != "yes" or len(web.shows("x.case")) != len(stand):
                yield "a number of an earlier run is taken"


def one_writer(program: str) -> Faults:
    """One desk at a time, in a browser or at a terminal."""
    with Web(program, {"x.case": CASE}) as web:
        web.enter()
        page = web.begin("x.case")
        again = web.begin("x.case")             # from another tab
        if again.number != page.number or "question 1" not in again.head:
            yield f"a second tab that begins shows {again.head!r}"
        terminal = ask(web, b"y\nq\n")
        if terminal.returncode != 1 or b"another desk works on it" not in terminal.stderr:
            yield f"a terminal beside it gives {terminal.returncode} {terminal.stderr!r}"
        with Web(program, {}, place="") as other:
            other.folder, kept = web.folder, other.folder
            other.end()
            other.start()
            other.enter()
            if "another desk works on it" not in (shown := other.begin("x.case")).text:
                yield f"a second server shows {shown.head!r}"
            other.end()
            other.folder = kept
        web.does("x.case", "q", page.number)
        if web.shows("x.case"):
            yield "somebody else has answered"
        with subprocess.Popen([sys.executable, os.path.join(DESK, "desk"), "ask", "--plain", os.path.join(web.folder, "x.case")], stdin=subprocess.PIPE,
                              stdout=subprocess.PIPE, stderr=subprocess.PIPE, env={**os.environ, "DESK_ACQUIRE": program}) as beside:
            assert beside.stdin and beside.stdout
            beside.stdout.readline()
            end = time.monotonic() + SOON
            while "another desk works on it" not in (shown := web.begin("x.case")).text and time.monotonic() < end:
                web.does("x.case", "q", shown.number)
            if "another desk works on it" not in shown.text or "Go on with the questions" not in shown.text:
                yield f"beside a terminal the page is {shown.head!r}"
            beside.stdin.write(b"y\nq\n")
            beside.stdin.close()
            beside.wait(60)
        if "question" not in (shown := web.begin("x.case")).head or len(web.shows("x.case")) != 1:
            yield f"after the terminal the page is {shown.head!r}"


def ask(web: Web, keys: bytes) -> subprocess.CompletedProcess[bytes]:
    """The same case at a terminal, with these keys."""
    return subprocess.run([sys.executable, os.path.join(DESK, "desk"), "ask", "--plain", os.path.join(web.folder, "x.case")], input=keys,
                          capture_output=True, env={**os.environ, "DESK_ACQUIRE": web.program}, timeout=120, check=False)


def killed(program: str) -> Faults:
    """A kill at any moment loses no answer after which another page came, and leaves no process."""
    draw = random.Random(7)
    lost = 0
    for trial in range(KILLS):
        with Web(program, {"x.case": SEATS}) as web:
            web.enter()
            page = web.begin("x.case")
            late = threading.Timer(draw.uniform(0.0, 0.5), web.process.kill)
            known = len(web.shows("x.case"))
            late.start()
            try:
                while "question" in page.head:
                    page = web.does("x.case", "y" if draw.random() < 0.7 else "n", page.number)
                    known += 1
            except (OSError, AssertionError, http.client.HTTPException):
                pass
            late.join()
            web.process.wait()
            if left := gone(web):
                yield f"trial {trial}: the processes {left} are left"
            stand = web.shows("x.case")
            own = [line for line in stand]
            if len(own) < known:
                lost += 1
                yield f"trial {trial}: {known} answers were acknowledged, and {len(own)} stand"
            web.start()
            web.enter()
            page = web.begin("x.case")
            if not ("question" in page.head or "Done" in page.head or "clash" in page.head) or len(web.shows("x.case")) < len(stand):
                yield f"trial {trial}: the next server shows {page.head!r}"
            if any(name.endswith(".new") or name.startswith(".desk-") for name in os.listdir(web.folder)):
                yield f"trial {trial}: files are left behind: {os.listdir(web.folder)}"
    print(f"sittings: {KILLS} kills, {lost} answers lost")


def ended(program: str) -> Faults:
    """Each way to end the server ends its programs, gives the locks back, and leaves nothing on the terminal."""
    for number in (signal.SIGTERM, signal.SIGHUP, signal.SIGINT):
        with Web(program, {"x.case": CASE}) as web:
            web.enter()
            page = web.begin("x.case")
            web.does("x.case", "y", page.number)
            web.end(number)
            if left := gone(web):
                yield f"after signal {number} the processes {left} are left"
            if web.errors:
                yield f"after signal {number} the terminal has {web.errors[:300]!r}"
            if os.path.exists(os.path.dirname(web.file)):
                yield f"after signal {number} the file that leads in is left"
            terminal = ask(web, b"q\n")
            if terminal.returncode != 6 or b"question 2" not in terminal.stdout:
                yield f"after signal {number} the terminal goes on with {terminal.stdout!r} {terminal.stderr!r}"


def slept(program: str) -> Faults:
    """A computer that sleeps goes on where it was."""
    with Web(program, {"x.case": CASE}) as web:
        web.enter()
        page = web.begin("x.case")
        page = web.does("x.case", "y", page.number)
        every = {web.process.pid, *processes(web.folder)}
        if len(every) < 2:
            yield "no program runs"
        for number in every:
            os.kill(number, signal.SIGSTOP)
        time.sleep(3)
        for number in every:
            os.kill(number, signal.SIGCONT)
        if (after := web.settled("x.case")).number != page.number:
            yield f"after the sleep the page is {after.head!r}"
        web.does("x.case", "y", page.number)
        if len(web.shows("x.case")) != 2:
            yield "after the sleep no answer is taken"


def quiet(program: str) -> Faults:
    """Requests that break off write nothing to the terminal, and the server goes on."""
    with Web(program, {"x.case": CASE}) as web:
        web.enter()
        web.begin("x.case")
        for given in (b"", b"GET ", b"GET / HTTP/1.1\r\nHost: x\r\n", b"\x16\x03\x01\x02\x00", b"POST /x HTTP/1.1\r\nContent-Length: 99\r\n\r\nab",
                      f"GET {web.path}/ask/x.case HTTP/1.1\r\nHost: {web.host}\r\nCookie: desk={web.cookie}\r\n\r\n".encode(), b"A" * 300_000):
            for _ in range(3):
                with socket.create_connection(("127.0.0.1", web.port)) as connection:
                    try:
                        connection.sendall(given)
                    except OSError:
                        pass
                    connection.setsockopt(socket.SOL_SOCKET, socket.SO_LINGER, b"\1\0\0\0\0\0\0\0")
        with ThreadPoolExecutor(40) as pool:        # more than are served at once
            if {reply.status for reply in pool.map(lambda _: web.get("/ask/x.case"), range(120))} != {200}:
                yield "it doesn't go on"
        with open(os.path.join(web.folder, "x.case"), "w", encoding="utf-8") as file:
            file.write("things: a b\nnonsense: \x1b]0;evil\x07\n")
        for path in ("/", "/case/x.case", "/ask/x.case"):
            if web.get(path).status not in (200, 409):
                yield f"with a wrong case {path} has status {web.get(path).status}"
        web.does("x.case", "q", web.settled("x.case").number)
        if "Go on with" not in (page := web.begin("x.case")).text or "x.case:" not in page.text or "\x1b" in page.text:
            yield f"a wrong case is told as {page.text[-800:]!r}"
        os.unlink(os.path.join(web.folder, "x.case"))
        if web.get("/ask/x.case").status != 404:
            yield "a case that is gone is shown"
        web.end()
        if web.errors:
            yield f"the terminal has {web.errors[:500]!r}"


def alive(program: str) -> Faults:
    """While a solver takes long the pages come, with a bar, and the person may do without."""
    with tempfile.TemporaryDirectory() as folder:
        slow = os.path.join(folder, "cadical")
        with open(slow, "w", encoding="utf-8") as file:
            file.write("#!/bin/sh\nexec sleep 30\n")
        os.chmod(slow, 0o755)
        with Web(program, {"x.case": CASE}, environment={"PATH": f"{folder}:{os.environ['PATH']}"}) as web:
            web.enter()
            page = web.begin("x.case")
            while "question" in page.head:
                page = web.does("x.case", "y", page.number)
            for do in ("plans", "report"):
                number = page.number
                web.post("/ask/x.case/step", {"sheet": number, "do": do})
                shares = set()
                end = time.monotonic() + SOON
                while len(shares) < 3 and time.monotonic() < end:
                    began = time.monotonic()
                    shown = web.get("/ask/x.case")
                    state = web.get("/ask/x.case/state")
                    if time.monotonic() - began > ALIVE:
                        yield f"while {do} takes long a page takes {time.monotonic() - began:.1f} s"
                    if 'id="share"' not in shown.text:
                        yield f"while {do} takes long the page is {shown.head!r}"
                        break
                    shares.add(state.text)
                    time.sleep(0.3)
                if len(shares) < 3:
                    yield f"while {do} takes long the bar doesn't move: {shares}"
                began = time.monotonic()
                web.post("/ask/x.case/step", {"sheet": web.get("/ask/x.case").number, "do": "end"})
                page = web.settled("x.case")
                if time.monotonic() - began > 3 * ALIVE or "Done" not in page.head:
                    yield f"{do} isn't done without: {page.head!r} after {time.monotonic() - began:.1f} s"
                if left := [number for number in processes("sleep\x0030") if number in processes(folder)]:
                    yield f"the solver goes on: {left}"


def contradicted(program: str) -> Faults:
    """A rule that is said beforehand later on, against an answer, is told before anything is asked; both ways out go on."""
    with Web(program, {"x.case": CASE}) as web:
        web.enter()
        page = web.begin("x.case")
        page = web.does("x.case", "y", page.number)         # the first question has two that are the same
        web.does("x.case", "q", page.number)
        path = os.path.join(web.folder, "x.case")
        with open(path, "w", encoding="utf-8") as file:
            file.write(CASE + "always: different on all\n")
        page = web.begin("x.case")
        if "contradicts your answer to question 1" not in page.head or "breaks the rule" not in page.text:
            yield f"the page is {page.head!r}"
        page = web.does("x.case", "q", page.number)
        if "Stopped" not in page.head or len(web.shows("x.case")) != 1:
            yield f"after a stop the page is {page.head!r}"
        page = web.begin("x.case")
        page = web.does("x.case", "back to", page.number, place=0)
        if "question" not in page.head or not web.shows("x.case")[0].endswith("no"):
            yield f"after going back the page is {page.head!r}, with {web.shows('x.case')}"


def back(program: str) -> Faults:
    """Each answer can be gone back to, also from the page of all; what was said later counts again."""
    with Web(program, {"x.case": SEATS.replace("always: different on all\n", "")}) as web:
        web.enter()
        page = web.begin("x.case")
        draw = random.Random(3)
        for _ in range(50):
            page = web.does("x.case", "y" if draw.random() < 0.6 else "n", page.number)
        stand = web.shows("x.case")
        here = page
        page = web.does("x.case", "answers", page.number)
        if "All answers: 50" not in re.sub(r"\s+", " ", page.text) or page.text.count("back to this") != 50:
            yield f"of 50 answers {page.text.count('back to this')} are shown"
        page = web.does("x.case", "o", page.number)
        if page.head != here.head or web.shows("x.case") != stand:
            yield f"after looking at all answers the page is {page.head!r}"
        page = web.does("x.case", "answers", page.number)
        page = web.does("x.case", "back to", page.number, place=2)
        if "question 3" not in page.head or web.shows("x.case") != stand[:2] or "is taken back" not in page.text:
            yield f"after going back to the third answer the page is {page.head!r}, and {len(web.shows('x.case'))} answers stand"
        page = web.does("x.case", "y" if stand[2].endswith("yes") else "n", page.number)
        if web.shows("x.case") != stand or "47 " not in page.text and "Answered for you" not in page.text:
            yield f"the later answers don't count again: {len(web.shows('x.case'))} of {len(stand)}"
        page = web.does("x.case", "b", page.number)
        if len(web.shows("x.case")) != 2:
            yield f"after going back once more {len(web.shows('x.case'))} answers stand"


def other_pythons(program: str) -> Faults:
    """Begun by a Python without the libraries it goes on with one that has them, or says what to install."""
    with tempfile.TemporaryDirectory() as folder:
        words = [sys.executable, "-S", os.path.join(DESK, "desk"), "web", "--no-browser", folder]
        environment = {**os.environ, "DESK_ACQUIRE": program}
        ran = subprocess.run(words, env={**environment, "DESK_WEB_PYTHON": "none"}, capture_output=True, text=True, timeout=60, check=False)
        if ran.returncode != 1 or "apt-get install python3-flask python3-waitress" not in ran.stderr or "Traceback" in ran.stderr:
            yield f"without the libraries it ends with {ran.returncode} {ran.stderr!r}"
        with subprocess.Popen(words, env=environment, stdout=subprocess.PIPE, text=True) as begun:
            late = threading.Timer(60, begun.kill)
            late.start()
            assert begun.stdout
            said = begun.stdout.readline()
            late.cancel()
            begun.terminate()
            if "are shown on a page" not in said:
                yield f"another Python says {said!r}"


TESTS = (once, one_writer, killed, ended, slept, quiet, alive, contradicted, back, other_pythons)
PLANTED = (
    ("sittings.py", "            if number != self._number or self._over:\n",
     "            if self._over:\n", once),
    ("sittings.py", "            if not self._waits or self._step is not None:\n",
     "            if self._over:\n", once),
    ("sittings.py", "field(default_factory=lambda: secrets.randbelow(NUMBERS))", "0", once),
    ("sittings.py", "            if owner is None or owner.state().over:\n",
     "            if True:\n", one_writer),
    ("serve.py", "(signal.SIGTERM, signal.SIGHUP)", "()", ended),
    ("server.py", "    quiet()\n", "", quiet),
    ("questions.py", "            first = self._against()\n", "            first = 0\n",
     contradicted),
    ("lines.py", "        if chosen(session, step):\n            return step.place\n", "", back),
    ("serve.py", "                go_on_with(python)\n", "                pass\n", other_pythons),
    ("reporting.py", "owner.busy(text, 1 - made.left / seconds, True)", "None", alive),
)
