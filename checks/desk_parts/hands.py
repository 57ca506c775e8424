"""What several parts need to sit in front of desk: cases, people who answer, pipes, a terminal of one's own, and tmux.

The people know the rules of their case as plain functions of names. Which values a question asks about is worked out here from
the program's own line, not by desk.
"""

from __future__ import annotations

import fcntl
import os
import pty
import re
import select
import shutil
import signal
import struct
import subprocess
import sys
import tempfile
import termios
import time
from collections.abc import Callable, Iterator
from contextlib import contextmanager

TOP = os.path.realpath(os.path.join(os.path.dirname(__file__), "..", ".."))
DESK = os.environ.get("DESK_FOLDER", os.path.join(TOP, "desk"))
if DESK not in sys.path:
    sys.path.insert(0, DESK)

PATIENCE = 120.0        # seconds until something that has to come counts as lost; machines may be busy
MOST_SHEETS = 2500      # of a sitting over pipes; one that has more waits for what never comes
QUESTION = re.compile(r"question (\d+)")
NOBODY = 65534 if os.geteuid() == 0 else None       # who may not do what root may
Named = dict[str, str]
Owner = Callable[[Named], bool]

DAYS = ["Mon", "Tue", "Wed", "Thu", "Fri", "Sat", "Sun"]

WARD = """title: Ward roster, one week
things: day Mon Tue Wed Thu Fri Sat Sun x shift early late night
values: Ann Ben Cas Dee Eve
ask: same day, night to next day early, night to next day late
words: different, never Ann
"""

SCHOOL = """title: Schulwoche <b>&"
things: Mathe Englisch Physik Kunst Sport Geschichte
values: day Mo Di Mi x hour 1 2 3 4
ask: all
words: different, different day, earlier day
"""

BICYCLE = """title: Bicycle
thing frame: steel alu carbon
thing fork: rigid air coil
thing brakes: rim disc hydraulic
thing motor: none hub mid
thing battery: none small large
ask: frame-fork, frame-brakes, frame-motor, brakes-motor, motor-battery
words: frame=carbon not with motor=hub, brakes=rim not with motor=mid, motor=hub not with battery=none, motor=mid not with battery=none
words: frame=steel not with fork=air, frame=carbon not with fork=coil, frame=alu not with brakes=rim, motor=none not with battery=large
words: frame=carbon not with brakes=rim, frame=steel not with motor=mid, brakes=disc not with motor=none
"""

TEAM = """title: Zwölf Bären
things: Bär Müller Öz Čapek Ærø Łukasz
values: früh spät nachts
ask: all
words: different, not both nachts
"""


def ward(q: Named) -> bool:
    """Nobody twice a day but on Sunday, nobody early or late after a night, Ann never at night."""
    for one, who in q.items():
        day, shift = one.split()
        for other, same in q.items():
            if who != same or one == other:
                continue
            day2, shift2 = other.split()
            if day == day2 and not (day == "Sun" and {shift, shift2} == {"early", "late"}):
                return False
            if shift == "night" and shift2 != "night" and DAYS.index(day2) == DAYS.index(day) + 1:
                return False
    return not any(who == "Ann" and one.endswith("night") for one, who in q.items())


def school(q: Named) -> bool:
    """One lesson at a time; maths and physics on different days; English on an earlier day than history."""
    if len(set(q.values())) < len(q):
        return False
    day = {lesson: at.split()[0] for lesson, at in q.items()}
    if "Mathe" in q and "Physik" in q and day["Mathe"] == day["Physik"]:
        return False
    order = ["Mo", "Di", "Mi"]
    return not ("Englisch" in q and "Geschichte" in q and order.index(day["Englisch"]) >= order.index(day["Geschichte"]))


def bicycle(q: Named) -> bool:
    """What doesn't go together."""
    bad = (("frame", "carbon", "motor", "hub"), ("brakes", "rim", "motor", "mid"), ("motor", "hub", "battery", "none"),
           ("motor", "mid", "battery", "none"))
    return not any(q.get(a) == x and q.get(b) == y for a, x, b, y in bad)


def team(q: Named) -> bool:
    """One at night at most, and Bär and Müller never together."""
    return list(q.values()).count("nachts") < 2 and not ("Bär" in q and q.get("Bär") == q.get("Müller"))


CASES: dict[str, tuple[str, Owner]] = {"ward": (WARD, ward), "school": (SCHOOL, school), "bicycle": (BICYCLE, bicycle), "team": (TEAM, team)}


@contextmanager
def room(name: str = "ward", text: str | None = None) -> Iterator[str]:
    """A folder with a case; the path of the case."""
    with tempfile.TemporaryDirectory() as folder:
        path = os.path.join(folder, f"{name}.case")
        with open(path, "w", encoding="utf-8") as file:
            file.write(text if text is not None else CASES[name][0])
        yield path


def journal(path: str) -> str:
    """The journal of a case."""
    return path.removesuffix(".case") + ".journal"


def words(path: str, program: str, *more: str) -> list[str]:
    """The words that start a sitting."""
    return ["/usr/bin/python3", os.path.join(DESK, "desk"), "ask", path, "--acquire", program, *more]


def answered(path: str, program: str, owner: Owner, plan: str = "scopes", most: int | None = None, slip: int | None = None) -> str:
    """Leads a session by a person until it ends, or for so many questions; how it ended. One answer may be turned round."""
    from planners_desk.case import casefile
    from planners_desk.sitting import session
    from planners_desk.program import talk
    case = casefile.read(path)
    with session.Session.opened(case, talk.Program(program), plan) as one, one.sit() as sitting:
        sitting.advance()
        count = 0
        while sitting.question is not None:
            if count == most:
                sitting.stop()
                break
            count += 1
            said = owner({case.things[thing].name: case.values[value] for thing, value in sitting.question.values.items()})
            sitting.answer(said != (count == slip))
            sitting.advance()
        return sitting.ending.word if sitting.ending else ""


def acquire(program: str, path: str, *command: str) -> list[str]:
    """What the program says of a journal, as lines."""
    ran = subprocess.run([program, journal(path), *command], stdin=subprocess.DEVNULL, stdout=subprocess.PIPE, text=True, check=False)
    return ran.stdout.splitlines()


def report(program: str, path: str, target: str) -> subprocess.CompletedProcess[str]:
    """Calls desk report."""
    command = ["/usr/bin/python3", os.path.join(DESK, "desk"), "report", path, target, "--acquire", program]
    return subprocess.run(command, capture_output=True, text=True, check=False)


def desk(*call: str, given: str = "", env: Named | None = None) -> subprocess.CompletedProcess[str]:
    """One call of desk with its words, as a process of its own."""
    return subprocess.run(["/usr/bin/python3", os.path.join(DESK, "desk"), *call], input=given, capture_output=True, text=True, encoding="utf-8",
                          errors="backslashreplace", timeout=PATIENCE, env={**os.environ, **(env or {})}, check=False)


def script(path: str, does: str) -> None:
    """Writes a program of one line."""
    with open(path, "w", encoding="utf-8") as file:
        file.write(f"#!/bin/bash\n{does}\n")
    os.chmod(path, 0o755)


def passed_over(part: str, what: str) -> None:
    """Says what a part doesn't look at here; the last line of checks/desk.py counts it."""
    print(f"PASSED OVER {part}: {what}")


def answers(program: str, path: str) -> int:
    """How many answers stand in a journal."""
    lines = [line for line in acquire(program, path, "show") if line.startswith("answers ")]
    return int(lines[0].split()[1]) if lines else -1


def due(program: str, path: str) -> tuple[int, Named]:
    """The question that a journal waits for, by the program's own line, in the names of a case without values of its own."""
    with open(path, encoding="utf-8") as file:
        case = dict(line.split(":", 1) for line in file.read().splitlines() if ":" in line)
    with tempfile.TemporaryDirectory() as folder:
        copy = shutil.copy(journal(path), os.path.join(folder, "journal"))
        ran = subprocess.run([program, copy, "run"], stdin=subprocess.DEVNULL, stdout=subprocess.PIPE, text=True, check=False)
    first = ran.stdout.splitlines()[0].split()
    if not first[0].startswith("q"):
        return 0, {}
    order = variables(program, path)
    things, values = members(case["things"]), members(case["values"])
    pairs = (word.rsplit("=", 1) for word in first[1:])
    return int(first[0][1:]), {things[order.index(name)]: values[int(number) - 1] for name, number in pairs}


def members(text: str) -> list[str]:
    """The things or values of a case's line: a list, or a grid of two parts."""
    parts = [part.split() for part in text.strip().split(" x ")]
    return [f"{a} {b}" for a in parts[0][1:] for b in parts[1][1:]] if len(parts) == 2 else parts[0]


def variables(program: str, path: str) -> list[str]:
    """The program's names of the things, in order, from the journal's own bytes."""
    with open(journal(path), "rb") as file:
        text = file.read()
    found = re.search(rb'"variables":\[([^]]*)\]', text)
    assert found is not None, program
    return [name.decode().strip('"') for name in found[1].split(b",")]


def processes(about: str) -> list[int]:
    """The processes that have this text among their words."""
    found = []
    for entry in filter(str.isdigit, os.listdir("/proc")):
        try:
            with open(f"/proc/{entry}/cmdline", "rb") as file:
                if about.encode() in file.read() and int(entry) != os.getpid():
                    found.append(int(entry))
        except OSError:
            pass
    return found


def gone(about: str) -> bool:
    """Whether no process with this text among its words is left soon."""
    return until(lambda: not processes(about))


def until(true: Callable[[], bool], patience: float = PATIENCE) -> bool:
    """Waits until something is so; whether it came to be."""
    end = time.monotonic() + patience
    while not true():
        if time.monotonic() > end:
            return False
        time.sleep(0.02)
    return True


# ---------------------------------------------------------------- pipes

class Piped:
    """desk over pipes, in plain lines."""

    def __init__(self, path: str, program: str, *more: str, env: Named | None = None) -> None:
        self.ran = subprocess.Popen(words(path, program, *more), stdin=subprocess.PIPE, stdout=subprocess.PIPE, stderr=subprocess.PIPE, text=True,
                                    encoding="utf-8", bufsize=1, env={**os.environ, **(env or {})})
        self.lines: list[str] = []
        self.sheets = 0

    def sheet(self) -> list[str] | None:
        """The lines up to the next prompt, which is the last of them; None where desk has ended instead."""
        assert self.ran.stdout
        self.sheets += 1
        if self.sheets > MOST_SHEETS:
            self.ran.kill()
            raise RuntimeError(f"no end after {MOST_SHEETS} sheets, the last of them {self.lines[-5:]}")
        lines: list[str] = []
        for line in self.ran.stdout:
            lines.append(line.rstrip("\n"))
            if re.match(r"(\S )+\S.*:$", lines[-1]) and lines[-1].split()[0] in ("y", "g", "b", "q", "o", "a"):
                self.lines += lines
                return lines
        self.lines += lines
        return None

    def say(self, key: str) -> None:
        """Types a key and Enter."""
        assert self.ran.stdin
        self.ran.stdin.write(key + "\n")
        self.ran.stdin.flush()

    def end(self) -> int:
        """Ends the input; the exit status."""
        assert self.ran.stdin and self.ran.stdout and self.ran.stderr
        self.ran.stdin.close()
        self.lines += self.ran.stdout.read().splitlines()
        self.errors = self.ran.stderr.read()
        return self.ran.wait(PATIENCE)


def plain_values(lines: list[str]) -> Named:
    """The values of a question in plain lines."""
    found = {}
    for line in lines[1:]:
        name, colon, rest = line.partition(": ")
        if not colon or name.startswith(("Answered for", "Your ")):
            break
        found[name] = rest.removesuffix(" (changed)").removesuffix(" (this breaks it)")
    return found


def is_question(sheet: list[str]) -> bool:
    """Whether a sheet puts a question of the session."""
    return sheet[-1].startswith("y yes, n no, b back, w why")


# ---------------------------------------------------------------- a terminal of one's own

class Terminal:
    """desk at a terminal whose bytes are read here."""

    def __init__(self, command: list[str], width: int = 80, height: int = 24, env: Named | None = None) -> None:
        self.seen = b""
        whole = {**os.environ, "TERM": "xterm-256color", "LANG": "C.UTF-8", **(env or {})}
        for name in [name for name, value in whole.items() if value == ""]:
            del whole[name]
        self.pid, self.file = pty.fork()
        if self.pid == 0:
            # whoever started this check in the background has Ctrl-C ignored, and a new program would take that over
            signal.signal(signal.SIGINT, signal.SIG_DFL)
            os.execvpe(command[0], command, whole)
        fcntl.ioctl(self.file, termios.TIOCSWINSZ, struct.pack("HHHH", height, width, 0, 0))
        self.status: int | None = None

    def read(self, seconds: float = 0.0) -> bytes:
        """What comes in some time."""
        end, came = time.monotonic() + seconds, b""
        while True:
            ready, _, _ = select.select([self.file], [], [], max(0.0, end - time.monotonic()))
            if not ready:
                break
            try:
                part = os.read(self.file, 65536)
            except OSError:
                part = b""
            if not part:
                break
            came += part
        self.seen += came
        return came

    def wait_for(self, text: str, since: int = 0, patience: float = PATIENCE) -> bool:
        """Waits until a text has come behind a place of what was seen."""
        end = time.monotonic() + patience
        while text.encode() not in self.seen[since:]:
            if time.monotonic() > end or self.ended():
                self.read(0.05)
                return text.encode() in self.seen[since:]
            self.read(0.01)
        return True

    def type(self, keys: str) -> int:
        """Types keys; the place of what is seen from now on."""
        self.read()
        place = len(self.seen)
        os.write(self.file, keys.encode())
        return place

    def answer(self, key: str, number: int) -> bool:
        """Types a key once the guard is over, until question `number` is there. None is typed where an earlier one was taken late."""
        return self.press(key, f"question {number}", 10.0)

    def told(self) -> bool:
        """Types a wrong key until that is told: all keys before it have been read then."""
        return self.press("#", "# isn't one of the keys", 1.0)

    def press(self, key: str, text: str, patience: float) -> bool:
        """Types a key once the guard is over, and again where it was dropped, until a text comes."""
        time.sleep(0.2)
        place = self.type(key)
        for _ in range(20):
            if self.wait_for(text, place, patience):
                return True
            self.type(key)
        return False

    def drawn(self, head: str) -> bool:
        """Waits until a question with this in its first line is drawn to its end, the last key."""
        return self.wait_for(head) and self.wait_for("? help", self.seen.rindex(head.encode()))

    def ended(self) -> bool:
        """Whether the program has ended."""
        if self.status is None:
            pid, status = os.waitpid(self.pid, os.WNOHANG)
            if pid:
                self.status = os.waitstatus_to_exitcode(status)
        return self.status is not None

    def wait(self) -> int | None:
        """The exit status, once it has ended; None where it doesn't."""
        until(lambda: bool(self.read()) or self.ended())
        until(lambda: self.ended() or bool(self.read() and False))
        self.read(0.05)
        return self.status

    def modes(self) -> list[object]:
        """How the terminal is set."""
        return termios.tcgetattr(self.file)[:4]

    def close(self) -> None:
        """Ends what is left of it."""
        if not self.ended():
            os.kill(self.pid, signal.SIGKILL)
            os.waitpid(self.pid, 0)
        os.close(self.file)


# ---------------------------------------------------------------- tmux

class Tmux:
    """desk in a window of tmux, looked at as a person sees it."""

    def __init__(self, command: list[str], width: int, height: int) -> None:
        self.socket = f"desk-{os.getpid()}-{time.monotonic_ns()}"
        line = " ".join("'" + word.replace("'", "'\\''") + "'" for word in command)
        self._tmux("-f", "/dev/null", "new-session", "-d", "-s", "it", "-x", str(width), "-y", str(height),
                   f"LANG=C.UTF-8 {line}; echo ended $?; sleep 600")

    def _tmux(self, *rest: str) -> str:
        return subprocess.run(["tmux", "-u", "-L", self.socket, *rest], stdout=subprocess.PIPE, text=True, encoding="utf-8", check=False,
                              env={**os.environ, "LANG": "C.UTF-8"}).stdout

    def looked(self) -> tuple[str, bool]:
        """What stands on the screen, and whether it is drawn to its end. A screen of desk's is drawn
        from the top to the last line, whose end the cursor stays behind; both are asked for in one
        call, between which and the other nothing is drawn."""
        cursor = "#{alternate_on} #{cursor_x} #{cursor_y} #{pane_width} #{pane_height}"
        call = ("display-message", "-p", "-t", "it", cursor, ";", "capture-pane", "-p", "-t", "it")
        where, _, shown = self._tmux(*call).partition("\n")
        if not where:
            return "", False
        its_own, x, y, width, height = map(int, where.split())
        return shown, not its_own or (x, y) == (width, height - 1)

    def title(self) -> str:
        """The title of the window."""
        return self._tmux("display-message", "-p", "-t", "it", "#{pane_title}")

    def wait_for(self, pattern: str, patience: float = PATIENCE) -> str:
        """The screen once it is drawn to its end with the pattern on it and stays as it is; what is
        there where that never comes."""
        now = ("", False)
        def there() -> bool:
            nonlocal now
            before, now = now, self.looked()
            return now[1] and before == now and re.search(pattern, now[0]) is not None
        until(there, patience)
        return now[0]

    def type(self, key: str) -> None:
        """Types a key."""
        self._tmux("send-keys", "-t", "it", key)

    def resize(self, width: int, height: int) -> None:
        """Another size of the window."""
        self._tmux("resize-window", "-t", "it", "-x", str(width), "-y", str(height))

    def close(self) -> None:
        """Ends tmux."""
        self._tmux("kill-server")
