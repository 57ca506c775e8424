"""Whatever goes wrong is told in lines, with what to do and a status of 1, by real processes: never a traceback, never a wait without
an end, and what it says of the answers is so.

What root may do anyway is tried as another user, and what needs a full disk on one of its own.
"""

from __future__ import annotations

import contextlib
import json
import os
import re
import resource
import shutil
import subprocess
import tempfile
from collections.abc import Iterator

import hands        # desk's folder is on the path now
from planners_desk.case.files import journal_of, kept_of

DESK = ["/usr/bin/python3", os.path.join(hands.DESK, "desk")]
MOST_SECONDS = 3.0      # of processor time for a refusal, on a machine that does much else
MOST_MEMORY = 160       # million bytes
MOST_ROOM = 3_000_000   # thousand bytes of addresses, for whatever is tried
NO_SOLVER = "no SAT solver is installed (cadical, minisat or clasp)"
BEARS = "title: Bären\nthings: Bär Müller\nvalues: 1 2 3\nask: all\nwords: different, before\nplan: scopes\n"
PLANTED = [
    ("case/casefile.py", "        if cells > most:\n", "        if False:\n"),
    ("case/casefile.py", "            self._few(own, MOST_THINGS, \"things\")\n", ""),
    ("case/names.py", "if len(numbers) > MOST_FILLED:", "if False:"),
    ("case/files.py", "    if kind != stat.S_IFREG:\n", "    if False:\n"),
    ("program/talk.py", "    if NO_TEXT in printed:\n", "    if False:\n"),
    ("../../python/acquire/process.py", "        if len(printed) > most:\n", "        if False:\n"),
    ("sitting/session.py", "if f\"answers {len(self.answers)}\" not in lines:", "if False:"),
    ("program/vocabulary.py",
     "if (\n"
     "                name not in self._place\n"
     "                or not number.isdecimal()\n"
     "                or not 1 <= int(number) <= self.coding.size\n"
     "            ):",
     "if False:"),
    ("hints/trials.py", "raise something_else(f\"{len(asked)} questions without an end\")", "pass"),
    ("commands/streams.py", "            name.encode(encoding)\n", "            name.encode()\n"),
    ("commands/streams.py", "        if sys.stdout is not None and fails(sys.stdout):\n", "        if False:\n"),
    ("__main__.py",
     "    except BrokenPipeError:\n        return 1  # nobody reads it any more\n",
     ""),
    ("commands/ask.py", "    return \"all answers are kept\" if stand >= given else", "    return \"all answers are kept\" if True else"),
    ("commands/ask.py", "    if importlib.util.find_spec(\"rich\") is None:\n", "    if False:\n"),
    ("commands/check.py", "    if importlib.util.find_spec(\"rich\") is None:\n", "    if False:\n"),
    ("../desk", "sys.path.insert(0, os.path.dirname(os.path.realpath(__file__)))", "pass"),
    ("hints/solver.py", "if re.fullmatch(\"[1-9][0-9]{0,8}\", word)}", "}"),
    ("hints/solver.py", "except (TimeOver, Unexpected, OSError):", "except TimeOver:"),
]


# ---------------------------------------------------------------- how it is looked at

def ran(line: str, program: str, env: hands.Named | None = None, user: int | None = None) -> subprocess.CompletedProcess[str]:
    """What a line of the shell comes to, in which `desk` is desk, with no more memory than it may need."""
    call = ["/bin/bash", "-c", f"ulimit -v {MOST_ROOM}; " + line.replace("desk ", " ".join(DESK) + " ", 1)]
    whole = {**os.environ, "LC_ALL": "C.UTF-8", "DESK_ACQUIRE": program, **(env or {})}
    whole.pop("PYTHONUNBUFFERED", None)     # what waits to be printed is what is lost at the end
    return subprocess.run(call, stdin=subprocess.DEVNULL, capture_output=True, text=True, encoding="utf-8", errors="backslashreplace", env=whole,
                          timeout=hands.PATIENCE, user=user, check=False)


def wrong(it: subprocess.CompletedProcess[str], said: str, status: int = 1, lines: int = 1) -> list[str]:
    """What isn't as it should be with a refusal: so many lines on standard error, one of which says this, and the status."""
    told = it.stderr.splitlines()
    if it.returncode == status and len(told) == lines and re.search(said, it.stderr) and all(line.startswith("desk: ") for line in told):
        return []
    return [f"status {it.returncode}, {it.stderr[-500:]!r}, and not {said!r}; it printed {it.stdout[-100:]!r}"]


@contextlib.contextmanager
def folder(text: str = BEARS) -> Iterator[str]:
    """A folder with a case in it; the path of the case."""
    with hands.room("bears", text) as path:
        os.chmod(os.path.dirname(path), 0o755)
        yield path


# ---------------------------------------------------------------- streams

def streams(program: str) -> list[str]:
    """Input and output that are closed, full, of bytes, or in another encoding."""
    found = []
    with folder() as path:
        for line, said, status in (
                (f"desk check {path} > /dev/full", "standard input or output: No space left on device", 1),
                ("desk words > /dev/full", "standard input or output: No space left on device", 1),
                (f"desk ask {path} --plain < {path} > /dev/full", "No space left on device; all answers are kept", 1),
                (f"desk check {path} >&-", "standard output is closed", 1),
                (f"desk ask {path} >&- < {path}", "standard output is closed", 1),
                (f"desk ask {path} <&-", "standard input is closed", 1),
                (f"PYTHONUTF8=0 LC_ALL=C desk ask {path} --plain", "the output is in ascii.*LC_ALL=C.UTF-8", 1),
                (f"PYTHONUTF8=0 LC_ALL=C desk check {path}", "the output is in ascii.*LC_ALL=C.UTF-8", 1),
                (f"desk ask {path} --budget -1 2>&1 >/dev/null | tail -1 | sed 's/^desk ask: error/desk/' >&2; exit 2", "invalid budget value", 2)):
            found += [f"{line}: {fault}" for fault in wrong(ran(line, program), said, status)]
        for line, status in ((f"desk ask {path} 2>&- <&-", 1), (f"printf '\\xff\\n\\e]0;x\\nq\\n' | desk ask {path} --plain", 6), ("desk words | head -1", 0)):
            it = ran(line, program)
            if it.returncode != status or it.stderr:
                found.append(f"{line}: {it}")
        if not os.path.exists(journal_of(path)) or os.path.getsize(journal_of(path)) == 0:
            found.append("no session was begun by lines that are no keys")
    return found


def descriptors(program: str) -> list[str]:
    """With standard error closed, what acquire writes there doesn't get into a file that desk has opened in its place."""
    with folder() as path:
        loud = os.path.join(os.path.dirname(path), "loud")
        hands.script(loud, f'echo a line that is no record >&2; exec {program} "$@"')
        it = ran(f"echo y | desk ask {path} --plain 2>&-", loud)
        stand = hands.answers(program, path)
        return [] if it.returncode == 0 and stand > 0 else [f"{it.returncode}, {stand} answers stand, {it.stdout[-200:]!r}"]


# ---------------------------------------------------------------- programs

PRINTS = {
    "nothing": "exit 0", "an end": "exit 9", "bytes": "printf '\\377\\376\\n'", "another line": "echo hello", "without an end": "exec yes",
    "a question": "echo q1 zzz=9", "an answer that is none": "echo 'q1 B_r=1 maybe'", "escapes": "printf 'refused \\033]0;x\\007\\n'; exit 7",
    "no line end": "printf 'q1 Baer=1'", "numbers": "echo q1 Baer=99; echo answers 1", "words for numbers": "echo q1 Baer=x",
    "only a count": "echo answers 5", "a killed one": "kill -9 $$"}


def programs(program: str) -> list[str]:
    """A program in the place of acquire that says something else, in each command, before and behind a session."""
    found = []
    with folder() as path:
        other = os.path.join(os.path.dirname(path), "other")
        for what, does in PRINTS.items():
            hands.script(other, does)
            for command in ("check", "ask --plain"):
                found += [f"{what}, {command}: {fault}" for fault in wrong(ran(f"echo y | desk {command} {path}", other), "acquire (printed|says|was ended)")]
        hands.answered(path, program, lambda q: True, most=1)
        with open(journal_of(path), "rb") as file:
            kept = file.read()
        for what, does in PRINTS.items():
            hands.script(other, does)
            for command in ("ask --plain", f"report {path}", f"carry {path}"):
                call, *more = command.split(" ", 1)
                line = f"echo y | desk {call} {path} --plain" if call == "ask" else f"desk {call} {path}" + (f" {path}.html" if call == "report" else "")
                found += [f"{what}, {call} behind a session: {fault}" for fault in wrong(ran(line, other), "acquire (printed|says|was ended)")]
        for named in ("/nowhere/acquire", path, os.path.dirname(path)):
            found += [f"{named}: {fault}" for fault in wrong(ran(f"desk check {path}", named), "no such program")]
        with open(journal_of(path), "rb") as file:
            if file.read() != kept:
                found.append("the journal isn't as it was")
    return found


def broken_off(program: str) -> list[str]:
    """A program that says something else in the middle of a session: desk says how many answers are kept, and so many stand."""
    found = []
    for lost, does, said in ((0, "echo q9 nobody=1", "`nobody=1`.*; all answers are kept"), (0, "printf '\\377\\n'", "no text.*; all answers are kept"),
                             (1, "echo q9 nobody=1", "`nobody=1`.*; 3 of 4 answers are kept"), (0, "exit 0", "")):
        with folder(hands.WARD) as path:
            other = os.path.join(os.path.dirname(path), "other")
            # a run passes on three questions and their answers, and a last answer to nobody; all else is the program's
            hands.script(other, f'if [ "$2" = run ]; then coproc P {{ {program} "$@"; }}; exec 3<&0\n'
                   f'for k in 1 2 3; do read -r q <&"${{P[0]}}"; echo "$q"; read -r a <&3; echo "$a" >&"${{P[1]}}"; done; read -r q <&"${{P[0]}}"\n'
                   f'if [ {lost} = 1 ]; then echo "$q"; read -r a <&3; fi\n{does}\nelse exec {program} "$@"; fi')
            it = ran(f"yes y | desk ask {path} --plain --plan scopes", other)
            stand = hands.answers(program, path)
            if stand != 3 or said and wrong(it, said) or not said and "3 answers stand" not in it.stdout:
                found.append(f"{does}: {stand} stand, {it.stdout[-200:]!r}, {it.stderr!r}")
    return found


def reader_gone(program: str) -> list[str]:
    """Nobody reads what is printed any more: a command ends in silence with status 1, and `ask` says
    which answers are kept."""
    broken = "desk: standard input or output: Broken pipe; all answers are kept\n"
    found = []
    with folder(hands.WARD) as path:
        hands.answered(path, program, hands.ward, most=3)
        for call, said in (
            (f"check {path} --seconds 0.2", ""),
            (f"report {path} {path}.html", ""),
            (f"carry {path}", ""),
            (f"ask {path} --plain", broken),
        ):
            read, write = os.pipe()
            os.close(read)
            whole = {**os.environ, "DESK_ACQUIRE": program}
            whole.pop("PYTHONUNBUFFERED", None)
            given, told = subprocess.DEVNULL, subprocess.PIPE
            it = subprocess.run([*DESK, *call.split()], stdin=given, stdout=write, stderr=told,
                                text=True, env=whole, check=False)
            os.close(write)
            if (it.returncode, it.stderr) != (1, said):
                found.append(f"{call}: {it.returncode}, {it.stderr!r}")
    return found


def solvers(program: str) -> list[str]:
    """A solver that says something else: no plan is drawn of it, and desk goes on."""
    found = []
    for does in ("printf 'v \\377\\n'; exit 10", "exec yes 1", "echo v 1 2 3 0; exit 10", "exit 10", "echo v 99999999999999999999 ² 0; exit 10", "kill -10 $$", "exit 20"):
        with folder() as path:
            for name in ("cadical", "minisat"):
                bin_folder = os.path.join(os.path.dirname(path), name)
                os.mkdir(bin_folder)
                hands.script(os.path.join(bin_folder, name), does)
                it = ran(f"desk check {path} --seconds 0.3", program, {"PATH": only_solver(bin_folder)})
                if it.returncode or it.stderr or "The solver found none" not in it.stdout:
                    found.append(f"{name}, {does}: {it.returncode}, {it.stderr!r}, {it.stdout[-200:]!r}")
    return found


def only_solver(bin_folder: str) -> str:
    """A PATH on which no other solver is."""
    for tool in ("yes", "bash"):
        os.symlink(shutil.which(tool) or "", os.path.join(bin_folder, tool))
    return bin_folder


# ---------------------------------------------------------------- files

def files(program: str) -> list[str]:
    """What is no file, can't be read, or isn't what desk keeps, in the place of a case and of what lies beside it."""
    found = []
    with folder() as path:
        beside = os.path.dirname(path)
        pipe, large, locked = (os.path.join(beside, name) for name in ("pipe.case", "large.case", "locked.case"))
        os.mkfifo(pipe)
        with open(large, "wb") as file:
            file.truncate(5_000_000_000)
        shutil.copy(path, locked)
        os.chmod(locked, 0)
        for place, said in ((pipe, "is a pipe, and a file is due"), (beside, "is a folder"), ("/dev/zero", "is a device"), (large, "at most 1000000 bytes"),
                            (os.path.join(beside, "none.case"), "No such file")):
            for command in ("check", "ask --plain", "carry", "report"):
                line = f"desk {command} {place}" + (f" {path}.html" if command == "report" else "")
                found += [f"{line}: {fault}" for fault in wrong(ran(line, program), said)]
        found += [f"locked: {fault}" for fault in wrong(ran(f"desk check {locked}", program, user=hands.NOBODY), "Permission denied")]
    for end in (".journal", ".session"):
        for what, said in (("folder", "folder|Is a directory"), ("pipe", "is a pipe")):
            with folder() as path:
                hands.answered(path, program, lambda q: True, most=1)
                place = path.removesuffix(".case") + end
                os.unlink(place)
                os.mkdir(place) if what == "folder" else os.mkfifo(place)
                for command in ("ask --plain", "report", "carry"):
                    line = f"desk {command} {path}" + (f" {path}.html" if command == "report" else "")
                    found += [f"{what} as {end}, {command}: {fault}" for fault in wrong(ran(line, program), said)]
    return found


def kept(program: str) -> list[str]:
    """What lies beside a session and isn't what desk keeps there: told, and neither file is changed."""
    found = []
    with folder() as path:
        hands.answered(path, program, lambda q: True, most=1)
        with open(kept_of(journal_of(path)), encoding="utf-8") as file:
            right = json.load(file)
        one = {"yes": True, "by": "again", "values": {"Bär": "1"}}
        for broken in ("", "{", "[]", "null", "1", "\"x\"", "[" * 100000, {}, {**right, "case": 1}, {**right, "case": None}, {**right, "before": {}},
                       {**right, "before": [1]}, {**right, "before": [[]]}, {**right, "before": [{**one, "values": [1]}]},
                       {**right, "before": [{**one, "values": {"Bär": 1}}]}, {**right, "before": [{**one, "yes": 1}]}, {**right, "before": [{**one, "by": 1}]},
                       {**right, "before": [{"yes": True}]}, {**right, "case": "thigns: a\n"}, b"\xff\xfe"):
            content = broken if isinstance(broken, bytes) else (broken if isinstance(broken, str) else json.dumps(broken)).encode()
            with open(kept_of(journal_of(path)), "wb") as file:
                file.write(content)
            for command in ("ask --plain", "carry"):
                found += [f"{content[:60]!r}, {command}: {fault}" for fault in wrong(ran(f"desk {command} {path}", program), r"bears\.session")]
            with open(kept_of(journal_of(path)), "rb") as file:
                if file.read() != content or hands.answers(program, path) != 1:
                    found.append(f"{content[:60]!r}: it was changed")
    return found


def rights(program: str) -> list[str]:
    """A folder in which one may not write, and files that one may not write or read: the first reason is the one that is told."""
    found = []
    with tempfile.TemporaryDirectory() as home:
        copy = shutil.copy(program, os.path.join(home, "acquire"))
        solver = os.path.join(home, "solver")
        os.mkdir(solver)
        hands.script(os.path.join(solver, "cadical"), "exit 20")
        path = os.path.join(home, "bears.case")
        with open(path, "w", encoding="utf-8") as file:
            file.write(BEARS)
        def told(what: str, said: str, *commands: str) -> None:
            for command in commands:
                line = f"desk {command} {path}" + (f" {home}/page.html" if command == "report" else "")
                found.extend(f"{what}, {command}: {fault}" for fault in wrong(ran(line, copy, user=hands.NOBODY), said))
        os.chmod(home, 0o555)
        told("no session, and none may be made", "bears.journal: Permission denied", "ask --plain")
        os.chmod(home, 0o755)
        hands.answered(path, program, lambda q: True, most=1)
        os.chmod(journal_of(path), 0o444)
        os.chmod(home, 0o555)
        told("a journal that may not be written", "may not be read and written", "ask --plain", "report", "carry")
        os.chmod(journal_of(path), 0)
        what = "a journal that may not be read"
        told(what, "bears.journal: Permission denied", "ask --plain", "report", "carry")
        # `check` looks into it for plans alone, which a solver draws
        it = ran(f"desk check {path}", copy, {"PATH": solver}, user=hands.NOBODY)
        found += [f"{what}, check: {fault}" for fault in wrong(it, "bears.journal: Permission denied")]
        it = ran(f"desk check {path}", copy, {"PATH": home}, user=hands.NOBODY)
        if it.returncode or it.stderr or NO_SOLVER not in it.stdout:
            found.append(f"{what}, check without a solver: {it.returncode}, {it.stderr!r}")
        os.chmod(home, 0o755)
    return found


# ---------------------------------------------------------------- sizes

def sizes(program: str) -> list[str]:
    """What is too large is told at once: sizes are counted before anything is made of them."""
    many, some = 100_000, " ".join(f"d{k}" for k in range(3000))
    rest, named = "values: 1 2\nask: all\nwords: same\n", " ".join(f"n{k}" for k in range(many))
    found = []
    for what, text, said in (
            ("things", f"things: {named}\n{rest}", ":1: there are 100000 things, and the program takes 128"),
            ("things and commas", f"things: {named.replace(' ', ',')}\n{rest}", ":1: there are 100000 things, and the program takes 128"),
            ("values", f"things: a b\nvalues: {named}\nask: all\nwords: same\n", ":2: there are 100000 values, and the program takes 64"),
            ("a grid", f"things: day {some} x hour {some.replace('d', 'h')}\n{rest}", ":1: there are 9000000 things"),
            ("a grid of values", f"things: a b\nvalues: day {some} x hour {some.replace('d', 'h')}\nask: all\nwords: same\n", ":2: there are 9000000 values"),
            ("thirty sides", f"things: {' x '.join(f's{k} a{k} b{k}' for k in range(30))}\n{rest}", ":1: there are 1073741824 things"),
            ("own values", f"thing a: {named}\n{rest}", ":1: there are 100000 values"),
            ("lines of things", "".join(f"thing n{k}: 1 2\n" for k in range(many // 2)) + rest, ":129: there are 129 things"),
            ("a range", "things: a b\nvalues: 1 .. 999999\nask: all\nwords: same\n", ":2: `1 .. 999999` are 999999 names"),
            ("a range of letters", f"things: a .. \U0002a6d6\n{rest}", ":1: .* are 173686 names"),
            ("blanks", f"things: a{' ' * 900_000}b c c\n{rest}", ":1: the thing `c` stands twice"),
            ("only", f"things: a b\nonly a: {' .. '.join(['1'] * many)}\n{rest}", ":2: `..` stands 99999 times"),
            ("a title", f"title: {'x' * 900_000}\nthings: a b\n{rest}", ":1: a title has at most 200 letters"),
            ("words", f"things: a b\nvalues: 1 .. 30\nask: all\nwords: {', '.join(f'{a} not with {b}' for a in range(1, 31) for b in range(1, 31))}\n",
             ":4: there are 900 words, and the program takes 256"),
            ("words that fit", f"things: a b\nvalues: 1 .. 64\nask: all\nwords: {', '.join(f'never {k}' for k in range(1, 65))}\n", "keep the few that matter")):
        with folder(text) as path:
            it, seconds, memory = measured(["check", path, "--acquire", program])
            found += [f"{what}: {fault}" for fault in wrong(it, said)]
            if seconds > MOST_SECONDS or memory > MOST_MEMORY:
                found.append(f"{what}: {seconds:.2f} s and {memory} MB")
    with folder("x\n" * 400_000) as path:
        found += [f"lines: {fault}" for fault in wrong(measured(["check", path])[0], ":1: a line is", lines=20)]
    return found


def measured(call: list[str]) -> tuple[subprocess.CompletedProcess[str], float, int]:
    """One call of desk, its processor time, and its memory in million bytes; it is ended where either is far too much."""
    def limits() -> None:
        resource.setrlimit(resource.RLIMIT_CPU, (20, 20))
        resource.setrlimit(resource.RLIMIT_AS, (2**31, 2**31))
    with tempfile.TemporaryFile("w+") as errors:
        process = subprocess.Popen([*DESK, *call], stdin=subprocess.DEVNULL, stdout=subprocess.DEVNULL, stderr=errors, preexec_fn=limits)
        _, status, usage = os.wait4(process.pid, 0)
        process.returncode = os.waitstatus_to_exitcode(status)
        errors.seek(0)
        it = subprocess.CompletedProcess(call, process.returncode, "", errors.read())
    return it, usage.ru_utime + usage.ru_stime, usage.ru_maxrss // 1000


# ---------------------------------------------------------------- what isn't installed

def without_rich(program: str) -> list[str]:
    """Where python3-rich isn't installed, all goes but the screen, which says so."""
    found = []
    with folder(hands.WARD) as path:
        hidden = os.path.join(os.path.dirname(path), "hidden")
        os.mkdir(hidden)
        with open(os.path.join(hidden, "sitecustomize.py"), "w", encoding="utf-8") as file:
            file.write("import sys\nclass Hidden:\n    def find_spec(self, name, path=None, target=None):\n        if name.split('.')[0] == 'rich':\n"
                       "            raise ModuleNotFoundError(name=name)\nsys.meta_path.insert(0, Hidden())\n")
        with open(os.path.join(hidden, "sitecustomize.py"), "a", encoding="utf-8") as file:
            file.write("import importlib.util\nreal = importlib.util.find_spec\n"
                       "importlib.util.find_spec = lambda name, package=None: None if name == 'rich' else real(name, package)\n")
        env = {"PYTHONPATH": hidden}
        check = ran(f"desk check {path} --seconds 1", program, env)
        if check.returncode or check.stderr or "Advice: " not in check.stdout or shutil.which("cadical") and "    Mon early: Ann" not in check.stdout:
            found.append(f"check: {check.returncode}, {check.stderr!r}, {check.stdout[-300:]!r}")
        for line, status in ((f"yes n | head -3 | desk ask {path} --plain --plan scopes", 6), (f"desk report {path} {path}.html", 0), (f"desk carry {path}", 0)):
            it = ran(line, program, env)
            if it.returncode != status or it.stderr:
                found.append(f"{line}: {it}")
        screen = hands.Terminal(hands.words(path, program), env=env)
        try:
            if screen.wait() != 1 or b"apt-get install python3-rich" not in screen.seen or b"Traceback" in screen.seen or screen.seen.count(b"\n") != 1:
                found.append(f"the screen: {screen.seen!r}")
        finally:
            screen.close()
    return found


def apart(program: str) -> list[str]:
    """`python3 -I`, a link to desk, and another folder: desk finds its modules."""
    found = []
    with folder() as path:
        link = os.path.join(os.path.dirname(path), "link")
        os.symlink(DESK[1], link)
        for call in (["/usr/bin/python3", "-I", DESK[1], "words"], [link, "words"], ["/usr/bin/python3", "-I", link, "check", path, "--seconds", "1"]):
            it = subprocess.run(call, capture_output=True, text=True, cwd="/", env={**os.environ, "DESK_ACQUIRE": program, "LC_ALL": "C.UTF-8"}, check=False)
            if it.returncode or it.stderr:
                found.append(f"{call}: {it.returncode}, {it.stderr[-200:]!r}")
    return found


def full_disk(program: str) -> list[str]:
    """No room at all, before there is a session: told with the file, and nothing half is left."""
    with folder() as path, tempfile.TemporaryDirectory() as home:
        line = (f"mount -t tmpfs -o size=64k none {home} && cp {path} {home}; cat /dev/zero > {home}/filler 2>/dev/null; "
                f"{' '.join(DESK)} ask {home}/bears.case --plain; echo status $? >&2; ls -A {home} >&2")
        for way in (["unshare", "--mount"], ["unshare", "--mount", "--map-root-user"]):
            if subprocess.run([*way, "true"], capture_output=True, check=False).returncode == 0:
                it = subprocess.run([*way, "/bin/bash", "-c", line], stdin=subprocess.DEVNULL, capture_output=True, text=True,
                                    env={**os.environ, "DESK_ACQUIRE": program, "LC_ALL": "C.UTF-8"}, check=False)
                told, *left = it.stderr.splitlines()
                good = "No space left on device" in told and left == ["status 1", "bears.case", "filler"]
                return [] if good else [f"{it.stdout[-200:]!r}, {it.stderr[-400:]!r}"]
    hands.passed_over("refusals", "no disk is full, since nothing may be mounted")
    return []


PARTS = (streams, descriptors, broken_off, reader_gone, apart, full_disk, rights, without_rich,
         sizes, kept, files, solvers, programs)


def quick(program: str) -> list[str]:
    """The faults of the first of these that has any."""
    return next(filter(None, (part(os.path.abspath(program)) for part in PARTS)), [])


def run(program: str) -> list[str]:
    """Faults of all of these."""
    faults: list[str] = []
    for part in PARTS:
        faults += [f"refusals: {part.__name__}: {fault}" for fault in part(os.path.abspath(program))]
    print(f"refusals: {', '.join(part.__name__ for part in PARTS)}, each by processes of their own")
    return faults
