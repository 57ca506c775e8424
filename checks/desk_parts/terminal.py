"""A real terminal: what stands on the screen at each question, keys, Ctrl-C, kills, pipes, full disks, two desks at once.

usage: checks/desk.py PROGRAM terminal
"""

from __future__ import annotations

import contextlib
import json
import os
import random
import re
import shutil
import signal
import subprocess
import sys
import tempfile
import threading
import time
from collections.abc import Callable

import hands
from hands import CASES, Piped, Terminal, Tmux, room

SIZES = ((200, 50), (80, 24), (60, 20), (40, 12))
# which sessions are looked at at each size: the case, the plan, and at most how many questions
SESSIONS = (("bicycle", "scopes", 99), ("team", "multi", 99), ("school", "quacq", 14), ("ward", "quacq", 14))
KILLS = 8
SLOWLY = os.path.join(hands.TOP, "checks", "desk_parts", "slowly.py")
# a session is at its end
OVER = r"Done after|clash|ended \d"
# which page of how many stands at the foot of a screen
PAGES = re.compile(r"(\d+)(?:/| of )(\d+)\)?\s*$")
RED = re.compile(rb"\x1b\[[0-9;]*\b(3[0-7]|4[0-7]|9[0-7]|10[0-7]|38|48)\b[0-9;]*m")

PLANTED = [
    # each value has the name of the next one
    ("case/picture.py", "return self.called(thing, self.case.label(self.values[thing]))",
     "return self.called(thing, self.case.values[(self.values[thing] + 1) % len(self.case.values)])"),
    # the guard is off
    ("faces/keys.py", "now - shown >= GUARD", "now - shown >= 0"),
    # the terminal isn't put back
    ("faces/screen.py", "                self.keyboard.__exit__()\n", ""),
    # yes is taken before all pages were seen
    ("faces/screen.py", "if key in sheet.whole and not all_seen:", "if False:"),
]


def run(program: str) -> list[str]:
    """The faults that were found."""
    faults: list[str] = []
    if shutil.which("tmux"):
        faults += at_sizes(program)
    else:
        hands.passed_over("terminal", "no screen is looked at, since tmux isn't installed")
    rows = [row for row in ROWS if row not in IN_TMUX or shutil.which("tmux")]
    for row in rows:
        try:
            faults += [f"terminal: {row.__name__}: {fault}" for fault in row(program)]
        except Exception as error:     # a row that breaks is a fault of what it looks at
            faults.append(f"terminal: {row.__name__}: {error!r}")
    faults += [f"terminal: {fault}" for fault in on_disks(program)]
    print(f"terminal: {len(SESSIONS)} sessions at {len(SIZES)} sizes, {len(rows)} rows of keys, kills and pipes")
    return faults


def quick(program: str) -> list[str]:
    """The same in little: one session at one size, and a few rows."""
    faults = [f"terminal: {fault}" for fault in one_session(program, "team", "multi", 12, (40, 12))] if shutil.which("tmux") else []
    rows = (guard, interrupted_once, uncoloured, *((all_of_it,) if shutil.which("tmux") else ()))
    return faults + [f"terminal: {row.__name__}: {fault}" for row in rows for fault in row(program)]


# ---------------------------------------------------------------- what stands on the screen

def at_sizes(program: str) -> list[str]:
    """Sessions in tmux, each size in a thread of its own."""
    faults: list[str] = []
    def one_size(size: tuple[int, int]) -> None:
        for name, plan, most in SESSIONS:
            try:
                faults.extend(f"terminal: {name} at {size[0]}x{size[1]}: {fault}" for fault in one_session(program, name, plan, most, size))
            except Exception as error:
                faults.append(f"terminal: {name} at {size[0]}x{size[1]}: {error!r}")
    threads = [threading.Thread(target=one_size, args=(size,)) for size in SIZES]
    for thread in threads:
        thread.start()
    for thread in threads:
        thread.join()
    return faults


def one_session(
    program: str, name: str, plan: str, most: int, size: tuple[int, int], through: tuple[str, ...] = ()
) -> list[str]:
    """Each cell that a question asks about stands on the screen, and no other. A command may stand
    between desk and the terminal."""
    with room(name) as path:
        tmux = Tmux([*through, *hands.words(path, program, "--plan", plan)], *size)
        try:
            number = 0
            while number < most:
                shown = tmux.wait_for(rf"{beyond(number)}[\s\S]*y yes|{OVER}")
                if not re.search(beyond(number), shown):
                    break
                number, wanted = expected(program, path)
                got, screens = all_pages(tmux, wanted)
                if expected(program, path)[0] != number:     # a key that was typed twice has been taken since
                    continue
                if got != wanted or not re.search(rf"question {number}\b", screens):
                    return [f"question {number} shows {got} and not {wanted}:\n{screens}"]
                if "at most" not in shown.replace("\n", " ") or "groups finished" not in shown:
                    return [f"question {number} doesn't say how far it is:\n{shown}"]
                press(tmux, "y" if CASES[name][1](wanted) else "n", rf"{beyond(number)}|{OVER}")
            return [] if number > 8 else [f"only {number} questions came:\n{shown}"]
        finally:
            tmux.close()


def beyond(number: int) -> str:
    """A pattern for the head of any question behind one: a machine that is busy may take a key late, and then two of them."""
    return rf"question (?!{number}\b)\d+"


def press(tmux: Tmux, key: str, pattern: str) -> str:
    """Types a key until it is taken, and what is shown then: one within the guard isn't. None is typed where an earlier one was
    taken late."""
    shown = ""
    for _ in range(20):
        time.sleep(0.17)
        shown = tmux.wait_for("", 10.0)
        if re.search(pattern, shown):
            break
        tmux.type(key)
        shown = tmux.wait_for(pattern, 10.0)
        if re.search(pattern, shown):
            break
    return shown


def expected(program: str, path: str) -> tuple[int, hands.Named]:
    """The question that waits, in the case's names."""
    if "\nthing " not in open(path, encoding="utf-8").read():
        return hands.due(program, path)
    from planners_desk.case import casefile
    from planners_desk.program import vocabulary
    words = vocabulary.build(casefile.read(path))
    with tempfile.TemporaryDirectory() as folder:
        copy = shutil.copy(hands.journal(path), os.path.join(folder, "journal"))
        line = subprocess.run([program, copy, "run"], stdin=subprocess.DEVNULL, stdout=subprocess.PIPE, text=True, check=False).stdout.split("\n")[0]
    head, *tokens = line.split()
    values = words.values_of(tokens)
    return int(head[1:]), {words.case.things[thing].name: words.case.values[value] for thing, value in values.items()}


def all_pages(tmux: Tmux, wanted: hands.Named) -> tuple[hands.Named, str]:
    """The values that all pages of a question show together."""
    found: hands.Named = {}
    screens: dict[int, str] = {}
    shown = tmux.wait_for("")
    for _ in range(20):
        pages = PAGES.search(shown)
        here, count = (int(pages[1]), int(pages[2])) if pages else (1, 1)
        screens[here] = shown
        found |= read_cells(shown, wanted)
        if len(screens) == count:
            break
        time.sleep(0.2)
        tmux.type("Space")
        shown = tmux.wait_for(rf"\b(?!{here}\b)\d+(/| of ){count}\)?\s*$", 5.0)
    return found, "\n".join(screens.values())


def read_cells(shown: str, wanted: hands.Named) -> hands.Named:
    """What a screen says: a table either way round, or a list. Names are taken as they stand there."""
    lines = shown.split("\n")
    if any("│" in line for line in lines):
        return read_table([line for line in lines if "│" in line], wanted)
    body = lines[1:next((k for k, line in enumerate(lines) if re.match(r"Judge|Everything", line)), len(lines))]
    found = {}
    for line in body:
        for name, value in re.findall(r"(\S+(?: \S+)?)\s{2,}(\S+(?: \S+)?)(?:\s{3,}|$)", line):
            found[name] = value.rstrip("*")
    return found


def read_table(lines: list[str], wanted: hands.Named) -> hands.Named:
    """The cells of a table whose heads name a place and whose cells a value, or the other way round."""
    rows = [[cell.strip() for cell in line.strip().strip("│").split("│")] for line in lines]
    heads, found, row = rows[0][1:], {}, ""
    for cells in rows[1:]:
        row = cells[0] or row
        for head, cell in zip(heads, cells[1:]):
            if cell in ("·", "–", ""):
                continue
            places = (f"{head} {row}", f"{row} {head}")
            bare = cell.rstrip("*")
            if bare in wanted:          # a grid of values holds the things
                found[bare] = next((place for place in places if place in wanted.values()), places[0])
            else:
                found[next((place for place in places if place in wanted), places[0])] = bare
    return found


# ---------------------------------------------------------------- rows

def guard(program: str) -> list[str]:
    """A key within 150 ms of a new question is dropped, and so is one that is held; a later one is taken."""
    from planners_desk.faces import keys
    import time as clock
    script: list[tuple[float, str]] = []
    class Scripted(keys.Keyboard):
        """Keys at given times."""
        def read(self) -> str:
            now[0], key = script.pop(0)
            return key
    now = [0.0]
    real, clock.monotonic = clock.monotonic, lambda: now[0]
    try:
        found = []
        held = [(0.03 * k, "y") for k in range(1, 40)]
        for steps, wanted in (([(0.0, "y"), (0.149, "y"), (0.151, "n"), (0.302, "q")], "q"), ([(0.15, "y")], "y"), ([*held, (1.4, "n")], "n"),
                              ([(0.01, keys.RESIZED)], keys.RESIZED)):
            script[:] = steps
            got = Scripted().read_after(0.0)
            if got != wanted:
                found.append(f"{steps[:4]} gives {got!r} and not {wanted!r}")
        return found
    finally:
        clock.monotonic = real


def guard_at_terminal(program: str) -> list[str]:
    """At a real terminal: keys that come with the question are dropped."""
    with room() as path:
        it = Terminal(hands.words(path, program, "--plan", "scopes"))
        try:
            it.wait_for("question 1")
            for _ in range(6):
                place = it.type("yyyyyyyy")
                if not it.told():
                    return [f"a wrong key isn't told: {it.seen[-400:]!r}"]
                if b"question 2" not in it.seen[place:]:
                    return [] if it.answer("y", 2) else ["a key after the guard isn't taken"]
                if not it.answer("b", 1):
                    return ["question 1 doesn't come again"]
            return ["a key that came with the question was taken six times"]
        finally:
            it.close()


def all_of_it(program: str) -> list[str]:
    """Yes isn't taken before all pages were shown; no is."""
    with room() as path:
        tmux = Tmux(hands.words(path, program, "--plan", "quacq"), 40, 12)
        try:
            tmux.wait_for("question 1.*")
            first = press(tmux, "y", "look at all|Done after 1")
            if "look at all" not in first:
                return [f"yes was taken on the first page:\n{first}"]
            press(tmux, "Space", "2/2")
            second = press(tmux, "y", "Done after 1")
            return [] if "Done after 1" in second else [f"yes isn't taken on the last page:\n{second}"]
        finally:
            tmux.close()


def in_pieces(program: str) -> list[str]:
    """Over a slow line a screen is looked at when all of it has come, and not before."""
    return one_session(program, "school", "quacq", 9, (200, 50), (sys.executable, SLOWLY))


def resized(program: str) -> list[str]:
    """Another size of the window: all cells are there again."""
    with room() as path:
        tmux = Tmux(hands.words(path, program, "--plan", "quacq"), 80, 24)
        try:
            tmux.wait_for("question 1")
            _, wanted = expected(program, path)
            for width, height in ((44, 14), (120, 30), (40, 12)):
                tmux.resize(width, height)
                got, shown = all_pages(tmux, wanted)
                if got != wanted:
                    return [f"after a change to {width}x{height}: {got}\n{shown}"]
            return []
        finally:
            tmux.close()


def interrupted(program: str, turns: int = KILLS) -> list[str]:
    """Ctrl-C at random moments: nothing acknowledged is lost, the terminal is as it was, no process is left."""
    def stop(it: Terminal, path: str) -> None:
        os.write(it.file, b"\x03")
    return killed_somehow(program, stop, lambda status: status == 6, turns=turns)


def interrupted_once(program: str) -> list[str]:
    """The same once."""
    return interrupted(program, 1)


def desk_killed(program: str) -> list[str]:
    """kill -9 of desk between a key and the next question."""
    def stop(it: Terminal, path: str) -> None:
        os.kill(it.pid, signal.SIGKILL)
    return killed_somehow(program, stop, lambda status: status == -signal.SIGKILL, put_back=False)


def acquire_killed(program: str) -> list[str]:
    """kill -9 of acquire between a key and the next question: desk says so, and ends."""
    def stop(it: Terminal, path: str) -> None:
        for pid in hands.processes(hands.journal(path)):
            if pid != it.pid:
                try:
                    os.kill(pid, signal.SIGKILL)
                except ProcessLookupError:
                    pass
        for _ in range(40):     # a key that comes within the guard is dropped
            time.sleep(0.2)
            if it.ended():
                break
            with contextlib.suppress(OSError):      # it may have ended since
                it.type("y")
    return killed_somehow(program, stop, lambda status: status == 1)


def killed_somehow(program: str, stop: Callable[[Terminal, str], None], right: Callable[[int | None], bool], put_back: bool = True,
                   turns: int = KILLS) -> list[str]:
    """Sessions that are ended at random moments behind a key."""
    draw = random.Random(7)
    with room() as path:
        acknowledged = 0
        for turn in range(turns):
            it = Terminal(hands.words(path, program, "--plan", "quacq"))
            try:
                before = it.modes()
                if not it.wait_for(f"question {acknowledged + 1}"):
                    return [f"turn {turn}: question {acknowledged + 1} doesn't come: {it.seen[-500:]!r}"]
                if not it.answer("n", acknowledged + 2):
                    return [f"turn {turn}: the first answer isn't taken: {it.seen[-500:]!r}"]
                acknowledged += 1
                time.sleep(0.2)
                it.type("n")
                time.sleep(draw.random() * 0.03)
                stop(it, path)
                status = it.wait()
                if not right(status):
                    return [f"turn {turn}: the status is {status}: {it.seen[-300:]!r}"]
                if put_back and (it.modes() != before or b"\x1b[?1049l" not in it.seen):
                    return [f"turn {turn}: the terminal isn't as it was"]
            finally:
                it.close()
            if not hands.gone(path):
                return [f"turn {turn}: a process is left: {hands.processes(path)}"]
            stand = hands.answers(program, path)
            if not acknowledged <= stand <= acknowledged + 2:
                return [f"turn {turn}: {stand} answers stand of {acknowledged} acknowledged"]
            acknowledged = stand
    return []


def dumb(program: str) -> list[str]:
    """A terminal that can't move its cursor gets lines, and one without UTF-8 no letters beyond ASCII but those of names."""
    found = []
    with room() as path:
        for env in ({"TERM": "dumb"}, {"TERM": ""}):
            it = Terminal(hands.words(path, program, "--plan", "scopes"), env=env)
            try:
                if not it.wait_for("Mon late: Ann") or b"\x1b" in it.seen:
                    found.append(f"{env}: {it.seen!r}")
                os.write(it.file, b"q\n")
                if it.wait() != 6:
                    found.append(f"{env}: ends with {it.status}")
            finally:
                it.close()
        it = Terminal(hands.words(path, program, "--plan", "scopes"), env={"LC_ALL": "C", "LANG": "C"})
        try:
            it.drawn("question 1")
            if max(it.seen) > 127 or b"+" not in it.seen:
                found.append(f"LC_ALL=C: {it.seen!r}")
        finally:
            it.close()
    return found


def uncoloured(program: str) -> list[str]:
    """NO_COLOR: no colour, though a question has marks; without it there is one."""
    found = []
    for env, wanted in (({"NO_COLOR": "1"}, False), ({"NO_COLOR": ""}, True)):
        with room() as path:
            it = Terminal(hands.words(path, program, "--plan", "scopes"), env=env)
            try:
                it.wait_for("question 1")
                it.answer("y", 2)
                it.drawn("question 2")
                if b"has changed" not in it.seen:
                    found.append(f"{env}: nothing is marked in {it.seen[-600:]!r}")
                if (RED.search(it.seen) is not None) != wanted:
                    found.append(f"{env}: {RED.findall(it.seen)} in {it.seen[-600:]!r}")
            finally:
                it.close()
    return found


def piped(program: str) -> list[str]:
    """Pipes: lines without escapes, an end of input that stops, a thousand wrong lines that change nothing."""
    found = []
    with room() as path:
        it = Piped(path, program, "--plan", "scopes")
        it.sheet()
        for turn in range(1000):
            it.say(("x", "yess", "", "j", "\x1b[A", "Y Y")[turn % 6])
        for _ in range(1000):
            it.sheet()
        it.say("yes")
        shown = it.sheet() or []
        if not shown or "question 2" not in shown[0]:
            found.append(f"after a thousand wrong lines: {shown}")
        if it.end() != 6 or "Stopped after 1 answer." not in it.lines[-1] or any("\x1b" in line for line in it.lines):
            found.append(f"end of input: {it.ran.returncode}, {it.lines[-3:]}, {it.errors}")
        if hands.answers(program, path) != 1:
            found.append(f"{hands.answers(program, path)} answers stand")
    with room() as path:
        ran = subprocess.run(hands.words(path, program, "--plan", "scopes"), input="y\nn\n", stdout=subprocess.PIPE, text=True, check=False,
                             env={**os.environ, "LC_ALL": "C"})
        if ran.returncode != 6 or hands.answers(program, path) != 2:
            found.append(f"LC_ALL=C over pipes: {ran.returncode}")
    return found


def broken_output(program: str) -> list[str]:
    """An output that nobody reads any more ends desk without a lost answer or a process."""
    with room() as path:
        ran = subprocess.Popen(hands.words(path, program, "--plan", "scopes"), stdin=subprocess.PIPE, stdout=subprocess.PIPE, stderr=subprocess.PIPE)
        assert ran.stdin and ran.stdout and ran.stderr
        ran.stdout.readline()
        ran.stdout.close()
        ran.stdin.write(b"y\n" * 3)
        ran.stdin.close()
        errors = ran.stderr.read().decode()
        status = ran.wait(hands.PATIENCE)
        found = [f"a traceback: {errors}"] if "Traceback" in errors else []
        return found + ([] if hands.gone(path) and status in (1, 2, 6) else [f"status {status}, left {hands.processes(path)}"])


def wrong_keys(program: str) -> list[str]:
    """A thousand wrong keys at a terminal: the question stays, and takes its answer then."""
    with room() as path:
        it = Terminal(hands.words(path, program, "--plan", "scopes"))
        try:
            it.wait_for("question 1")
            for turn in range(100):
                time.sleep(0.002)
                it.type("xj5!\x1b[Aö\x1b[C\t\r"[turn % 8:] * 2)
            if not it.told():
                return [f"a wrong key isn't told: {it.seen[-400:]!r}"]
            if hands.answers(program, path) != 0 or b"question 2" in it.seen:
                return ["a wrong key was taken for an answer"]
            return [] if it.answer("y", 2) else [f"no answer is taken any more: {it.seen[-400:]!r}"]
        finally:
            it.close()


def plain_at_terminal(program: str) -> list[str]:
    """--plain at a terminal: lines."""
    with room() as path:
        it = Terminal(hands.words(path, program, "--plan", "scopes", "--plain"))
        try:
            it.wait_for("Mon late: Ann")
            place = it.type("y\n")
            found = [] if it.wait_for("question 2", place) and b"\x1b" not in it.seen else [f"{it.seen!r}"]
            it.type("q\n")
            return found + ([] if it.wait() == 6 else [f"ends with {it.status}"])
        finally:
            it.close()


def two_desks(program: str) -> list[str]:
    """A second desk on one journal is kept off, and the first goes on."""
    with room() as path:
        first = Piped(path, program, "--plan", "scopes")
        first.sheet()
        second = subprocess.run(hands.words(path, program), input="y\n", capture_output=True, text=True, check=False)
        first.say("y")
        shown = first.sheet() or [""]
        first.end()
        if second.returncode != 1 or "another desk" not in second.stderr or "question" in second.stdout:
            return [f"the second: {second.returncode}, {second.stdout!r}, {second.stderr!r}"]
        return [] if "question 2" in shown[0] and hands.answers(program, path) == 1 else [f"the first: {shown}"]


def suspended(program: str) -> list[str]:
    """Ctrl-Z and on again: the screen comes back, and keys count."""
    with room() as path:
        line = "set -m; " + " ".join(hands.words(path, program, "--plan", "scopes")) + "; echo BETWEEN; sleep 0.3; fg"
        it = Terminal(["/bin/bash", "--norc", "-i", "-c", line], env={"PS1": "$ "})
        try:
            it.drawn("question 1")
            place = it.type("\x1a")
            if not it.wait_for("BETWEEN", place):
                return [f"Ctrl-Z doesn't stop it: {it.seen[-300:]!r}"]
            between = it.seen[place:it.seen.index(b"BETWEEN")]
            if b"\x1b[?1049l" not in between:
                return [f"the shell is left on desk's screen: {between!r}"]
            if not it.wait_for("question 1", place + len(between)):
                return [f"it isn't drawn again: {it.seen[place:]!r}"]
            return [] if it.answer("y", 2) else ["no key counts any more"]
        finally:
            it.close()


ROWS = (guard, guard_at_terminal, all_of_it, resized, interrupted, desk_killed, acquire_killed, dumb, uncoloured, piped, broken_output, wrong_keys,
        plain_at_terminal, two_desks, suspended, in_pieces)
IN_TMUX = (all_of_it, resized, in_pieces)


# ---------------------------------------------------------------- disks of its own

def on_disks(program: str) -> list[str]:
    """What needs a disk that is full or read-only, in a process that may mount one."""
    with tempfile.TemporaryDirectory() as folder:
        for way in (["unshare", "--mount"], ["unshare", "--mount", "--map-root-user"]):
            if subprocess.run([*way, "mount", "-t", "tmpfs", "none", folder], capture_output=True, check=False).returncode == 0:
                ran = subprocess.run([*way, sys.executable, os.path.realpath(__file__), program, folder], stdout=subprocess.PIPE, text=True,
                                     check=False)
                return list(json.loads(ran.stdout)) if ran.returncode == 0 else [f"the disks: status {ran.returncode}"]
    hands.passed_over("terminal", "no disk is full or read-only, since nothing may be mounted")
    return []


def disks(program: str, folder: str) -> list[str]:
    """A disk that gets full in the middle of a session, and one that is read-only."""
    subprocess.run(["mount", "-t", "tmpfs", "-o", "size=256k", "none", folder], check=True)
    path = os.path.join(folder, "ward.case")
    with open(path, "w", encoding="utf-8") as file:
        file.write(hands.WARD)
    found = full_disk(program, path, folder)
    subprocess.run(["mount", "-o", "remount,ro", folder], check=True)
    stand = hands.answers(program, path)
    ran = subprocess.run(hands.words(path, program), input="y\n", capture_output=True, text=True, check=False)
    if ran.returncode != 1 or "ead-only" not in ran.stderr + ran.stdout and "may not be" not in ran.stderr or "Traceback" in ran.stderr:
        found.append(f"a read-only journal: {ran.returncode}, {ran.stdout[-300:]!r}, {ran.stderr!r}")
    subprocess.run(["umount", folder], check=True)
    return found if stand != 0 else found + ["nothing stands after the full disk"]


def full_disk(program: str, path: str, folder: str) -> list[str]:
    """No room is left behind some answer: desk says so, and each acknowledged answer stands."""
    it = Piped(path, program, "--plan", "quacq")
    shown = it.sheet()
    acknowledged = 0
    with open(os.path.join(folder, "filler"), "wb", buffering=0) as file:
        try:
            while True:
                file.write(b"x" * 512)
        except OSError:
            pass
    while shown is not None and hands.is_question(shown):
        it.say("y" if hands.ward(hands.plain_values(shown)) else "n")
        shown = it.sheet()
        acknowledged += shown is not None
    status = it.end()
    os.unlink(os.path.join(folder, "filler"))
    stand = hands.answers(program, path)
    said = "\n".join(it.lines[-3:]) + it.errors
    found = [] if acknowledged <= stand <= acknowledged + 1 else [f"full disk: {stand} answers stand of {acknowledged}"]
    if status != 1 or "disk is full" not in said or "Traceback" in said:
        found.append(f"full disk: status {status}, {said!r}")
    return found


if __name__ == "__main__":
    print(json.dumps(disks(sys.argv[1], sys.argv[2])))
