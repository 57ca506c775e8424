"""What desk writes harms no file: `report` and `carry` are killed, and find no room, at each step
and at any moment.

A session is there, and its case has changed. Whatever breaks `desk carry` off, the old session
stands under its own name or the new one whole; what stands can be gone on with or carried over
again. `desk report` leaves each file but pages and certificates as it was. So many times something
is killed at any moment: DESK_KILLS, else 24.
"""

from __future__ import annotations

import json
import os
import random
import re
import shutil
import signal
import stat
import subprocess
import sys
import tempfile
import time
from collections.abc import Callable, Iterator, Sequence
from contextlib import contextmanager

import hands  # desk's folder is on the path now
from planners_desk.case import casefile
from planners_desk.report import page
from planners_desk.sitting import lock
from planners_desk.sitting import session
from planners_desk.program import talk
from hands import DESK, journal
from planners_desk.case.model import Fault, Way

KILLS = int(os.environ.get("DESK_KILLS", "24"))
OLD = """things: a b c d
values: 1 2 3
ask: a - b, b - c, c - d
words: different, before
always: before on c - d
plan: scopes
"""
NEW = OLD.replace("always: before on c - d\n", "").replace(
    "words: different, before", "words: different, before, next to"
)
# runs desk, and at one of its calls to the system kills itself or finds the disk full; how many
# calls there were is written last
RUNNER = """
import errno, os, runpy, signal, sys
desk, at, way, *words = sys.argv[1:]
sys.path.insert(0, desk)
sys.argv = ["desk", *words]
count = 0
def stopped_at(name):
    real = getattr(os, name)
    def call(*some, **more):
        global count
        count += 1
        if count == int(at):
            if way == "killed":
                os.kill(os.getpid(), signal.SIGKILL)
            raise OSError(errno.ENOSPC, os.strerror(errno.ENOSPC))
        return real(*some, **more)
    setattr(os, name, call)
more = ("unlink", "rmdir") if way == "killed" else ()
for name in ("open", "mkdir", "fsync", "rename", "replace", *more):
    stopped_at(name)
print("ready", flush=True)
try:
    runpy.run_path(os.path.join(desk, "desk"), run_name="__main__")
finally:
    print("calls", count, flush=True)
"""
PLANTED = [
    # a page replaces any file
    ("case/files.py", "    if not is_one(head):", "    if False:"),
    # a new file takes its place before it is on the disk whole
    (
        "case/files.py",
        "                waiting.append((new, place))\n                _fill(handle, content, place)",
        "                os.replace(new, place)\n                waiting.append((place, place))\n                _fill(handle, content, place)",
    ),
    # the umask isn't kept
    (
        "case/files.py",
        "os.O_WRONLY | os.O_CREAT | os.O_EXCL, 0o666)",
        "os.O_WRONLY | os.O_CREAT | os.O_EXCL, 0o600)",
    ),
    # a page that others may not read may be read once it is written again
    ("case/files.py", "                os.fchmod(handle, mode)", "                pass"),
    # what a broken write has begun stays behind
    (
        "case/files.py",
        "            with contextlib.suppress(OSError):\n                os.unlink(new)",
        "            pass",
    ),
    # the new session is put in its place piece by piece, with nothing that says so
    (
        "sitting/handover.py",
        "        os.rename(folder, _folder(journal, \"carried\"))",
        "        os.mkdir(_folder(journal, \"carried\"))\n"
        "        for name in os.listdir(folder):\n            os.replace(os.path.join(folder, name), os.path.join(_folder(journal, \"carried\"), name))\n"
        "        os.rmdir(folder)",
    ),
    # nobody finishes what was broken off
    ("sitting/lock.py", "            handover.finished(journal)\n", ""),
    # the old session isn't kept
    ("commands/carry.py", "        if to_itself:\n            put_aside(journal, aside)\n", ""),
    # what was made in vain stays behind
    ("commands/carry.py", "            handover.given_up(journal)\n", "            pass\n"),
    # answers that say nothing any more aren't counted
    ("commands/carry.py", "    if len(there) < len(before):", "    if False:"),
    # the second fault is told, not the first
    (
        "sitting/lock.py",
        "            with contextlib.suppress(OSError):\n                return files.only_file(",
        "            if True:\n                return files.only_file(",
    ),
]
Files = dict[str, bytes]


def run(program: str) -> list[str]:
    """The faults that were found."""
    return looked(program, ROWS)


def quick(program: str) -> list[str]:
    """The same in little."""
    return looked(program, (nothing_else, a_page_again, counts, first_fault, carried_in_steps))


def looked(program: str, rows: Sequence[Callable[[str], list[str]]]) -> list[str]:
    """The faults of some rows."""
    faults = [f"kept: {row.__name__}: {fault}" for row in rows for fault in row(program)]
    print(
        f"kept: {len(rows)} rows of files that stay; "
        f"{KILLS if any_moment in rows else 0} times something was killed at any moment"
    )
    return faults


# ---------------------------------------------------------------- a session whose case has changed


@contextmanager
def changed(program: str) -> Iterator[str]:
    """A case with a session and a page, which then has other words and a line less; its path."""
    with hands.room("w", OLD) as path:
        hands.answered(path, program, lambda q: len(set(q.values())) == len(q))
        hands.report(program, path, target_of(path))
        with open(path, "w", encoding="utf-8") as file:
            file.write(NEW)
        yield path


def target_of(path: str) -> str:
    """The page of a case."""
    return path.removesuffix(".case") + ".html"


def files_of(path: str) -> Files:
    """All files beside a case, and in folders there, by their names; a pipe has no content."""
    top, found = os.path.dirname(path), {}
    for folder, _, names in os.walk(top):
        for one in (os.path.join(folder, name) for name in names):
            found[os.path.relpath(one, top)] = b""
            if os.path.isfile(one):
                with open(one, "rb") as file:
                    found[os.path.relpath(one, top)] = file.read()
    return found


def put_back(path: str, files: Files) -> None:
    """Makes the folder of a case as it was."""
    top = os.path.dirname(path)
    for name in os.listdir(top):
        one = os.path.join(top, name)
        shutil.rmtree(one) if os.path.isdir(one) else os.unlink(one)
    for name, content in files.items():
        with open(os.path.join(top, name), "wb") as file:
            file.write(content)


def words_for(program: str, what: str, path: str) -> list[str]:
    """The words of desk's that carry over or write the page."""
    return [what, path, *([target_of(path)] if what == "report" else []), "--acquire", program]


def started(
    program: str, what: str, path: str, at: int = 0, way: str = ""
) -> subprocess.Popen[str]:
    """Starts desk such that it is killed, or finds the disk full, at one of its calls to the
    system. It finds no solver, which has files of its own."""
    return subprocess.Popen(
        [sys.executable, "-c", RUNNER, DESK, str(at), way, *words_for(program, what, path)],
        text=True,
        env={**os.environ, "PATH": ""},
        stdin=subprocess.DEVNULL,
        stdout=subprocess.PIPE,
        stderr=subprocess.PIPE,
    )


def calls(program: str, what: str, path: str, way: str) -> int:
    """How many calls to the system there are where nothing breaks it off."""
    said = started(program, what, path, 0, way).communicate()[0]
    return int(said.split()[-1])


# ---------------------------------------------------------------- what has to stand


def after_carry(program: str, path: str, before: Files, wanted: list[str]) -> list[str]:
    """The old session stands, bit by bit, or the new one whole; the old one can be carried over
    again."""
    found, now = [], files_of(path)
    if now["w.case"] != before["w.case"] or now.get("w.html") != before["w.html"]:
        found.append("the case or the page is another")
    if "w.journal" not in now or "w.session" not in now:
        return [*found, f"there is {sorted(now)}"]
    stands = told(program, path)
    now = files_of(path)
    if stands is None:
        if (now["w.journal"], now["w.session"]) != (before["w.journal"], before["w.session"]):
            found.append("the old session stands, and isn't as it was")
        again = subprocess.run(
            [sys.executable, os.path.join(DESK, "desk"), *words_for(program, "carry", path)],
            capture_output=True,
            text=True,
            check=False,
        )
        if again.returncode:
            return [*found, f"it can't be carried over again: {again.stderr}"]
        stands, now = told(program, path), files_of(path)
    if stands != wanted:
        found.append(f"{stands} stands and not {wanted}")
    kept = [name for name in now if name.endswith(".journal") and name != "w.journal"]
    if not any(
        now[name] == before["w.journal"] and now.get(name[:-8] + ".session") == before["w.session"]
        for name in kept
    ):
        found.append(f"the old session isn't kept: {sorted(now)}")
    return found + [f"{name} is left" for name in now if name.startswith(".w.")]


def told(program: str, path: str) -> list[str] | None:
    """The answers of a session of the changed case; None where the old one stands.

    Where desk was killed, its program may hold the lock for a moment.
    """
    patience = time.monotonic() + hands.PATIENCE
    while True:
        try:
            with session.Session.opened(
                casefile.read(path), talk.Program(program), make=False
            ) as one:
                return [
                    f"{answer.yes} {sorted(answer.question.values.items())}"
                    for answer in one.answers
                ]
        except Fault as fault:
            if Way.CARRY in fault.ways:
                return None
            if "another desk works on it" not in str(fault) or time.monotonic() > patience:
                raise
            time.sleep(0.05)


def after_report(program: str, path: str, before: Files) -> list[str]:
    """The session is as it was; the page and the certificate are the old ones or new ones,
    whole."""
    now = files_of(path)
    found = [
        f"{name} isn't as it was"
        for name in ("w.case", "w.journal", "w.session")
        if now.get(name) != before[name]
    ]
    for name, is_one, end in (
        ("w.html", page.is_page, b"</html>\n"),
        ("w.certificate", page.is_certificate, b"\n"),
    ):
        if name not in now or not is_one(now[name]) or not now[name].endswith(end):
            found.append(f"{name} isn't whole")
    return found


# ---------------------------------------------------------------- rows: broken off


def carried_in_steps(program: str) -> list[str]:
    """`carry` is killed at each call to the system, and each of them finds the disk full."""
    with changed(program) as path:
        return in_steps(program, "carry", path)


def written_in_steps(program: str) -> list[str]:
    """`report` likewise."""
    with changed(program) as path:
        with open(path, "w", encoding="utf-8") as file:
            file.write(OLD)
        return in_steps(program, "report", path)


def in_steps(program: str, what: str, path: str) -> list[str]:
    """Broken off at each call, one after the other."""
    found, before = [], files_of(path)
    for way in ("killed", "full"):
        put_back(path, before)
        most = calls(program, what, path, way)
        wanted = told(program, path) if what == "carry" else None
        for at in range(1, most + 1):
            put_back(path, before)
            found += [
                f"{what} {way} at {at} of {most}: {fault}"
                for fault in one_step(program, what, path, at, way, before, wanted)
            ]
    return found


def one_step(
    program: str, what: str, path: str, at: int, way: str, before: Files, wanted: list[str] | None
) -> list[str]:
    """Broken off at one call."""
    ran = started(program, what, path, at, way)
    said, errors = ran.communicate()
    if way == "killed":
        found = [] if ran.returncode == -signal.SIGKILL else [f"it ended with {ran.returncode}"]
    else:
        found = told_in_a_line(ran.returncode, errors)
        found += [
            f"{name} is left behind"
            for name in files_of(path)
            if name.startswith(".desk-") or name.startswith(".w.making")
        ]
        if ran.returncode and "Nothing was changed" in errors and files_of(path) != before:
            found.append(f"it says {errors!r}, and there is {sorted(files_of(path))}")
    return found + (
        after_report(program, path, before)
        if wanted is None
        else after_carry(program, path, before, wanted)
    )


def told_in_a_line(status: int, errors: str) -> list[str]:
    """What is told of a full disk; nothing where it went on without the call, as without a
    folder that is put on the disk."""
    if status == 0:
        return []
    if status != 1 or len(errors.splitlines()) != 1 or "No space left on device" not in errors:
        return [f"status {status}, and it says {errors!r}"]
    return []


def any_moment(program: str) -> list[str]:
    """Killed at any moment."""
    found, draw = [], random.Random(KILLS)
    with changed(program) as path:
        before = files_of(path)
        begin = time.monotonic()
        with started(program, "carry", path) as ran:
            assert ran.stdout is not None
            ran.stdout.readline()
            ready = time.monotonic()
            ran.communicate()
        long, wanted = time.monotonic() - ready, told(program, path)
        if wanted is None:
            return [f"nothing was carried over in {ready - begin:.1f} and {long:.1f} s"]
        for count in range(KILLS):
            what = "carry" if count % 3 else "report"
            put_back(path, {**before, "w.case": (NEW if count % 3 else OLD).encode()})
            begun = files_of(path)
            with started(program, what, path) as ran:
                assert ran.stdout is not None
                ran.stdout.readline()
                time.sleep(draw.random() * long)
                ran.kill()
            mine = (
                after_carry(program, path, begun, wanted)
                if what == "carry"
                else after_report(program, path, begun)
            )
            found += [f"{what}, {count}: {fault}" for fault in mine]
    return found


def no_room(program: str) -> list[str]:
    """A disk on which so much room is left, from none to enough; where one may be mounted."""
    with tempfile.TemporaryDirectory() as folder:
        for way in (["unshare", "--mount"], ["unshare", "--mount", "--map-root-user"]):
            if (
                subprocess.run(
                    [*way, "mount", "-t", "tmpfs", "none", folder], capture_output=True, check=False
                ).returncode
                == 0
            ):
                ran = subprocess.run(
                    [*way, sys.executable, os.path.realpath(__file__), program, folder],
                    stdout=subprocess.PIPE,
                    text=True,
                    check=False,
                )
                return (
                    list(json.loads(ran.stdout))
                    if ran.returncode == 0
                    else [f"status {ran.returncode}"]
                )
    print("kept: nothing may be mounted here, so no disk was full but by what its calls said")
    return []


def on_disk(program: str, folder: str) -> list[str]:
    """Carries over on a disk with 0, 4, 8 .. KiB left, until it goes."""
    subprocess.run(["mount", "-t", "tmpfs", "-o", "size=1m", "none", folder], check=True)
    found = []
    with changed(program) as there:
        before = files_of(there)
        subprocess.run(
            [sys.executable, os.path.join(DESK, "desk"), *words_for(program, "carry", there)],
            capture_output=True,
            check=True,
        )
        wanted = told(program, there)
    path = os.path.join(folder, "w.case")
    for room in range(0, 64, 4):
        put_back(path, before)
        filled(os.path.join(folder, "filler"), room * 1024)
        ran = subprocess.run(
            [sys.executable, os.path.join(DESK, "desk"), *words_for(program, "carry", path)],
            capture_output=True,
            text=True,
            check=False,
        )
        os.unlink(os.path.join(folder, "filler"))
        found += [
            f"{room} KiB: {fault}" for fault in after_carry(program, path, before, wanted or [])
        ]
        if ran.returncode == 0:
            break
        if ran.returncode != 1 or len(ran.stderr.splitlines()) != 1:
            found.append(f"{room} KiB: status {ran.returncode}, {ran.stderr!r}")
    else:
        found.append("60 KiB aren't enough")
    subprocess.run(["umount", folder], check=True)
    return found if room else [*found, "no room at all was enough"]


def filled(path: str, left: int) -> None:
    """Fills a disk until so many bytes are left."""
    with open(path, "wb", buffering=0) as file:
        free = os.fstatvfs(file.fileno())
        file.write(b"x" * max(0, free.f_bavail * free.f_frsize - left))


# ---------------------------------------------------------------- rows: what report leaves alone


OTHERS = {
    "notes.html": b"<!DOCTYPE html>\n<html><head><title>mine</title>",
    "notes.txt": b"mine",
    "empty.html": b"",
    "taken.certificate": b"mine",
}
REFUSED = (
    "w.case ./w.case w.journal w.session new.certificate new.journal notes.html notes.txt empty.html "
    "taken.html folder.html link.html other.html pipe.html"
)


def nothing_else(program: str) -> list[str]:
    """`report` refuses each file that isn't a page, before anything is opened; its certificate
    likewise."""
    found = []
    with hands.room("w", OLD) as path:
        hands.answered(path, program, lambda q: True)
        others_beside(path)
        before = files_of(path)
        for name in REFUSED.split():
            ran = hands.report(program, path, os.path.join(os.path.dirname(path), name))
            told = ran.stderr.count("\n") == 1 and name.split("/")[-1].split(".")[0] in ran.stderr
            if ran.returncode != 1 or ran.stdout or not told:
                found.append(f"{name}: status {ran.returncode}, {ran.stdout!r}, {ran.stderr!r}")
            if "another name" not in ran.stderr and "name it" not in ran.stderr:
                found.append(f"{name}: what to do isn't told: {ran.stderr!r}")
            if files_of(path) != before:
                return [*found, f"{name}: something was changed"]
    return found


def others_beside(path: str) -> None:
    """Files beside a case that are no pages, a folder, a pipe and two other names of its journal."""
    top = os.path.dirname(path)
    for name, content in OTHERS.items():
        with open(os.path.join(top, name), "wb") as file:
            file.write(content)
    os.mkdir(os.path.join(top, "folder.html"))
    os.mkfifo(os.path.join(top, "pipe.html"))
    os.symlink("w.journal", os.path.join(top, "link.html"))
    os.link(journal(path), os.path.join(top, "other.html"))


def a_page_again(program: str) -> list[str]:
    """A page is written over one, also over one that desk wrote before pages had their mark, and
    others may read it as before."""
    found = []
    with hands.room("w", OLD) as path:
        hands.answered(path, program, lambda q: True)
        target, umask = target_of(path), os.umask(0o027)
        try:
            hands.report(program, path, target)
        finally:
            os.umask(umask)
        if {
            stat.S_IMODE(os.stat(one).st_mode) for one in (target, target[:-5] + ".certificate")
        } != {0o640}:
            found.append(f"under the umask 027 it has mode {os.stat(target).st_mode:o}")
        with open(target, encoding="utf-8") as file:
            first = file.read()
        head = (
            '<meta charset="utf-8"><meta name="viewport" '
            'content="width=device-width, initial-scale=1"><title>'
        )
        old = re.sub('<meta charset="utf-8">.*?<title>', head, first, count=1, flags=re.DOTALL)
        with open(target, "w", encoding="utf-8") as file:
            file.write(old)
        os.chmod(target, 0o600)
        again = hands.report(program, path, target)
        with open(target, encoding="utf-8") as file:
            second = file.read()
        if again.returncode or second != first or old == first:
            found.append(f"an old page: status {again.returncode}, {again.stderr}")
        if stat.S_IMODE(os.stat(target).st_mode) != 0o600:
            found.append("a page that was one person's may be read by others")
    return found


# ---------------------------------------------------------------- rows: what is told


def counts(program: str) -> list[str]:
    """`carry` tells how many answers it carries over, and how many say nothing any more."""
    with hands.room("w", OLD) as path:
        hands.answered(path, program, lambda q: len(set(q.values())) == len(q))
        own = [
            line.split()[1:]
            for line in hands.acquire(program, path, "show")
            if line.startswith("q")
        ]
        own = [
            some
            for some in own
            if some[-1] == "yes" or not {"c", "d"} <= {piece[0] for piece in some[:-1]}
        ]
        with open(path, "w", encoding="utf-8") as file:
            file.write(NEW.replace("values: 1 2 3", "values: 2 3"))
        out = [some for some in own if "no" in some and any(piece.endswith("=1") for piece in some)]
        ran = subprocess.run(
            [sys.executable, os.path.join(DESK, "desk"), *words_for(program, "carry", path)],
            capture_output=True,
            text=True,
            check=False,
        )
        wanted = (
            f"{len(own) - len(out)} answers were carried over. "
            f"{len(out)} answers were left out, about things or values that"
        )
        return (
            []
            if len(out) > 1 and wanted in ran.stdout
            else [f"of {own} it tells {ran.stdout!r}{ran.stderr!r}, and not {wanted!r}"]
        )


def first_fault(program: str) -> list[str]:
    """Where nothing may be written beside a case, that is what is told, and not that there is no
    file."""
    with tempfile.TemporaryDirectory() as folder:
        os.chmod(folder, 0o555)
        read, write = os.pipe()
        child = os.fork()
        if child == 0:
            try:
                if os.geteuid() == 0:
                    os.setuid(65534)
                lock.locked(os.path.join(folder, "w.journal"))
            except BaseException as error:
                os.write(write, repr(error).encode())
            os._exit(0)
        os.close(write)
        os.waitpid(child, 0)
        with os.fdopen(read) as file:
            said = file.read()
        return [] if "Fault" in said and "Permission denied" in said else [f"it says {said!r}"]


ROWS = (
    nothing_else,
    a_page_again,
    counts,
    first_fault,
    no_room,
    carried_in_steps,
    written_in_steps,
    any_moment,
)

if __name__ == "__main__":
    print(json.dumps(on_disk(sys.argv[1], sys.argv[2])))
