#!/usr/bin/env python3
"""Each call on a journal's file fails, or is the last one that comes; a disk that is full; places that can't be written.

usage: checks/faults.py PROGRAM

`new`, `run` with two answers and `show` are run over a file. strace tells which system calls they make on that file and its
folder. Then each command is run again and again from the same file, and each time one of these calls

- is the last one: the program is killed (SIGKILL) before it is made; so it is with each write to standard output;
- fails: writes and syncs with EIO and with ENOSPC, all others with EIO. Then the status is 10.

A folder that can't be synced since the system doesn't offer it, or since it may not be read, is no fault: the journal is made.

Each time what was printed is what comes before that call. Behind `run` the file has the answers from before and the first so
many of this run: each one after which a further line was printed, and at most one more. Behind `new` it has no session, or the
new one without answers, or what stood there if that is not to be written over; behind `show` it is as before. `show` and `run`
tell so and change nothing, and the session then ends as one that nothing befell. Where nothing fails, writes, syncs and prints
come in the order of docs/formats.md: no kill would show that a sync is left out.

The full disk is one of 64 KB in memory. No page of it is left, and the journal's last page has room for any number of bytes from
none to two answers. The read-only one is in memory too. Then there are places that are no files. checks/journals.py has others:
a folder, a pipe, files and folders that may not be read or written, and a limit on the length of files; checks/kills.py kills
the program at random moments.

What can't be done here (strace isn't there, or nothing may be mounted) is named in a line and passed over.
"""

import contextlib
import itertools
import os
import re
import shutil
import signal
import stat
import subprocess
import sys
import tempfile

sys.dont_write_bytecode = True
from kills import MAGIC, PLAN_BYTES, Session, check, content_of, look, make, record

# What the system calls do that change a file. All others count as looks.
WRITES = {"write", "writev", "pwrite64", "pwritev", "pwritev2", "ftruncate"}
SYNCS = {"fsync", "fdatasync"}
UNTOLD = {"execve", "close"}
# How a record is added.
ADDED = ["write", "sync", "write", "sync"]
PAGE = 4096
MOUNTED = "ACQUIRE_FAULTS_MOUNTED"


class Call:
    """A system call on the journal, its folder or standard output: its number among those of its name, what it does, and how
    many lines were printed before it."""

    def __init__(self, name, number, kind, printed):
        self.name = name
        self.number = number
        self.kind = kind
        self.printed = printed

    def __str__(self):
        return f"{self.name} number {self.number}"

    def faults(self):
        """What befalls it: a signal or an error, as strace names it."""
        yield "signal=KILL"
        if self.kind != "print":
            yield "error=EIO"
        if self.kind in ("write", "sync", "sync folder"):
            yield "error=ENOSPC"


class Room:
    """A program, a folder with a journal alone in it, and how many cases there were and failed."""

    def __init__(self, program, folder):
        self.program = program
        self.log = os.path.join(folder, "calls")
        self.cases = self.failed = 0
        own = os.path.join(folder, "own")
        os.mkdir(own)
        self.use(own)

    def use(self, folder):
        """Takes another folder for the journal."""
        self.folder = folder
        self.journal = os.path.join(folder, "journal")

    def put(self, content):
        """Makes the journal anew. None is no file."""
        for name in os.listdir(self.folder):
            os.remove(os.path.join(self.folder, name))
        if content is not None:
            with open(self.journal, "wb") as file:
                file.write(content)

    def case(self, name, test, *given):
        self.cases += 1
        try:
            test(*given)
        except Exception as fault:
            self.failed += 1
            print(f"faults: {name}: {fault!r}")

    def trace(self, words, given, *more):
        """Runs a command under strace. What it prints, its status, and the lines of strace."""
        tracer = ["strace", "-f", "-qq", "-y", "-s", "10000", "-o", self.log, *more]
        done = subprocess.run(
            [*tracer, self.program, self.journal, *words], input=given, stdout=subprocess.PIPE, stderr=subprocess.DEVNULL, timeout=300,
            check=False,
        )
        with open(self.log, errors="replace") as file:
            return done.stdout.decode(), done.returncode, file.read().splitlines()


def can_run(words):
    """Whether another program is there and does its work."""
    return shutil.which(words[0]) and subprocess.run(words, stderr=subprocess.DEVNULL, check=False).returncode == 0


def calls_of(room, words, given):
    """The calls that a command makes on the journal and on standard output where nothing fails."""
    _, status, lines = room.trace(words, given)
    assert status >= 0, f"strace ends with status {status}"
    counts, printed = {}, 0
    for line in lines:
        found = re.match(r"\d+ +(\w+)\((\d*)", line)
        if not found:
            continue
        name, first = found.groups()
        counts[name] = counts.get(name, 0) + 1
        kind = kind_of(room, line, name, first)
        if kind:
            yield Call(name, counts[name], kind, printed)
        printed += line.count("\\n") if kind == "print" else 0


def kind_of(room, line, name, first):
    """What a call does, by its line of strace, its name and its first argument. None where that concerns nothing here."""
    if name in WRITES and first == "1":
        return "print"
    if room.folder not in line or name in UNTOLD:
        return None
    if name in SYNCS:
        return "sync" if f"{first}<{room.journal}>" in line else "sync folder"
    return "write" if name in WRITES else "look"


def run_with_fault(room, words, given, call, fault):
    """A command in which one call goes wrong. What it printed."""
    text, status, lines = room.trace(words, given, "-e", f"inject={call.name}:{fault}:when={call.number}")
    if fault.startswith("signal"):
        assert status == -signal.SIGKILL, f"it ends with status {status} and isn't killed"
    else:
        assert any("(INJECTED)" in line and room.folder in line for line in lines), "the call wasn't made to fail"
        assert status == 10, f"it ends with status {status}"
    assert text.count("\n") == call.printed, f"it prints {text!r}, and {call.printed} lines come before the call"
    assert set(os.listdir(room.folder)) <= {"journal"}, "another file is there"
    return text


def fault_in_new(room, session, old, is_kept, call, fault):
    room.put(old)
    run_with_fault(room, ["new", "--plan", session.plan], session.vocabulary, call, fault)
    if is_kept:
        assert content_of(room.journal) == old, "new has changed a file that it doesn't write over"
        return
    records, _ = session.records_in(content_of(room.journal))
    assert records <= 1, "a new journal has answers"
    if records == 0:
        assert look(room.program, room.journal, "show") == ("refused journal no session\n", 3), "half a session is there"
        make(room.program, session, room.journal)
    check(room.program, session, room.journal, 0)
    go_on(room, session, 0)


def fault_in_run(room, session, old, before, given, call, fault):
    room.put(old)
    text = run_with_fault(room, ["run"], session.input_from(before, given), call, fault)
    assert session.text_from(before).startswith(text), f"it prints {text!r}"
    acknowledged = min(before + max(0, text.count("\n") - 1), len(session.answers))
    records, _ = session.records_in(content_of(room.journal))
    said = f"{given} answers were given, {acknowledged} acknowledged, and {records - 1} are there"
    assert acknowledged <= records - 1 <= min(given, acknowledged + 1), said
    check(room.program, session, room.journal, records - 1)
    go_on(room, session, records - 1)


def fault_in_show(room, old, call, fault):
    room.put(old)
    run_with_fault(room, ["show"], b"", call, fault)
    assert content_of(room.journal) == old, "show has changed the file"


def go_on(room, session, count):
    """The rest of the answers, and the end."""
    ended = look(room.program, room.journal, "run", given=session.input_from(count))
    assert ended == (session.text_from(count), session.status), f"it ends with {ended}"


def journal_of(room, session, count):
    """The bytes of a journal with so many answers."""
    room.put(None)
    make(room.program, session, room.journal)
    look(room.program, room.journal, "run", given=session.input_from(0, count))
    return content_of(room.journal)


def in_order(calls, order):
    done = [call.kind for call in calls if call.kind != "look"]
    assert done == order, f"its calls are {done}"


def each_fault(room, name, words, given, old, order, test, *more):
    """All faults of all calls of a command that begins with a file, and whether it writes, syncs and prints in this order."""
    room.put(old)
    calls = list(calls_of(room, words, given))
    room.case(f"{name}, the order", in_order, calls, order)
    for call in calls:
        for fault in call.faults():
            room.case(f"{name}, {call}, {fault}", test, room, *more, call, fault)


def faults_in_new(room, session):
    some = journal_of(room, session, 1)
    begun = ["write", "sync folder", "sync", *ADDED, "print"]
    for name, old, order in [
        ("no file", None, begun),
        ("9 bytes", b"x" * 9, ["sync", *begun]),
        ("a closed first gate", MAGIC + b"\0" + some[9:], ["sync", *ADDED, "print"]),
        ("a session", some, ["sync", "print"]),
        ("no journal", b"x" * 100, ["sync", "print"]),
    ]:
        words, more = ["new", "--plan", session.plan], (session, old, "write" not in order)
        each_fault(room, f"new over {name}", words, session.vocabulary, old, order, fault_in_new, *more)


def folder_is_not_synced(room, session, call, error):
    room.put(None)
    words = ["new", "--plan", session.plan]
    text, status, lines = room.trace(words, session.vocabulary, "-e", f"inject={call.name}:error={error}:when={call.number}")
    assert any("(INJECTED)" in line and room.folder in line for line in lines), "the call wasn't made to fail"
    assert status == 0 and text.startswith("created "), f"it ends with status {status} and prints {text!r}"
    check(room.program, session, room.journal, 0)


def folders_without_sync(room, session):
    room.put(None)
    calls = list(calls_of(room, ["new", "--plan", session.plan], session.vocabulary))
    at = next(number for number, call in enumerate(calls) if call.kind == "sync folder")
    # The folder is opened right before.
    for call, errors in [(calls[at], ["EINVAL", "EOPNOTSUPP", "ENOSYS"]), (calls[at - 1], ["EACCES", "EPERM"])]:
        for error in errors:
            room.case(f"the folder, {call}, {error}", folder_is_not_synced, room, session, call, error)


def faults_in_run(room, session, before):
    old = journal_of(room, session, before)
    given, more = session.input_from(before, before + 2), (session, old, before, before + 2)
    name, order = f"{session.plan}, run behind {before} answers", ["sync", "print", *ADDED, "print", *ADDED, "print"]
    if before + 2 < len(session.answers):
        # It is suspended behind the next question.
        order.append("print")
    each_fault(room, name, ["run"], given, old, order, fault_in_run, *more)


def faults_in_show(room, session):
    old = journal_of(room, session, 1)
    each_fault(room, "show", ["show"], b"", old, ["sync", "print"], fault_in_show, old)


def calls_that_fail(room, drawn):
    faults_in_new(room, drawn[0])
    folders_without_sync(room, drawn[0])
    faults_in_show(room, drawn[0])
    faults_in_run(room, drawn[0], 0)
    for session in drawn:
        faults_in_run(room, session, len(session.answers) - 2)


def padded(session, length):
    """Makes the vocabulary longer, so that the session's new journal has so many bytes."""
    around = len(MAGIC) + len(b"\1") + len(record(b"S", b"\2")) + len(b"\0")
    session.vocabulary = session.vocabulary.rstrip().ljust(length - around)
    session.records[0] = record(b"S", bytes([PLAN_BYTES[session.plan]]) + session.vocabulary)


@contextlib.contextmanager
def disk(room, size):
    """A disk of its own in memory, with nothing on it but the journal."""
    before = room.folder
    with tempfile.TemporaryDirectory() as folder:
        subprocess.run(["mount", "-t", "tmpfs", "-o", f"size={size}", "none", folder], check=True)
        try:
            room.use(folder)
            yield
        finally:
            room.use(before)
            subprocess.run(["umount", folder], check=True)


def take_room(room, pages_left=0):
    """Takes all room of a disk but for so many pages."""
    rest = os.path.join(room.folder, "rest")
    with open(rest, "wb", buffering=0) as file:
        with contextlib.suppress(OSError):
            while True:
                file.write(bytes(PAGE))
        file.truncate(os.path.getsize(rest) - pages_left * PAGE)


def give_room(room):
    os.remove(os.path.join(room.folder, "rest"))


def answers_without_room(room, session, free):
    """The last page of the journal has so many bytes behind the closed gate, and no page is left."""
    padded(session, 2 * PAGE - free)
    room.put(journal_of(room, session, 0))
    take_room(room)
    taken = [len(one) + 1 for one in session.records[1:3]]
    count = sum(upto <= free for upto in itertools.accumulate(taken))
    ending = ["suspended 2"] if count == 2 else []
    wanted = "".join(f"{line}\n" for line in session.questions[: count + 1] + ending), 6 if count == 2 else 10
    ran = look(room.program, room.journal, "run", given=session.input_from(0, 2))
    assert ran == wanted, f"run prints {ran} for {wanted}"
    check(room.program, session, room.journal, count)
    give_room(room)
    go_on(room, session, count)


def new_without_room(room, session, pages):
    """The new journal takes three pages, and there are fewer."""
    padded(session, 2 * PAGE + 1)
    room.put(None)
    take_room(room, pages)
    made = look(room.program, room.journal, "new", "--plan", session.plan, given=session.vocabulary)
    assert made == ("", 10), f"new ends with {made}"
    assert look(room.program, room.journal, "show") == ("refused journal no session\n", 3), "half a session is there"
    give_room(room)
    make(room.program, session, room.journal)
    go_on(room, session, 0)


def full_disk(room, drawn):
    session = drawn[0]
    with disk(room, "64k"):
        for free in range(sum(len(one) + 1 for one in session.records[1:3]) + 1):
            room.case(f"a full disk, {free} bytes are left", answers_without_room, room, session, free)
        for pages in range(3):
            room.case(f"a full disk, new with {pages} pages left", new_without_room, room, session, pages)


def nothing_is_done(room, place, words, given):
    """A command ends with status 10 and no line, and the folder is as it was."""
    before = sorted(os.listdir(room.folder)), content_of(room.journal)
    got = look(room.program, place, *words, given=given)
    assert got == ("", 10), f"it ends with {got}"
    assert before == (sorted(os.listdir(room.folder)), content_of(room.journal)), "something has changed"


def at_a_place(room, session, name, place):
    for words, given in [(["new"], session.vocabulary), (["run"], b"yes\n"), (["show"], b"")]:
        room.case(f"{name}, {words[0]}", nothing_is_done, room, place, words, given)


def read_only_disk(room, drawn):
    session = drawn[0]
    with disk(room, "64k"):
        room.put(journal_of(room, session, 1))
        subprocess.run(["mount", "-o", "remount,bind,ro", room.folder], check=True)
        at_a_place(room, session, "a read-only disk", room.journal)
        other = os.path.join(room.folder, "other")
        room.case("a read-only disk, new elsewhere", nothing_is_done, room, other, ["new"], session.vocabulary)


def no_files(room, drawn):
    """Places where no file is or can be."""
    room.put(b"")
    within = lambda name: os.path.join(room.folder, name)
    os.mknod(within("socket"), stat.S_IFSOCK | 0o600)
    os.symlink("link", within("link"))
    for name, place in [
        ("a socket", within("socket")),
        ("a link to itself", within("link")),
        ("too long a name", within("n" * 256)),
        ("below a file", within("journal/below")),
        ("no disk", "/dev/null"),
        ("a device", "/dev/zero"),
    ]:
        at_a_place(room, drawn[0], name, place)


def sessions(program):
    """For each plan the first session of checks/kills.py that has a few answers."""
    for plan in PLAN_BYTES:
        drawn = (Session(program, number) for number in range(200))
        yield next(session for session in drawn if session.plan == plan and 4 <= len(session.answers) <= 8)


def with_mounts():
    """Starts this script once more where what it mounts is its own and gone at the end. Returns where that isn't allowed."""
    with tempfile.TemporaryDirectory() as folder:
        ways = [["unshare", "--mount"], ["unshare", "--mount", "--map-root-user"]]
        allowed = [words for words in ways if can_run([*words, "mount", "-t", "tmpfs", "none", folder])]
    os.environ[MOUNTED] = "yes" if allowed else "no"
    if allowed:
        os.execvp("unshare", [*allowed[0], sys.executable, *sys.argv])


def main():
    if len(sys.argv) != 2:
        print(__doc__)
        sys.exit(2)
    if MOUNTED not in os.environ:
        with_mounts()
    with tempfile.TemporaryDirectory() as folder:
        room = Room(os.path.realpath(sys.argv[1]), os.path.realpath(folder))
        drawn = list(sessions(room.program))
        parts = [no_files]
        if not can_run(["strace", "-o", os.devnull, "true"]):
            print("faults: passed over: strace isn't there or may not trace, so no call is made to fail")
        else:
            parts += [calls_that_fail]
        if os.environ[MOUNTED] == "no":
            print("faults: nothing may be mounted here, so no disk is full or read-only")
        else:
            parts += [full_disk, read_only_disk]
        for part in parts:
            try:
                part(room, drawn)
            except Exception as fault:
                room.failed += 1
                print(f"faults: {part.__name__} ends early: {fault!r}")
    print(f"faults: {room.cases} cases, {room.failed} failed")
    sys.exit(1 if room.failed else 0)


main()
