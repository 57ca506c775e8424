#!/usr/bin/env python3
"""The commands over real files, and at a terminal.

usage: checks/journals.py PROGRAM

Rows of commands over one file, files that are no journal, files that can't be opened or written, a disk that is full, what a
command leaves of its input, and a person at a terminal who presses Ctrl-C between two answers and goes on later. A limit on the
length of files, by which a write fails as it does where no room is left, stands for the full disk. Where this runs as root, the
rows on files and folders that may not be read or written are run as nobody.

Then what could destroy a journal: standard streams that are closed or lead to the journal, and a file that somebody else cuts,
removes or replaces while the program waits for an answer.
"""

import contextlib
import itertools
import os
import pty
import resource
import select
import shutil
import signal
import subprocess
import termios
import time

import over_files
from owners import Program

NOBODY = 65534
WORKED = bytes.fromhex("01 41 00 00 00 06 01 02 00 00 01 01 00")

# What is told on standard error of a fault of the system, of which the output says nothing.
FAULTS = {
    8: "acquire: the input can't be read\n",
    9: "acquire: the output can't be written\n",
    10: "acquire: {journal} can't be opened, read or written as a journal, or was changed meanwhile\n",
    11: "acquire: there isn't enough memory\n",
}

# Commands one after the other over one file: the words, the input (None is the vocabulary), what is printed, the status, and
# how many bytes the file has then.
COMMANDS = [
    ("show", b"", "refused journal no session\n", 3, None),
    ("run", b"yes\n", "refused journal no session\n", 3, None),
    ("new", b'{"variables"', "refused vocabulary not json\n", 2, None),
    ("new", None, "created variables 2 scopes 1 candidates 3\n", 0, 184),
    ("run", b"yes", "q1 a=1 b=2\nsuspended 0\n", 6, 184),
    ("show", b"", "plan quacq\nanswers 0\nlearned 0\nstate idle\n", 0, 184),
    ("run", b"yes\n", "q1 a=1 b=2\nq2 a=1 b=1\nsuspended 1\n", 6, 196),
    ("show", b"", "plan quacq\nq1 a=1 b=2 yes\nanswers 1\nlearned 0\nstate idle\n", 0, 196),
    ("new", None, "refused journal session there\n", 3, 196),
    ("run", b"maybe\nstop\n", "q2 a=1 b=1\nnot an answer\nsuspended 1\n", 6, 196),
    ("run", b"no\n", "q2 a=1 b=1\nconverged 2\nne a b\n", 0, 208),
    ("run", b"", "converged 2\nne a b\n", 0, 208),
    ("show", b"", "plan quacq\nq1 a=1 b=2 yes\nq2 a=1 b=1 no\nanswers 2\nlearned 1\nne a b\nstate idle\n", 0, 208),
    ("new --plan scopes", None, "refused journal session there\n", 3, 208),
]

# Commands with standard input, standard output or both and standard error closed: the words, the input, how many bytes of the
# session of COMMANDS the file has before (None is no file) and after, where nothing is closed; and the statuses. With the output
# closed, what is in the file before the first line is written is there too.
CLOSED = [
    ("new", None, None, 184, {"input": 8, "output": 9, "all": 8}),
    ("new", None, 196, 196, {"input": 8, "output": 9, "all": 8}),
    ("run", b"no\n", 196, 208, {"input": 8, "output": 9, "all": 9}),
    ("play", b'[["ne","a","b"]]', 184, 208, {"input": 8, "output": 9, "all": 8}),
    ("show", b"", 196, 196, {"input": 0, "output": 9, "all": 9}),
    ("back", b"", 196, 209, {"input": 0, "output": 9, "all": 9}),
    ("certify", b"", 208, 208, {"input": 0, "output": 9, "all": 9}),
    ("reduce", b"", 208, 208, {"input": 0, "output": 9, "all": 9}),
    ("cnf", b"", 208, 208, {"input": 0, "output": 9, "all": 9}),
    ("model", b"v 1 -2 -3 4 0\n", 208, 208, {"input": 8, "output": 9, "all": 8}),
]
STREAMS = {"input": [0], "output": [1], "error": [2], "all": [0, 1, 2]}
# These add to the file before they write a line.
ADD_FIRST = ("new", "back")


class Room(over_files.Room):
    """A room that others may enter, with a copy of the program in it."""

    check = "journals"

    def __init__(self, folder, program):
        super().__init__(folder, shutil.copy(program, os.path.join(folder, "program")))
        os.chmod(folder, 0o755)

    def look(self, journal, words, given=b"", limit=None, user=None, closed=(), prepare=lambda: None):
        """What a command prints, and its status. Files may get `limit` bytes long, if there is one. The streams of `closed` are
        closed, and `prepare` is called, before the program starts."""

        def begin():
            if limit is not None:
                signal.signal(signal.SIGXFSZ, signal.SIG_IGN)
                resource.setrlimit(resource.RLIMIT_FSIZE, (limit, limit))
            prepare()
            for stream in closed:
                os.close(stream)

        how = {"stderr": subprocess.PIPE, "preexec_fn": begin, "user": user}
        done = self.run(journal, words, given, **how)
        if 2 not in closed:
            told = FAULTS.get(done.returncode, "").format(journal=journal)
            self.report(f"{words}, status {done.returncode}: standard error", told, done.stderr.decode())
        return done.stdout.decode(), done.returncode


def content_of(journal):
    if not os.path.exists(journal):
        return None
    with open(journal, "rb") as file:
        return file.read()


def over_one_file(room):
    journal = room.path("rows")
    for number, (*command, length) in enumerate(COMMANDS):
        room.look_at(number, journal, command)
        content = content_of(journal)
        room.report(f"row {number}, its length", length, content and len(content))
    room.report("the worked bytes", WORKED, content_of(journal)[183:195] + b"\0")


def worked_journal(room, name="worked"):
    """The file of 196 bytes, with one answer."""
    journal = room.path(name)
    with contextlib.suppress(FileNotFoundError):
        os.remove(journal)
    room.look(journal, "new", None)
    room.look(journal, "run", b"yes\n")
    return journal


def no_journals(room):
    """Files that are refused, or have another answer than they had, each byte of them as before."""
    whole = content_of(worked_journal(room))
    none = "plan quacq\nanswers 0\nlearned 0\nstate idle\n"
    files = [
        ("9 bytes", b"x" * 9, "refused journal no session\n"),
        ("10 bytes", b"x" * 10, "refused journal not a journal\n"),
        ("a cut record", whole[:190], "refused journal damaged 183\n"),
        ("a cut gate", whole[:195], "refused journal damaged 183\n"),
        ("a closed gate", whole[:183] + b"\0" + whole[184:], None),
        ("a closed first gate", whole[:8] + b"\0" + whole[9:], "refused journal no session\n"),
        ("a value that isn't there", whole[:194] + b"\2" + whole[195:], "refused journal stray 1\n"),
        ("another vocabulary", whole[:15] + b"[" + whole[16:], "refused journal vocabulary not json\n"),
    ]
    for name, content, refusal in files:
        journal = room.put("file", content)
        run = (refusal, 3) if refusal else ("q1 a=1 b=2\nsuspended 0\n", 6)
        room.report(f"{name}, run", run, room.look(journal, "run"))
        room.report(f"{name}, show", (refusal, 3) if refusal else (none, 0), room.look(journal, "show"))
        room.report(f"{name}, untouched", content, content_of(journal))
    journal = room.put("file", b"x" * 10)
    room.report("10 bytes, new", ("refused journal not a journal\n", 3), room.look(journal, "new", None))
    room.report("10 bytes, new, untouched", b"x" * 10, content_of(journal))
    journal = room.put("file", b"x" * 9)
    room.report("9 bytes, new", 0, room.look(journal, "new", None)[1])
    room.report("9 bytes, new, made", whole[:183] + b"\0", content_of(journal))


def no_files(room):
    """Each command ends with status 10 and no line, and changes nothing."""
    user = NOBODY if os.geteuid() == 0 else None
    os.mkdir(room.path("folder"))
    os.mkfifo(room.path("pipe"))
    places = [room.path("folder"), room.path("pipe")]
    if os.path.exists("/dev/full"):
        places.append("/dev/full")
    for name, mode in [("unreadable", 0o200), ("unwritable", 0o444)]:
        journal = worked_journal(room, name)
        if user is not None:
            os.chown(journal, user, user)
        os.chmod(journal, mode)
        places.append(journal)
    for place in places:
        before = os.stat(place)
        for words, given in [("new", None), ("run", b"yes\n"), ("show", b"")]:
            room.report(f"{place}, {words}", ("", 10), room.look(place, words, given, user=user))
        after = os.stat(place)
        room.report(
            f"{place}, untouched",
            (before.st_mode, before.st_size, before.st_mtime_ns),
            (after.st_mode, after.st_size, after.st_mtime_ns),
        )
    os.mkdir(room.path("locked"), 0o555)
    for place in [room.path("missing/journal"), room.path("locked/journal")]:
        room.report(f"{place}, new", ("", 10), room.look(place, "new", None, user=user))
        room.report(f"{place}, run", ("refused journal no session\n", 3), room.look(place, "run", user=user))
        room.report(f"{place}, nothing is made", False, os.path.exists(place))


def full_disk(room):
    """No more than so many bytes: the program ends with status 10, and no answer is there that isn't whole."""
    for limit in [0, 5, 9, 100, 183]:
        journal = room.path(f"new {limit}")
        room.report(f"new at {limit} bytes", ("", 10), room.look(journal, "new", None, limit=limit))
        room.report(f"then show at {limit}", ("refused journal no session\n", 3), room.look(journal, "show"))
        room.report(f"then new at {limit}", 0, room.look(journal, "new", None)[1])
        room.report(f"then run at {limit}", 0, room.look(journal, "run", b"yes\nno\n")[1])
    for limit in [184, 185, 190, 195]:
        journal = room.path(f"run {limit}")
        room.look(journal, "new", None)
        room.report(f"run at {limit} bytes", ("q1 a=1 b=2\n", 10), room.look(journal, "run", b"yes\nno\n", limit=limit))
        room.report(f"then run at {limit}", ("q1 a=1 b=2\nsuspended 0\n", 6), room.look(journal, "run"))
        # The other answer, over what is left of the first.
        room.look(journal, "run", b"no\n")
        shown = "plan quacq\nq1 a=1 b=2 no\nanswers 1\n"
        room.report(f"then show at {limit}", shown, room.look(journal, "show")[0][: len(shown)])
    journal = room.path("run 196")
    room.look(journal, "new", None)
    room.report("run at 196 bytes", ("q1 a=1 b=2\nq2 a=1 b=1\n", 10), room.look(journal, "run", b"yes\nno\n", limit=196))
    room.report("then run at 196", ("q2 a=1 b=1\nsuspended 1\n", 6), room.look(journal, "run"))


def at_the_limit(room):
    """The system's signal at the limit ends the program, as a kill does, and no answer is lost after which a line was printed."""
    journal = worked_journal(room, "signal")
    limit = lambda: resource.setrlimit(resource.RLIMIT_FSIZE, (200, 200))
    got = room.look(journal, "run", b"no\n", prepare=limit)
    room.report("the signal at the limit", ("q2 a=1 b=1\n", -signal.SIGXFSZ), got)
    room.report("then show", "answers 1", room.look(journal, "show")[0].splitlines()[2])


def session(room, length):
    """The file of so many bytes in the session of COMMANDS."""
    journal = worked_journal(room, "session")
    if length == 208:
        room.look(journal, "run", b"no\n")
    content = content_of(journal)
    return content[:183] + b"\0" if length == 184 else content


def closed_streams(room):
    """No byte of a journal changes but by what the command adds, whatever is closed; and each command says what it lacked."""
    for words, given, before, after, statuses in CLOSED:
        wanted = None if before is None else session(room, before)
        journal = room.path("closed")

        def over(**more):
            if before is None:
                with contextlib.suppress(FileNotFoundError):
                    os.remove(journal)
            else:
                room.put("closed", wanted)
            return room.look(journal, words, given, **more)

        whole = over()
        done = content_of(journal)
        room.report(f"{words} over {before} bytes, its length", after, len(done))
        for name, closed in STREAMS.items():
            row = f"{words} over {before} bytes, closed: {name}"
            text, status = over(closed=closed)
            room.report(row, statuses.get(name, whole[1]), status)
            if name in ("error", "input") and status == whole[1]:
                room.report(f"{row}, what is printed", whole[0], text)
            adds = status == whole[1] or status == 9 and words in ADD_FIRST
            room.report(f"{row}, the file", done if adds else wanted, content_of(journal))


def own_streams(room):
    """A journal that standard input or output leads to is refused, under each name that it has."""
    before = content_of(worked_journal(room, "stream"))
    journal = room.path("stream")
    os.link(journal, room.path("second name"))
    os.symlink("stream", room.path("link"))
    rows = itertools.product(
        ["stream", "second name", "link"],
        ["run", "play", "show", "back", "model"],
        [("input", 0, os.O_RDONLY), ("output >>", 1, os.O_WRONLY | os.O_APPEND), ("output 1<>", 1, os.O_RDWR)],
    )
    for name, words, (way, stream, how) in rows:
        got = room.look(room.path(name), words, prepare=lambda: os.dup2(os.open(journal, how), stream))
        room.report(f"{words}, {name} is the {way}", (("", 10), before), (got, content_of(journal)))
        room.put("stream", before)
    room.report("a link to a journal", ("q2 a=1 b=1\nsuspended 1\n", 6), room.look(room.path("link"), "run"))
    voc = room.put("vocabulary", room.vocabulary)
    for words, stream, how in [("new", 0, os.O_RDONLY), ("new", 1, os.O_RDWR)]:
        got = room.look(voc, words, None, prepare=lambda: os.dup2(os.open(voc, how), stream))
        room.report(f"new, its own stream {stream}", (("", 10), room.vocabulary), (got, content_of(voc)))
    os.symlink("nothing", room.path("no link"))
    room.report("a link to nothing, new", ("", 10), room.look(room.path("no link"), "new", None))
    room.report("a link to nothing, nothing is made", False, os.path.exists(room.path("nothing")))
    # Nobody reads what is written.
    source, end = os.pipe()
    os.close(source)
    room.report("a pipe without a reader", 9, room.look(journal, "show", prepare=lambda: os.dup2(end, 1))[1])
    os.close(end)
    room.report("a pipe without a reader, the file", before, content_of(journal))


def while_it_waits(room):
    """What somebody else does to the file between a question and its answer: the answer isn't taken, and nothing is written."""
    other = session(room, 208)

    def cut(journal):
        os.truncate(journal, 0)

    def cut_in_a_record(journal):
        os.truncate(journal, 190)

    def remove(journal):
        os.remove(journal)

    def replace(journal):
        os.replace(room.put("other", other), journal)

    def rename(journal):
        os.replace(journal, room.path("renamed"))

    def answered_by_another(journal):
        room.report("another run answers", ("q2 a=1 b=1\nconverged 2\nne a b\n", 0), room.look(journal, "run", b"no\n"))

    def taken_back_by_another(journal):
        room.report("another program takes back", ("took back answer 1\n", 0), room.look(journal, "back"))

    def longer_by_a_byte(journal):
        with open(journal, "ab") as file:
            file.write(b"\0")

    for harm in [cut, cut_in_a_record, remove, replace, rename, answered_by_another, taken_back_by_another, longer_by_a_byte]:
        journal = worked_journal(room, "waits")
        before = content_of(journal)
        run = Program(room.program).run([journal, "run"])
        room.report(f"{harm.__name__}, the question", "q2 a=1 b=1", run.line())
        harm(journal)
        left = content_of(journal)
        run.write(b"no\n")
        room.report(f"{harm.__name__}, then", ([], 10), (run.rest(), run.close()))
        room.report(f"{harm.__name__}, the file", left, content_of(journal))
        if harm is rename:
            room.report("rename, the journal", before, content_of(room.path("renamed")))


def folder_that_may_not_be_read(room):
    """A journal is made in a folder that may be written in and not read."""
    user = NOBODY if os.geteuid() == 0 else None
    os.mkdir(room.path("dark"))
    if user is not None:
        os.chown(room.path("dark"), user, user)
    os.chmod(room.path("dark"), 0o300)
    journal = room.path("dark/journal")
    created = ("created variables 2 scopes 1 candidates 3\n", 0)
    room.report("a folder that may not be read, new", created, room.look(journal, "new", None, user=user))
    room.report("then run", ("q1 a=1 b=2\nsuspended 0\n", 6), room.look(journal, "run", user=user))
    os.chmod(room.path("dark"), 0o700)


def what_is_left(room):
    """The next program on the same input, a file or a pipe, finds what comes after the last line that was needed."""
    journal, first = room.path("left"), room.vocabulary + b"\n"
    rows = [
        ("an ending", ":memory: try", first + b"yes\nno\nmaybe\n", b"maybe\n"),
        ("a refused vocabulary", ":memory: try", b"{}\nyes\n", b"yes\n"),
        ("words that aren't taken", ":memory: tray", first, first),
        ("new", f"{journal} new", first + b"\n", b""),
        ("an ending of run", f"{journal} run", b"yes\nno\nno\n", b"no\n"),
        ("stop", f"{journal} run", b"yes\nstop\nno\n", b"no\n"),
        ("a line that is too long", f"{journal} run", b"x" * 300 + b"\n", b"x" * 43 + b"\n"),
        ("show", f"{journal} show", b"no\n", b"no\n"),
        ("the end", f"{journal} run", b"", b""),
    ]
    for row, words, given, left in rows:
        for kind, source in inputs_of(room, given):
            with contextlib.suppress(FileNotFoundError):
                os.remove(journal)
            if row != "new":
                room.look(journal, "new", None)
            subprocess.run([room.program, *words.split()], stdin=source, stdout=subprocess.DEVNULL, timeout=300, check=False)
            room.report(f"{row}, what is left of {kind}", left, os.read(source, 1000))
            os.close(source)


def inputs_of(room, given):
    """A file and a pipe that give these bytes."""
    yield "a file", os.open(room.put("input", given), os.O_RDONLY)
    source, end = os.pipe()
    os.write(end, given)
    os.close(end)
    yield "a pipe", source


class Terminal:
    """A program whose input and output are a terminal, which shows what the program writes and no typed letter."""

    def __init__(self, *words):
        self.child, self.end = pty.fork()
        if self.child == 0:
            # In the background of a script Ctrl-C is ignored, and a child inherits that.
            signal.signal(signal.SIGINT, signal.SIG_DFL)
            os.execv(words[0], words)
        modes = termios.tcgetattr(self.end)
        modes[3] &= ~termios.ECHO
        termios.tcsetattr(self.end, termios.TCSANOW, modes)
        self.seen = ""

    def type(self, keys):
        os.write(self.end, keys)

    def read_until(self, text):
        """What is shown up to this text, or after a minute without it all that was."""
        limit = time.monotonic() + 60
        while text not in self.seen and time.monotonic() < limit:
            if not select.select([self.end], [], [], 0.1)[0]:
                continue
            try:
                piece = os.read(self.end, 4096)
            except OSError:
                break
            if not piece:
                break
            self.seen += piece.decode().replace("\r\n", "\n")
        before, found, self.seen = self.seen.partition(text)
        return before + found

    def wait(self):
        """The rest of what is shown, and the status, or the signal as a negative number."""
        rest = self.read_until("no such text")
        limit = time.monotonic() + 60
        ended, status = os.waitpid(self.child, os.WNOHANG)
        while not ended and time.monotonic() < limit:
            time.sleep(0.01)
            ended, status = os.waitpid(self.child, os.WNOHANG)
        if not ended:
            os.kill(self.child, signal.SIGKILL)
            _, status = os.waitpid(self.child, 0)
        os.close(self.end)
        return rest, os.waitstatus_to_exitcode(status)


def at_a_terminal(room):
    journal = room.path("terminal")
    room.look(journal, "new", None)
    first = Terminal(room.program, journal, "run")
    room.report("the question before anything is typed", "q1 a=1 b=2\n", first.read_until("b=2\n"))
    first.type(b"perhaps\n")
    room.report("no answer", "not an answer\n", first.read_until("answer\n"))
    first.type(b"yes\n")
    room.report("the next question", "q2 a=1 b=1\n", first.read_until("b=1\n"))
    first.type(b"n\x03")
    room.report("Ctrl-C", ("", -signal.SIGINT), first.wait())
    second = Terminal(room.program, journal, "run")
    room.report("the same question later", "q2 a=1 b=1\n", second.read_until("b=1\n"))
    second.type(b"\x04")
    room.report("Ctrl-D", ("suspended 1\n", 6), second.wait())
    third = Terminal(room.program, journal, "run")
    room.report("and once more", "q2 a=1 b=1\n", third.read_until("b=1\n"))
    third.type(b"no\n")
    room.report("the end", ("converged 2\nne a b\n", 0), third.wait())
    trying = Terminal(room.program, ":memory:", "try")
    trying.type(room.vocabulary + b"\n")
    room.report("try", "q1 a=1 b=2\n", trying.read_until("b=2\n"))
    trying.type(b"no\n")
    room.report("try, the next question", "q2 a=1 b=1\n", trying.read_until("b=1\n"))
    trying.type(b"stop\n")
    room.report("try, the end", ("suspended 1\n", 6), trying.wait())


PARTS = [
    over_one_file,
    no_journals,
    no_files,
    full_disk,
    at_the_limit,
    closed_streams,
    own_streams,
    while_it_waits,
    folder_that_may_not_be_read,
    what_is_left,
    at_a_terminal,
]


over_files.check(__doc__, Room, PARTS)
