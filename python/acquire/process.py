"""Processes over pipes, with a deadline and a bound on what they print, that end when this process ends."""

from __future__ import annotations

import contextlib
import os
import queue
import select
import shutil
import subprocess
import threading
import time
from collections.abc import Callable, Sequence
from concurrent.futures import Future
from typing import IO

from .faults import TimeOver, Unexpected

TICK = 0.25  # seconds between two ticks of a deadline
MOST_READ = 1 << 16  # bytes that are read or written at once
MOST_LINE = 1 << 20  # bytes of a line
MOST_PRINTED = 1 << 29  # bytes of a whole output, where nothing else is said

Process = subprocess.Popen[bytes]


class Deadline:
    """Seconds for one call, or for several together."""

    def __init__(self, seconds: float) -> None:
        """They begin now."""
        self._end = time.monotonic() + seconds

    @property
    def left(self) -> float:
        """The seconds that are left, never below 0."""
        return max(self._end - time.monotonic(), 0.0)

    @property
    def over(self) -> bool:
        """Whether no time is left."""
        return self.left == 0.0

    def tick(self) -> None:
        """Is called some four times a second while a process is waited for; another class may show there how far it is."""

    def pause(self) -> float:
        """How long to wait before the next tick."""
        return min(TICK, self.left)


class _Starter:
    """A thread that starts processes and lasts as long as this process.

    The system ends a process when the thread ends that has started it. So no thread that ends before this process does may start one.
    """

    def __init__(self) -> None:
        self._lock = threading.Lock()
        self._work: queue.SimpleQueue[tuple[Callable[[], Process], Future[Process]]] | None = None

    def start(self, make: Callable[[], Process]) -> Process:
        """Has a process made, and gives it, or raises what the making raised."""
        with self._lock:
            if self._work is None:
                self._work = queue.SimpleQueue()
                threading.Thread(target=_serve, args=(self._work,), name="starts acquire", daemon=True).start()
            made: Future[Process] = Future()
            self._work.put((make, made))
        return made.result()


def _serve(work: queue.SimpleQueue[tuple[Callable[[], Process], Future[Process]]]) -> None:
    """Makes one process after the other."""
    while True:
        make, made = work.get()
        try:
            made.set_result(make())
        except BaseException as error:  # pylint: disable=broad-exception-caught # it is raised where the process is wanted
            made.set_exception(error)


_starter = _Starter()


def _forked() -> None:
    """A process that is forked has no such thread."""
    global _starter  # pylint: disable=global-statement
    _starter = _Starter()


os.register_at_fork(after_in_child=_forked)


def started(words: Sequence[str], quiet: bool = False, keep_open: Sequence[int] = ()) -> Process:
    """Starts a process over pipes, which gets SIGTERM when this process ends, however that comes about.

    It has a process group of its own, so that Ctrl-C at the terminal doesn't reach it, and inherits the descriptors `keep_open`.
    quiet: what it says on standard error goes nowhere. Where the system has no `setpriv`, it ends when it reads its input's end.
    """
    ends_with_us = ["setpriv", "--pdeathsig", "TERM", "--"] if shutil.which("setpriv") else []
    return _starter.start(lambda: subprocess.Popen([*ends_with_us, *words], stdin=subprocess.PIPE, stdout=subprocess.PIPE,
                                                   stderr=subprocess.DEVNULL if quiet else None, process_group=0, pass_fds=keep_open))


def called(words: Sequence[str], given: bytes = b"", deadline: Deadline | None = None,
           quiet: bool = False, most: int = MOST_PRINTED) -> tuple[int, bytes]:
    """Runs a program with all its input: its exit status, below 0 where a signal ended it, and what it printed.

    Raises `TimeOver` where the deadline is over before its end, and `Unexpected` where it prints more
    than `most` bytes; it is killed then.
    """
    process = started(words, quiet)
    with process:
        try:
            printed = _printed(process, given, deadline, most)
        except BaseException:
            process.kill()
            raise
    return process.returncode, printed


def _printed(process: Process, given: bytes, deadline: Deadline | None, most: int) -> bytes:
    """All that a process prints, which is given its input meanwhile."""
    assert process.stdin and process.stdout
    os.set_blocking(process.stdin.fileno(), False)
    left, printed = memoryview(given), bytearray()
    while True:
        if not left:
            ended(process.stdin)
        waits = None if deadline is None else deadline.pause()
        came, free, _ = select.select([process.stdout], [process.stdin] if left else [], [], waits)
        if free:
            left = left[_written(process.stdin.fileno(), left) :]
        if came:
            some = os.read(process.stdout.fileno(), MOST_READ)
            if not some:
                return bytes(printed)
            printed += some
        if deadline is not None:
            deadline.tick()
        if len(printed) > most:
            raise Unexpected("more and more without an end")
        if deadline is not None and deadline.over:
            raise TimeOver(printed.decode(errors="replace"))


def _written(handle: int, some: memoryview) -> int:
    """Writes what there is room for; how much that was, all where nobody reads any more."""
    try:
        return os.write(handle, some[:MOST_READ])
    except BlockingIOError:
        return 0
    except BrokenPipeError:
        return len(some)


def ended(given: IO[bytes]) -> None:
    """Ends an input, also where nobody reads it any more."""
    with contextlib.suppress(BrokenPipeError):
        given.close()


class Lines:
    """The lines that a process prints."""

    def __init__(self, source: IO[bytes], most: int = MOST_PRINTED) -> None:
        self._source, self._most = source, most
        self._read = bytearray()  # what has come and isn't given away as a line yet

    def next(self, deadline: Deadline | None = None) -> str:
        """The next line without its end; empty where there is none any more. Raises `TimeOver` and `Unexpected`."""
        while b"\n" not in self._read:
            self._wait(deadline)
            some = os.read(self._source.fileno(), MOST_READ)
            if not some:
                break
            self._read += some
            if len(self._read) > MOST_LINE and b"\n" not in self._read:
                raise Unexpected("a line without an end")
        line, _, self._read = self._read.partition(b"\n")
        return line.decode(errors="replace")

    def _wait(self, deadline: Deadline | None) -> None:
        """Waits until something has come, where there is a deadline; `TimeOver` also where lines come and come."""
        while deadline is not None:
            came = select.select([self._source], [], [], deadline.pause())[0]
            deadline.tick()
            if deadline.over:
                raise TimeOver("")
            if came:
                return

    def rest(self, deadline: Deadline | None = None) -> str:
        """All that still comes. Raises `TimeOver` and `Unexpected`."""
        while True:
            self._wait(deadline)
            some = os.read(self._source.fileno(), MOST_READ)
            if not some:
                return self._read.decode(errors="replace")
            self._read += some
            if len(self._read) > self._most:
                raise Unexpected("more and more without an end")

    def close(self) -> None:
        """Reads no more."""
        self._source.close()
