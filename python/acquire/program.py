"""The program `acquire` as a process: a call with all its input, or a run that asks line by line over pipes."""

from __future__ import annotations

import contextlib
import errno
import os
import shutil
import subprocess
from collections.abc import Sequence
from dataclasses import dataclass
from typing import IO

from .faults import ProgramMissing
from .process import MOST_PRINTED, Deadline, Lines, Process, called, ended, started

# Each complete question starts seven threads, and the C library keeps their stacks for the next one only where they are small. The
# program needs a fifth of this.
_STACK_KB = 1024
_PATIENCE = 2.0  # seconds that a run has to end after its input has ended
_NOT_STARTED = (126, 127)  # what a shell ends with that couldn't become the program


@dataclass(frozen=True)
class Reply:
    """What a call printed (`text`), and its exit `status`, which is below 0 where a signal ended it."""

    status: int
    text: str

    @property
    def lines(self) -> list[str]:
        """The lines without their ends."""
        return self.text.splitlines()


class Program:
    """The program at a path (`path`), which is called once (`call`) or asked line by line (`run`)."""

    def __init__(self, path: str | os.PathLike[str], stack: int | None = _STACK_KB, *,
                 quiet: bool = False, most: int = MOST_PRINTED) -> None:
        """Names the program; nothing is started yet.

        stack: the soft limit of its threads' stacks in KB, which a shell sets that then becomes the program. None leaves the caller's.
        quiet: what it says on standard error, as for a disk that is full, goes nowhere.
        most: the bytes that one call may print, or a run at its end; above it has no end.
        """
        self.path = os.path.abspath(path)
        self.quiet, self.most = quiet, most
        self._start = [self.path]
        if stack is not None:
            self._start = ["/bin/sh", "-c", f'ulimit -S -s {stack} 2>/dev/null; exec "$0" "$@"', self.path]

    @classmethod
    def found(cls, named: str | os.PathLike[str] | None = None) -> Program:
        """Looks for the program: the one that is named, else the one that the environment's ACQUIRE names, else the proved one of the
        repository in which this file lies, else `acquire` on PATH. Raises `ProgramMissing` where there is none."""
        wanted = named or os.environ.get("ACQUIRE")
        if wanted:
            found = shutil.which(wanted)
            if not found:
                raise ProgramMissing(f"{wanted}: there is no such program")
            return cls(found)
        built = os.path.join(os.path.dirname(__file__), "..", "..", "crates", "acquire", "out", "acquire")
        found = built if os.access(built, os.X_OK) else shutil.which("acquire")
        if not found:
            raise ProgramMissing("the program acquire isn't there: build it, put it on PATH, or name it in ACQUIRE or by program=")
        return cls(found)

    def call(self, words: Sequence[str], given: bytes = b"", deadline: Deadline | None = None) -> Reply:
        """Calls it with these words and all its input, and waits for its end.

        Raises `ProgramMissing`, `Unexpected` where it prints without an end, and `TimeOver` where the deadline is over before.
        """
        self._there()
        status, printed = called([*self._start, *words], given, deadline, self.quiet, self.most)
        if status in _NOT_STARTED and not printed:
            raise ProgramMissing(f"{self.path}: it can't be started")
        return Reply(status, printed.decode(errors="replace"))

    def run(self, words: Sequence[str], keep_open: Sequence[int] = ()) -> Run:
        """Starts a command that asks, as `try` or `run`. The program inherits the descriptors `keep_open`, a lock's for instance.

        Raises `ProgramMissing`.
        """
        return Run(self.started(words, keep_open), self.most)

    def started(self, words: Sequence[str], keep_open: Sequence[int] = ()) -> Process:
        """Starts a command that asks, as a process over pipes. Raises `ProgramMissing`."""
        self._there()
        try:
            return started([*self._start, *words], self.quiet, keep_open)
        except OSError as error:
            raise ProgramMissing(f"{self.path}: {error.strerror}") from None

    def _there(self) -> None:
        """Raises `ProgramMissing` where there is no such program."""
        if not os.path.exists(self.path):
            raise ProgramMissing(f"{self.path}: {os.strerror(errno.ENOENT)}")
        if os.path.isdir(self.path) or not os.access(self.path, os.X_OK):
            raise ProgramMissing(f"{self.path}: {os.strerror(errno.EACCES)}")


class Run:
    """A command that asks, over pipes. It has a process group of its own, so that Ctrl-C at the terminal doesn't reach it, and ends
    when this process ends."""

    def __init__(self, process: Process, most: int = MOST_PRINTED) -> None:
        assert process.stdin and process.stdout
        self._process = process
        self._to: IO[bytes] = process.stdin
        self._lines = Lines(process.stdout, most)

    @property
    def pid(self) -> int:
        """The system's number of the process."""
        return self._process.pid

    def line(self, deadline: Deadline | None = None) -> str:
        """The next line without its end; empty where there is none any more.

        Raises `TimeOver` where the deadline is over before it has come, and `Unexpected` where it has no end.
        """
        return self._lines.next(deadline)

    def write(self, given: bytes) -> None:
        """Writes to the program. Where that has ended, the next `line` shows it."""
        with contextlib.suppress(BrokenPipeError):
            self._to.write(given)
            self._to.flush()

    def rest(self, deadline: Deadline | None = None) -> list[str]:
        """Ends the input, and all lines that still come. Raises `TimeOver` and `Unexpected`."""
        self.end_input()
        return self._lines.rest(deadline).splitlines()

    def close(self) -> int:
        """Ends the input and waits; the exit status. A run that goes on is ended by a signal, which loses no acknowledged answer."""
        self.end_input()
        for end in (self._process.terminate, self._process.kill):
            try:
                self._process.wait(_PATIENCE)
                break
            except subprocess.TimeoutExpired:
                end()
        self._lines.close()
        return self._process.wait()

    def kill(self) -> tuple[str, int]:
        """Kills the program; what it wrote and nobody has read, and its status, which is below 0 where it hadn't ended by itself."""
        self._process.kill()
        rest = self._lines.rest()
        self.end_input()
        self._lines.close()
        return rest, self._process.wait()

    def end_input(self) -> None:
        """Ends the program's input; what it says then can still be read."""
        ended(self._to)
