"""Talks with the program `acquire` through the project's client for Python, and tells its faults
for people."""

from __future__ import annotations

import contextlib
import math
import os
import shutil
import time
from collections.abc import Callable, Iterator, Sequence

import acquire
from acquire import Deadline, ProgramMissing, Reply, TimeOver, Unexpected

from ..case import letters
from ..case.model import Fault
from . import repository

MOST_PRINTED = 1 << 26  # bytes of one call of the program; more would fill the memory
TICK = 0.25  # seconds after which somebody who waits is told how much time is left
REASONS = {
    8: "its input failed",
    9: "its output failed",
    10: "the file may not be read and written, or the disk is full",
    11: "memory was wanting",
}
NO_TEXT = "\ufffd"  # what stands for bytes that are no text

__all__ = [
    "MOST_PRINTED",
    "Clock",
    "Endless",
    "Program",
    "Reply",
    "Run",
    "TimeOver",
    "is_question",
    "said",
    "something_else",
]


class Clock(Deadline):
    """Seconds for several calls together, and a line that moves while they last."""

    def __init__(self, seconds: float, tell: Callable[[str], None] = lambda _: None) -> None:
        super().__init__(seconds)
        self._tell = tell
        self._doing = ""
        self._told = 0.0  # when it was said last

    def doing(self, what: str) -> None:
        """Says what is being done from now on."""
        self._doing, self._told = what, 0.0
        self.tick()

    def tick(self) -> None:
        """Says what is being done, and how many seconds that may last, where it wasn't said just
        before."""
        if time.monotonic() - self._told >= TICK:
            self._told = time.monotonic()
            self._tell(f"{self._doing}, at most {math.ceil(self.left)} s more ..")

    def within(self, seconds: float) -> Clock:
        """A clock for one call, which has no more than so many of the seconds; who waits is told of
        all that are left."""
        return Clock(min(seconds, self.left), lambda _: self.tick())


def something_else(what: str) -> Fault:
    """A fault for what the program can't have printed."""
    return Fault(
        f"acquire printed {what}, which isn't what desk knows of it: is it that program, and as "
        "new as this desk? Another one is taken by --acquire PROGRAM or DESK_ACQUIRE"
    )


class Endless(Fault):
    """The program prints without an end, or more than desk takes."""


def text_of(printed: str) -> str:
    """What the program printed; a fault where it is no text."""
    if NO_TEXT in printed:
        raise something_else("bytes that are no text")
    return printed


def said(reply: Reply) -> str:
    """What the program said last, for people; how it ended where it said nothing."""
    if reply.text.strip():
        return letters.shown(reply.text.strip().splitlines()[-1])
    if reply.status < 0:
        return f"it was ended by signal {-reply.status}"
    return REASONS.get(reply.status, f"nothing, and ended with status {reply.status}")


@contextlib.contextmanager
def _told() -> Iterator[None]:
    """Tells what the client raises, but for a time that is over, as a fault."""
    try:
        yield
    except Unexpected as error:
        raise Endless(*something_else(error.what).texts) from None
    except ProgramMissing as error:
        raise Fault(str(error)) from None


class Program(acquire.Program):
    """The program at a path."""

    def __init__(self, path: str) -> None:
        super().__init__(path, quiet=True, most=MOST_PRINTED)

    @classmethod
    def found(cls, named: str | os.PathLike[str] | None = None) -> Program:
        """The program that is named, else that of DESK_ACQUIRE, else the one of this repository,
        else the one on PATH."""
        path = named or os.environ.get("DESK_ACQUIRE")
        if path:
            found = shutil.which(path)
            if not found:
                raise Fault(f"{path}: there is no such program")
            return cls(os.path.abspath(found))
        if repository.is_there():
            return cls(repository.program())
        found = shutil.which("acquire")
        if found:
            return cls(found)
        raise Fault(
            "the program acquire isn't there: name it by --acquire PROGRAM or in DESK_ACQUIRE"
        )

    def call(
        self, words: Sequence[str], given: bytes = b"", deadline: Deadline | None = None
    ) -> Reply:
        """One call with all its input. Where the deadline is over, the program is ended, and
        `TimeOver` has what it had printed."""
        with _told():
            reply = super().call(words, given, deadline)
        text_of(reply.text)
        return reply


class Run(acquire.Run):
    """`acquire JOURNAL run`, or another command that asks, over pipes.

    It inherits the lock: where desk is killed, nobody else gets the journal before the program has
    ended as well.
    """

    def __init__(
        self,
        program: Program,
        words: Sequence[str],
        lock: int | None = None,
        given: bytes = b"",
        clock: Clock | None = None,
    ) -> None:
        """Starts it, and writes what has to come first. Where a clock is given, no line is waited
        for longer than it has left."""
        with _told():
            super().__init__(program.started(words, () if lock is None else (lock,)), program.most)
        self._clock = clock
        if given:
            self.write(given)

    def line(self, deadline: Deadline | None = None) -> str:
        """The next line without its end; empty where there is none any more, `TimeOver` where the
        clock's time is over."""
        with _told():
            return text_of(super().line(deadline or self._clock))

    def say(self, word: str) -> None:
        """Writes an answer line. Where the program has ended, the next `line` shows it."""
        self.write(word.encode() + b"\n")

    def rest(self, deadline: Deadline | None = None) -> list[str]:
        """Ends the input, and all lines that still come."""
        with _told():
            return [text_of(line) for line in super().rest(deadline)]


def is_question(head: str) -> bool:
    """Whether a line that begins so is a question's."""
    return head[:1] == "q" and head[1:].isdigit()
