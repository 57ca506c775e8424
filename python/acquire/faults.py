"""What may come in place of an answer: refusals of what was given, and faults of the system."""

from __future__ import annotations

import signal


class AcquireError(Exception):
    """Whatever this package raises by itself, but for `ValueError`s about an argument."""


class ProgramMissing(AcquireError):
    """The program, or a SAT solver, can't be found or started."""


class NotFinished(AcquireError):
    """A call came when the session doesn't take it: no question is open any more, or no answer stands that could be taken back."""


class Refusal(AcquireError):
    """The program refuses what it was given.

    what: what is refused, as `vocabulary`, `journal`, `model`, `certificate`.
    reason: why, in the program's own words; `docs/formats.md` lists them.
    """

    def __init__(self, what: str, reason: str) -> None:
        super().__init__(f"refused {what} {reason}".rstrip())
        self.what = what
        self.reason = reason


class VocabularyRefused(Refusal):
    """The vocabulary isn't one; `reason` is its first fault, as `not json`, or `unknown variable 0` for the one in scope 0."""


class JournalRefused(Refusal):
    """The file is no journal, or not one for this session; `reason` is as `no session`, `damaged 17` or `has another vocabulary`."""


class SystemFault(AcquireError):
    """Reading, writing or the journal's disk failed, or there wasn't enough memory (`status` 8 to 11). A journal keeps all answers to
    which a line came."""

    TEXTS = {8: "the input can't be read", 9: "the output can't be written", 10: "the journal can't be opened, read or written",
             11: "there isn't enough memory"}

    def __init__(self, status: int) -> None:
        super().__init__(f"{self.TEXTS[status]} (status {status})")
        self.status = status


class TimeOver(AcquireError):
    """A deadline was over before the program was done, which is ended then. A journal keeps all answers to which a line came.

    printed: what a call had printed until then.
    """

    def __init__(self, printed: str) -> None:
        super().__init__("the time was over before the program was done")
        self.printed = printed

    @property
    def lines(self) -> list[str]:
        """The lines of it without their ends."""
        return self.printed.splitlines()


class Unexpected(AcquireError):
    """The program printed what it can't have to say, as a line without an end: it may be another program.

    what: what that was.
    """

    def __init__(self, what: str) -> None:
        super().__init__(f"the program printed {what}")
        self.what = what


class ProgramEnded(AcquireError):
    """The program ended where it shouldn't have.

    status: its exit status, below 0 where a signal ended it.
    signal: the name of that signal, as `SIGKILL`, or None.

    A journal keeps all answers to which a line came: a new `Session` over it goes on.
    """

    def __init__(self, status: int, said: str) -> None:
        self.status = status
        self.signal = signal.Signals(-status).name if status < 0 else None
        super().__init__(f"the program ended by {self.signal or f'status {status}'}" + (f": {said!r}" if said else ""))
