"""Sittings that are shown in a browser: one thread owns each, and requests hand it steps.

A session is one writer's: so one thread opens it, holds its lock, talks with the program, and makes
what pages show. A request waits until its step is done, so that a page which shows the next
question stands for an answer that is kept.
"""

from __future__ import annotations

import secrets
import threading
from collections.abc import Callable
from dataclasses import dataclass, field

from ..case.model import Fault
from .sheets import Busy, Sheet, Stopped

PATIENCE = (
    0.4  # seconds that a request waits for the next sheet before a page says that it takes a while
)
ENDING = 5.0  # seconds that a sitting has to end
NUMBERS = 1 << 30  # sheets are numbered from a drawn one on, so that no form of an earlier run fits


class Closed(BaseException):
    """The sitting is to end while something is shown or looked for."""


class Ended(Exception):
    """The person does without what is being looked for."""


@dataclass(frozen=True)
class Step:
    """What the person does."""

    do: str
    place: int = -1  # of an answer
    things: tuple[int, ...] = ()  # that were pointed at


@dataclass(frozen=True)
class State:
    """What is shown now."""

    number: int
    sheet: Sheet
    waits: bool  # whether a step of the person is waited for
    over: bool  # whether the sitting has ended


@dataclass
class Owner:
    """One sitting, and the thread that owns it."""

    work: Callable[[Owner], Sheet]  # what the thread does; the last sheet
    path: str = ""
    _condition: threading.Condition = field(default_factory=threading.Condition)
    _sheet: Sheet = Busy("One moment", "opening the session")
    _number: int = field(default_factory=lambda: secrets.randbelow(NUMBERS))
    _waits: bool = False  # for a step
    _step: Step | None = None
    _closing: bool = False
    _ending: bool = False  # the person does without what is being looked for
    _over: bool = False

    def start(self) -> Owner:
        """Starts the thread."""
        self._thread = threading.Thread(target=self._own, name=f"sitting {self.path}", daemon=True)
        self._thread.start()
        return self

    # ---- in the thread that owns it

    def _own(self) -> None:
        """The whole sitting."""
        last: Sheet = Stopped("Stopped")
        try:
            last = self.work(self)
        except Closed:
            pass
        except Fault as fault:
            last = Stopped("desk can't go on", fault.texts, True)
        # told on the page, never in the terminal
        except Exception as error:  # pylint: disable=broad-exception-caught
            last = Stopped(
                "desk can't go on",
                (f"An error of its own: {error!r}. All answers are kept.",),
                True,
            )
        finally:
            with self._condition:
                self._show(last)
                self._over = True

    def _show(self, sheet: Sheet) -> None:
        """Puts a sheet in place of the one before."""
        self._sheet = sheet
        self._number += 1
        self._step, self._waits, self._ending = None, False, False
        self._condition.notify_all()

    def put(self, sheet: Sheet) -> Step:
        """Shows a sheet, and waits for what the person does."""
        with self._condition:
            self._show(sheet)
            self._waits = True
            while self._step is None and not self._closing:
                self._condition.wait()
            if self._step is None:
                raise Closed
            self._waits = False
            return self._step

    def busy(self, text: str, share: float | None = None, may_end: bool = False) -> None:
        """Says that something takes a while; `Ended` where the person does without it. The page
        says by itself that it goes on, with two dots."""
        text = text.rstrip(" .")
        with self._condition:
            if self._closing:
                raise Closed
            if self._ending:
                self._ending = False
                raise Ended
            if isinstance(self._sheet, Busy):
                self._sheet = Busy(self._sheet.head, text, share, may_end)
            else:
                self._show(Busy("One moment", text, share, may_end))

    # ---- in the threads of requests

    def state(self) -> State:
        """What is shown now."""
        with self._condition:
            return State(self._number, self._sheet, self._waits, self._over)

    def take(self, number: int, step: Step) -> bool:
        """Hands over a step for the sheet with a number; False where another sheet stands by now,
        or another step was first."""
        with self._condition:
            if number != self._number or self._over:
                return False
            if isinstance(self._sheet, Busy) and step.do == "end":
                self._ending = True
                return True
            if not self._waits or self._step is not None:
                return False
            self._step = step
            self._condition.notify_all()
            self._condition.wait_for(lambda: self._over or self._number != number, PATIENCE)
            return True

    def settled(self) -> State:
        """What is shown once it isn't in the middle of a short step."""
        with self._condition:
            self._condition.wait_for(lambda: self._waits or self._over, PATIENCE)
            return State(self._number, self._sheet, self._waits, self._over)

    def give_up(self) -> None:
        """Lets the work end at its next step, and doesn't wait for that."""
        with self._condition:
            self._closing = True
            self._condition.notify_all()

    def close(self) -> None:
        """Ends the sitting, and waits until the session is put down."""
        self.give_up()
        self._thread.join(ENDING)


class Sittings:
    """The sittings of a server, one at most for each case."""

    def __init__(self, work: Callable[[str, Owner], Sheet]) -> None:
        """Takes what a sitting's thread does for a case, by the path of its file."""
        self._work = work
        self._lock = threading.Lock()
        self._owners: dict[str, Owner] = {}

    def of(self, path: str) -> Owner | None:
        """The sitting of a case, also one that has ended; None where there was none."""
        with self._lock:
            return self._owners.get(path)

    def begin(self, path: str) -> Owner:
        """The sitting of a case, which is begun where none goes on."""
        with self._lock:
            owner = self._owners.get(path)
            if owner is None or owner.state().over:
                owner = Owner(lambda mine: self._work(path, mine), path).start()
                self._owners[path] = owner
            return owner

    def stop(self, path: str) -> None:
        """Ends a case's sitting, so that its session can be moved or its case written anew."""
        with self._lock:
            owner = self._owners.pop(path, None)
        if owner is not None:
            owner.close()

    def close(self) -> None:
        """Ends all."""
        with self._lock:
            owners, self._owners = list(self._owners.values()), {}
        for owner in owners:
            owner.close()
