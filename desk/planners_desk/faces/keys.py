"""Keys of a real terminal, one at a time, and the terminal left as it was."""

from __future__ import annotations

import os
import select
import signal
import termios
import time
import tty
from collections.abc import Callable
from types import FrameType

RESIZED = "resized"  # the window has another size, or the program was in the background: draw anew
ENDED = "ended"  # nothing more can come
GUARD = 0.15  # seconds in which no key counts after something new has been shown


class Keyboard:
    """A context manager: inside it the terminal gives keys without Enter and without showing them.

    Where the program is stopped by Ctrl-Z, the terminal is as it was until it goes on. `leave` and
    `enter` are called then, for what else has to be put back."""

    def __init__(self, terminal: int = 0) -> None:
        self.terminal = terminal
        self.leave: Callable[[], None] = lambda: None
        self.enter: Callable[[], None] = lambda: None
        self.before: dict[int, object] = {}

    def __enter__(self) -> Keyboard:
        self.modes = termios.tcgetattr(self.terminal)
        self.heard, self.told = os.pipe()
        os.set_blocking(self.told, False)
        self.before = {
            signal.SIGWINCH: signal.signal(signal.SIGWINCH, self._resized),
            signal.SIGTSTP: signal.signal(signal.SIGTSTP, self._stopped),
        }
        self._raw()
        return self

    def __exit__(self, *_: object) -> None:
        for number, handler in self.before.items():
            signal.signal(number, handler)  # type: ignore[arg-type]
        os.close(self.heard)
        os.close(self.told)
        termios.tcsetattr(self.terminal, termios.TCSADRAIN, self.modes)

    def _raw(self) -> None:
        """Keys come one at a time; what was typed before is dropped."""
        tty.setcbreak(self.terminal, termios.TCSAFLUSH)

    def _stopped(self, number: int, frame: FrameType | None) -> None:
        """Ctrl-Z: stops with the terminal as it was, and takes it up again when the program goes
        on."""
        self.leave()
        termios.tcsetattr(self.terminal, termios.TCSADRAIN, self.modes)
        signal.signal(number, signal.SIG_DFL)
        os.kill(os.getpid(), number)
        signal.signal(number, self._stopped)
        self._raw()
        self.enter()
        self._resized(number, frame)

    def _resized(self, number: int, _: FrameType | None) -> None:
        """Has the screen drawn anew."""
        try:
            os.write(self.told, b".")
        except BlockingIOError:
            pass  # one that waits is enough

    def read(self) -> str:
        """Waits for the next key. Of several that came at once, as when text is pasted, the first
        alone counts; one that sends more than a letter, as an arrow does, is none."""
        while True:
            ready, _, _ = select.select([self.terminal, self.heard], [], [])
            if self.heard in ready:
                os.read(self.heard, 4096)
                return RESIZED
            came = os.read(self.terminal, 4096)
            if not came:
                return ENDED
            if came[:1] != b"\x1b":
                return came.decode(errors="replace")[0]

    def read_after(self, shown: float) -> str:
        """The next key that comes when nobody can be typing what was meant for an earlier question:
        `GUARD` seconds after something was shown, and after the last key that was dropped for that,
        so that a key that is held isn't taken.
        """
        while True:
            key = self.read()
            now = time.monotonic()
            if key in (RESIZED, ENDED) or now - shown >= GUARD:
                return key
            shown = now
