"""What a call of desk stands on: its words, where it reads and where it prints, and how it is told
that it can't go on."""

from __future__ import annotations

import contextlib
import io
import os
import sys
from collections.abc import Sequence
from typing import TextIO

from ..case import letters
from ..case.model import Case, Fault

UTF8 = "set LC_ALL=C.UTF-8, or your own language's locale with UTF-8"
ESCAPED = range(0xDC80, 0xDD00)  # what stands for bytes that are no text


def prepared() -> None:
    """Input and output such that no letter breaks desk off.

    A stream that is closed is one into nothing from now on: else the next file that is opened would
    have its number, and the journal would get what a program writes there.
    """
    for number in range(3):
        try:
            os.fstat(number)
        except OSError:
            os.dup2(os.open(os.devnull, os.O_RDWR), number)
    if isinstance(sys.stdin, io.TextIOWrapper):
        sys.stdin.reconfigure(errors="replace")
    if isinstance(sys.stdout, io.TextIOWrapper):
        sys.stdout.reconfigure(errors="backslashreplace")
    if sys.stderr is None:
        sys.stderr = open(os.devnull, "w", encoding="utf-8")


def there(reads: bool) -> None:
    """A fault where desk can't print, or can't read what it is to read."""
    if sys.stdout is None:
        raise Fault("standard output is closed, so there is nowhere to print: leave `>&-` out")
    if reads and sys.stdin is None:
        raise Fault("standard input is closed, so no answer can come: leave `<&-` out")


def wrong_word(words: Sequence[str]) -> str | None:
    """Which of the words of a call can't be shown, and what to do; None where all can."""
    for word in words:
        byte = next((ord(letter) for letter in word if ord(letter) in ESCAPED), None)
        if byte is not None:
            return (
                f"`{letters.shown(word)}`: byte {byte - ESCAPED.start + 0x80:02X} is no text in "
                f"this locale: {UTF8}, or take another name"
            )
        if wrong := letters.unseen(word):
            return f"`{letters.shown(word)}`: {wrong}"
    return None


def can_show(case: Case) -> None:
    """A fault where the output has no letter for a name of a case: names that look the same
    couldn't be told apart."""
    encoding = sys.stdout.encoding or "utf-8"  # a stream that isn't of bytes takes any letter
    for name in (case.title, *(thing.name for thing in case.things), *case.values):
        try:
            name.encode(encoding)
        except UnicodeEncodeError as error:
            raise Fault(
                f"{case.path}: the output is in {encoding}, which has no "
                f"{letters.code(name[error.start])} for `{name}`: {UTF8}"
            ) from None


def reason(error: Exception) -> str:
    """Why desk can't go on, for people."""
    if isinstance(error, Fault):
        return str(error)
    if isinstance(error, OSError):  # without a name it is about what is read and printed
        return f"{error.filename or 'standard input or output'}: {error.strerror or error}"
    return f"desk can't go on, by an error of its own, {error!r}; `python3 -X dev` shows where"


def fails(stream: TextIO) -> bool:
    """Whether a stream doesn't take what it has to."""
    try:
        stream.flush()
    except OSError:
        return True
    return False


def given_up() -> None:
    """What is left to print is dropped where it can't be printed, so that nothing more is said of
    it at the end."""
    with contextlib.suppress(OSError, ValueError):
        if sys.stdout is not None and fails(sys.stdout):
            os.dup2(os.open(os.devnull, os.O_WRONLY), sys.stdout.fileno())
