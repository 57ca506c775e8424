"""The files of cases in the folder: read, made and written, and none replaced that has changed
since it was shown."""

from __future__ import annotations

import contextlib
import hashlib
import os
import secrets
import threading
from dataclasses import dataclass

from ..case import casefile, files, letters
from ..case.model import Fault

ENDING = ".case"
MOST_NAME = 100  # letters of a case's name
MOST_CASES = 500  # that are looked into for a list

_writing = threading.Lock()  # between the look at a file and its replacement


class Newer(Exception):
    """The file isn't as it was when it was shown; as it is now."""

    def __init__(self, now: Stored) -> None:
        super().__init__("the file has changed")
        self.now = now


@dataclass(frozen=True)
class Stored:
    """A file as it is."""

    text: str
    mark: str  # by which it is known again

    @classmethod
    def of(cls, content: bytes) -> Stored:
        """What a file holds; a fault where that is no text."""
        try:
            text = content.decode("utf-8-sig")
        except UnicodeDecodeError:
            raise Fault("this file isn't UTF-8, so it can't be shown: save it as UTF-8") from None
        return cls(text, hashlib.sha256(content).hexdigest())


def load(path: str) -> Stored:
    """What a case's file holds."""
    with files.opened(path) as file, files.told(path):
        content = file.read(casefile.MOST_BYTES + 1)
    _few(content, path)
    return Stored.of(content)


def _few(content: bytes, path: str) -> None:
    """A fault where a case is too long."""
    if len(content) > casefile.MOST_BYTES:
        raise Fault(f"{os.path.basename(path)}: a case has at most {casefile.MOST_BYTES} bytes")


def save(path: str, text: str, mark: str) -> Stored:
    """Writes a case in place of the one with a mark; `Newer` where another is there by now."""
    content = text.encode()
    _few(content, path)
    with _writing:
        now = load(path)
        if now.mark != mark:
            raise Newer(now)
        if content != now.text.encode():
            files.write(path, content)
    return Stored.of(content)


def create(folder: str, name: str, text: str) -> str:
    """Makes a case of a name that nothing in the folder has; the name of its file."""
    file = file_of(name)
    path = os.path.join(folder, file)
    new = os.path.join(folder, f".desk-{secrets.token_hex(4)}")
    with files.told(path):
        try:
            files.write(new, text.encode())
            os.link(new, path)  # which replaces nothing
        except FileExistsError:
            raise Fault(f"{file} is there already: take another name") from None
        finally:
            with contextlib.suppress(OSError):
                os.unlink(new)
    files.sync_folder(path)
    return file


def file_of(name: str) -> str:
    """The file of a case that somebody calls so; a fault where it can't be called so."""
    name = " ".join(letters.composed(name).split()).removesuffix(ENDING).rstrip()
    if not name:
        raise Fault("the case has no name yet")
    if len(name) > MOST_NAME or len(name.encode()) > 2 * MOST_NAME:
        raise Fault(f"the name of a case has at most {MOST_NAME} letters")
    if name.startswith(".") or any(sign in name for sign in '/\\:*?"<>|'):
        raise Fault(
            f"{name}: the name of a case doesn't begin with a dot, and has none of "
            '/ \\ : * ? " < > | in it'
        )
    wrong = letters.unseen(name)
    if wrong:
        raise Fault(f"the name of the case: {wrong}")
    return name + ENDING


def within(folder: str, path: str) -> bool:
    """Whether a file lies in a folder itself, and isn't a link that leads out of it."""
    return os.path.dirname(os.path.realpath(path)) == os.path.realpath(folder)
