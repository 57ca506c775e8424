"""The files of desk: what lies beside a case, and how it is written. Each is whole or as it was,
and what isn't desk's own is never replaced."""

from __future__ import annotations

import contextlib
import os
import re
import secrets
import stat
from collections.abc import Callable, Iterator, Mapping
from typing import BinaryIO

from .model import Fault

HEAD = 65_536  # so many bytes of a file are looked at to see what it is
KINDS = {
    stat.S_IFDIR: "a folder",
    stat.S_IFIFO: "a pipe",
    stat.S_IFCHR: "a device",
    stat.S_IFBLK: "a device",
    stat.S_IFSOCK: "a socket",
}


def journal_of(path: str) -> str:
    """The journal of a case."""
    return re.sub(r"\.(case|journal)$", "", path) + ".journal"


def kept_of(journal: str) -> str:
    """What desk keeps beside a journal."""
    return journal.removesuffix(".journal") + ".session"


@contextlib.contextmanager
def told(path: str) -> Iterator[None]:
    """Tells a fault of the system for people: the file, and the system's reason."""
    try:
        yield
    except OSError as error:
        raise Fault(f"{path}: {error.strerror or error}") from None


def opened(path: str) -> BinaryIO:
    """A file to read; a fault where it can't be, and where it is none, as a pipe, at which one
    would wait."""
    with told(path):
        return os.fdopen(
            only_file(os.open(path, os.O_RDONLY | os.O_NONBLOCK | os.O_NOCTTY), path), "rb"
        )


def only_file(handle: int, path: str) -> int:
    """The same open file; it is closed, and a fault told, where it is something else."""
    kind = stat.S_IFMT(os.fstat(handle).st_mode)
    if kind != stat.S_IFREG:
        os.close(handle)
        raise Fault(f"{path} is {KINDS.get(kind, 'no file')}, and a file is due there")
    return handle


def write(path: str, content: bytes) -> None:
    """Writes a file."""
    write_all({path: content})


def write_all(contents: Mapping[str, bytes]) -> None:
    """Writes files, none where one of them can't be written.

    All contents are on the disk, under other names, before the first of them takes its place. A
    link stays one, and what it leads to is replaced.
    """
    waiting: list[tuple[str, str]] = []  # a new file, and whose place it takes
    try:
        for path, content in contents.items():
            with told(path):
                place = os.path.realpath(path)
                new = os.path.join(os.path.dirname(place), f".desk-{secrets.token_hex(4)}")
                handle = os.open(new, os.O_WRONLY | os.O_CREAT | os.O_EXCL, 0o666)
                waiting.append((new, place))
                _fill(handle, content, place)
        while waiting:
            new, place = waiting[0]
            with told(place):
                os.replace(new, place)
            waiting.pop(0)
            sync_folder(place)
    finally:
        for new, _ in waiting:
            with contextlib.suppress(OSError):
                os.unlink(new)


def _fill(handle: int, content: bytes, place: str) -> None:
    """Writes a new file to the disk, and closes it. It may be read by those who might read what
    it replaces."""
    with os.fdopen(handle, "wb") as file:
        if os.path.exists(place):
            mode = stat.S_IMODE(os.stat(place).st_mode)
            if mode != stat.S_IMODE(os.fstat(handle).st_mode):
                os.fchmod(handle, mode)
        file.write(content)
        file.flush()
        os.fsync(handle)


def sync_folder(path: str) -> None:
    """Puts the names in the folder of a file on the disk, where the system does so for folders."""
    with contextlib.suppress(OSError):
        handle = os.open(os.path.dirname(path) or ".", os.O_RDONLY)
        try:
            os.fsync(handle)
        finally:
            os.close(handle)


def may_be_replaced(path: str, is_one: Callable[[bytes], bool], what: str) -> None:
    """A fault where a file is there and isn't, by its first bytes, one that desk writes under
    such a name."""
    with told(path):
        try:
            kind = os.stat(path).st_mode
        except FileNotFoundError:
            return
        head = b""
        if stat.S_ISREG(kind):
            with open(path, "rb") as file:
                head = file.read(HEAD)
    if not is_one(head):
        raise Fault(
            f"{path} is there already and isn't {what} that desk wrote, so it stays as it is: "
            "take another name, or move it away"
        )
