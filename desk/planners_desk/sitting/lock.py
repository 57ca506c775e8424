"""The lock on a session: one desk at a time has its journal."""

from __future__ import annotations

import contextlib
import fcntl
import os

from ..case import files
from ..case.model import Fault
from . import handover


def locked(journal: str) -> int:
    """The journal, opened and locked; a fault where another desk has it. What `desk carry` has made
    for it is put there first."""
    while True:
        file = _opened(journal)
        try:
            fcntl.flock(file, fcntl.LOCK_EX | fcntl.LOCK_NB)
            handover.finished(journal)
            if _is_there(file, journal):
                return file
        except BlockingIOError:
            os.close(file)
            raise Fault(f"{journal}: another desk works on it; end that one first") from None
        except BaseException:
            os.close(file)
            raise
        os.close(file)  # it was moved or removed in the meantime, and another one is there


def _opened(journal: str) -> int:
    """The journal, which is made where there is none, for writing where that may be."""
    try:
        return files.only_file(
            os.open(journal, os.O_RDWR | os.O_CREAT | os.O_NONBLOCK, 0o666), journal
        )
    except OSError as error:
        if isinstance(error, PermissionError):
            with contextlib.suppress(OSError):
                return files.only_file(os.open(journal, os.O_RDONLY | os.O_NONBLOCK), journal)
        raise Fault(f"{journal}: {error.strerror}") from None


def _is_there(file: int, path: str) -> bool:
    """Whether an open file is the one that has this name."""
    with contextlib.suppress(FileNotFoundError):
        return os.path.samestat(os.fstat(file), os.stat(path))
    return False


def given_back(lock: int, journal: str) -> None:
    """Gives back a lock, and removes a journal that was made for it alone."""
    if os.fstat(lock).st_size == 0 and _is_there(lock, journal):
        with contextlib.suppress(OSError):
            os.unlink(journal)
    os.close(lock)
