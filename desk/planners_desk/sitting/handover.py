"""How `desk carry` puts a new session in the place of an old one, so that whatever breaks it off
leaves one of the two whole.

The new session is made in a folder of its own beside the old one, `.ward.making`. When both its
files are whole and on the disk, that folder is renamed to `.ward.carried`. Before this one step the
old session counts, and from it on the new one: what is left, to move the two files to their names,
is done again by the next desk that opens the session, wherever it broke off. Who calls anything
here holds the lock of the session's journal.
"""

from __future__ import annotations

import contextlib
import os
import shutil

from ..case import files
from ..case.files import kept_of


def _folder(journal: str, what: str) -> str:
    """The folder beside a journal for a session that is to take its place."""
    folder, name = os.path.split(journal)
    return os.path.join(folder, f".{name.removesuffix('.journal')}.{what}")


def begun(journal: str) -> str:
    """Makes the folder for the new session; the name that its journal has there. What an earlier
    try left is removed."""
    given_up(journal)
    folder = _folder(journal, "making")
    with files.told(folder):
        os.mkdir(folder)
    return os.path.join(folder, os.path.basename(journal))


def given_up(journal: str) -> None:
    """Removes a new session that doesn't count yet."""
    folder = _folder(journal, "making")
    with files.told(folder), contextlib.suppress(FileNotFoundError):
        shutil.rmtree(folder)


def counts(journal: str) -> None:
    """Lets the new session count, which is whole; `finished` puts it in its place."""
    folder = _folder(journal, "making")
    with files.told(journal):
        files.sync_folder(os.path.join(folder, os.path.basename(journal)))
        os.rename(folder, _folder(journal, "carried"))
        files.sync_folder(journal)


def finished(journal: str) -> None:
    """Puts a new session that counts in its place, where there is one.

    The journal comes last, since the lock lies on the old one until then. Another desk that comes
    behind it may be doing the same, so that what it has moved isn't to be found any more.
    """
    folder = _folder(journal, "carried")
    if not os.path.isdir(folder):
        return
    with files.told(journal):
        for place in (kept_of(journal), journal):
            with contextlib.suppress(FileNotFoundError):
                os.replace(os.path.join(folder, os.path.basename(place)), place)
        files.sync_folder(journal)
        with contextlib.suppress(FileNotFoundError):
            os.rmdir(folder)
