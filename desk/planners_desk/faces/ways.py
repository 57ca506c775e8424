"""Which command of the terminal does what a fault or a sheet leads to."""

from __future__ import annotations

import shlex

from ..case.model import Fault, Way
from ..sitting import missing
from ..sitting.session import Session

COMMANDS = {
    Way.ASK: ": `desk ask {path}`",
    Way.CARRY: ": `desk carry {path}`",
    Way.WORDS: "; `desk words` lists all",
}


def behind(way: Way | None, path: str) -> str:
    """What stands behind a text that names no command."""
    return COMMANDS[way].format(path=shlex.quote(path)) if way is not None else ""


def lines(fault: Fault) -> list[str]:
    """The lines of a fault, each with its command."""
    return [text + behind(way, fault.path) for text, way in zip(fault.texts, fault.ways)]


def lacking(session: Session, search: missing.Search) -> list[str]:
    """What a search for a word says."""
    told = missing.told(session, search)
    if search.words:
        told[-1] += behind(Way.CARRY, session.case.path)
    return told
