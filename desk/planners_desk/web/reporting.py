"""The report in a browser: the page that `desk report` writes, to be printed and to be saved."""

from __future__ import annotations

from ..case.model import Ending
from ..program.talk import Clock
from ..report import page
from ..sitting.session import Session
from . import sheets
from .sittings import Ended, Owner

BUSY = "putting the report together"


def clock(owner: Owner, seconds: float) -> Clock:
    """A clock that shows how much of its time is over, and whose work the person may do without."""
    made = Clock(seconds, lambda text: owner.busy(text, 1 - made.left / seconds, True))
    return made


def shown(session: Session, ending: Ending, owner: Owner) -> None:
    """Puts the report together and shows it until the person leaves it."""
    owner.busy(BUSY)
    name = session.case.path.rpartition("/")[2].removesuffix(".case")
    try:
        certificate = page.certified(session, ending, f"{name}.certificate")
        content = page.content(session, ending, certificate, lambda seconds: clock(owner, seconds))
    except Ended:
        return
    whole = page.whole(session.case.title, content).encode()
    owner.put(
        sheets.Report(
            session.case.title,
            content,
            whole,
            certificate.content if certificate else None,
            ending.word == "suspended",
        )
    )
