"""What a sitting's thread does: it opens the session of a case, and asks."""

from __future__ import annotations

from ..case import casefile
from ..hints import trials
from ..program.talk import Program
from ..sitting.asking import Asking
from ..sitting.session import Session
from .questions import Questions
from .reporting import clock
from .sheets import Sheet
from .sittings import Owner


def sitting(path: str, owner: Owner, program: Program, budget: int | None) -> Sheet:
    """The whole sitting of a case; the last sheet."""
    owner.busy("opening the session; for a new one the best way of asking is looked for")
    seconds = clock(owner, trials.SECONDS_AT_FIRST)
    with Session.opened(
        casefile.read(path), program, budget=budget, clock=seconds
    ) as session, session.sit() as asked:
        return Questions(Asking(session, asked), owner).run()
