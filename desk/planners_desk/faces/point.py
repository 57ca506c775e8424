"""Pointing at what is wrong in a plan: the cells that don't go together, by letters."""

from __future__ import annotations

from ..case.model import Values
from ..hints.along import Things
from ..sitting.items import Pointed
from ..sitting.session import Session
from .face import Face
from .letters import Letters

KEYS = (("o", "that is all"), ("b", "look at the plan again"), ("q", "enough"))
HOW = (
    "Press the letters of the cells that don't go together (mostly two), then o; o alone where you "
    "can't say which."
)


def cells(session: Session, face: Face, values: Values) -> tuple[str, Things]:
    """The cells that the person points at, rising, and the key that ended it; no more than a group
    of the case has."""
    most = max(session.vocabulary.arities)
    letters = Letters(Pointed(session.case, values).targets, KEYS)
    found: frozenset[int] = frozenset()
    while len(found) < most:
        plan = Pointed(session.case, values, found)
        key = letters.put(face, "Which cells are wrong together?", (plan,), (HOW,))
        if isinstance(key, str):
            return key, tuple(sorted(found))
        found ^= {key.place}
    return "o", tuple(sorted(found))
