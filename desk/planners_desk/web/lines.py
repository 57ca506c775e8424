"""Answers in a line each, for pages."""

from __future__ import annotations

from collections.abc import Iterator

from ..sitting.answers import Given, given, may_go_back
from ..sitting.session import Session
from .sheets import Answers, Stopped
from .sittings import Owner, Step

A_PAGE = 200  # answers


def latest(session: Session, most: int, without: int = 0) -> Iterator[Given]:
    """The latest answers first, so many at most, without those that are later still."""
    last = len(session.answers) - 1 - without
    for place in range(last, max(last - most, -1), -1):
        yield given(session, place)


def chosen(session: Session, step: Step) -> bool:
    """Whether a step goes back to an answer that can be gone back to."""
    there = step.do == "back to" and 0 <= step.place < len(session.answers)
    return there and may_go_back(session, step.place)


def from_all(session: Session, owner: Owner) -> int | None:
    """Shows all answers; the place of one to go back to, or None."""
    first = 0
    while True:
        some = tuple(latest(session, A_PAGE, first))
        step = owner.put(Answers("All answers", some, len(session.answers), first, A_PAGE))
        if chosen(session, step):
            return step.place
        if step.do == "answers" and 0 <= step.place < len(session.answers):
            first = step.place
        elif step.do == "o":
            return None


def stopped(session: Session) -> Stopped:
    """What is said where the person stops."""
    count = len(session.answers)
    return Stopped("Stopped", (f"After {count} answer{'s' if count != 1 else ''}. All are kept.",))
