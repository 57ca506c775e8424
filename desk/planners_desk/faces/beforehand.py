"""A line `always` that was added to a running session and contradicts an answer: it is told
before anything else is asked."""

from __future__ import annotations

from ..case.picture import CLASH, Picture
from ..sitting.session import Session
from .face import Face, Sheet

KEYS = (("b", "go back to this answer"), ("q", "stop"))
BACK = (
    "If the line is right, go back to this answer: desk then says no to it for you, and your later "
    "answers count again where they decide."
)
OUT = (
    "If your answer is right, stop, and take the line out of the case, or narrow it; the session "
    "then goes on as it was."
)


def way_out(session: Session, face: Face) -> int | None:
    """Shows the first contradiction; the place of its answer where the person wants to go back
    to it."""
    against = session.against()
    place, rule = against[0]
    question = session.answers[place].question
    more = (
        (f"{len(against) - 1} more of your answers say otherwise as well.",)
        if len(against) > 1
        else ()
    )
    sheet = Sheet(
        f"Your case contradicts your answer to question {question.number}",
        (
            (
                "You said yes to this, and a line `always` of the case now says that "
                f"{rule.text} (marked !):"
            ),
            Picture(session.case, question.values, {thing: CLASH for thing in rule.things}),
            *more,
            BACK,
            OUT,
        ),
        keys=KEYS,
    )
    return place if face.put(sheet) == "b" else None
