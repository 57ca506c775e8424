"""Going back to an answer of a sheet, where the person is sure."""

from __future__ import annotations

from collections.abc import Iterable

from ..case.picture import Picture
from ..sitting.answers import yes_no
from ..sitting.session import Session
from .face import Face, Sheet
from .letters import Letters, Listed


def chosen(
    session: Session, face: Face, letters: Letters, head: str, blocks: Iterable[Listed]
) -> tuple[str, int | None]:
    """Shows a sheet of answers until one of them is gone back to, whose place it gives, or until
    one of the other keys is pressed."""
    blocks = tuple(blocks)
    while True:
        key = letters.put(face, head, blocks)
        if isinstance(key, str):
            return key, None
        if sure(session, face, key.place):
            return "", key.place


def sure(session: Session, face: Face, place: int) -> bool:
    """Shows an answer, and asks whether to go back to it."""
    answer = session.answers[place]
    later = len(session.answers) - place - 1
    text = f"You said {yes_no(answer.yes)}. To go back takes this answer back"
    if later:
        text += (
            f" and the {later} after it; these count again where they decide a question, so that it"
            " isn't put twice"
        )
    sheet = Sheet(
        f"Go back to question {answer.question.number}?",
        (Picture(session.case, answer.question.values),),
        under=(text + ".",),
        keys=(("y", "go back to it"), ("n", "don't")),
    )
    return face.put(sheet) == "y"
