"""The questions of one sitting, apart from how they are shown: what is asked, what has happened
since the last question, and what the person can do.

Either a question waits (`question`), or the run has ended (`ending`). Each call goes on to the next
of them, which may take a while. A face shows what `asked` gives; no text here names a key or a
button.
"""

from __future__ import annotations

from dataclasses import dataclass

from ..case.model import Ending, Question, Values
from ..case.picture import CHANGED, LEFT_OUT, Picture
from . import answers
from .answers import Few
from .session import Session, Sitting

YOURS = (
    "Question {number} had been answered for you from what you have just answered otherwise, so it "
    "is yours to answer now. Your later answers count again where they decide a question."
)
TAKEN_BACK = "Your {yes_no} to question {number} is taken back"
AGAIN = "Your later answers count again where they decide a question."
NONE_OF_YOURS = "There is no answer of yours to take back."
ONLY_GIVEN = (
    "There is no answer of yours to take back; those that were given for you stand among all "
    "answers."
)
NOTHING = Few((), False)


@dataclass(frozen=True)
class Asked:
    """A question as a face shows it, and what has come of the answers before it."""

    number: int
    title: str  # of the case
    is_part: bool  # of the question before
    picture: Picture
    changed: bool  # whether something is marked as changed
    left_out: int  # how many of the last question's things have no value now
    notes: tuple[str, ...]
    taught: Few  # by the last answers


class Asking:
    """One sitting, question by question."""

    def __init__(self, session: Session, sitting: Sitting) -> None:
        """In front of the first question; `start` finds it."""
        self.session, self.sitting = session, sitting
        self.before: Question | None = None  # the last question that the person answered
        self.notes: list[str] = []  # what has happened since then
        self.taught = NOTHING  # by the last answer
        self._told: set[str] = set()  # what answers have taught since the last step back

    # ---- what there is

    @property
    def question(self) -> Question | None:
        """What is asked."""
        return self.sitting.question

    @property
    def ending(self) -> Ending | None:
        """How the run has ended, where nothing is asked."""
        return self.sitting.ending

    def asked(self) -> Asked:
        """The question, with marks at what has changed since the last one."""
        due, case = self._due(), self.session.case
        found = marks(due.values, self.before)
        return Asked(
            due.number,
            case.title,
            due.part_of(self.before),
            Picture(case, due.values, found),
            CHANGED in found.values(),
            sum(mark == LEFT_OUT for mark in found.values()),
            tuple(self.notes),
            self.taught,
        )

    def at_stake(self) -> Few:
        """Why this is asked: the rules of which a yes says that none is needed."""
        return answers.at_stake(self.session, self._due())

    # ---- what can be done

    def start(self, back_to: int | None = None) -> None:
        """On to the first question. Where a rule said beforehand contradicts an answer, that one
        is taken back before, by its place."""
        count = len(self.session.answers)
        if back_to is not None:
            self.back_to(back_to)
        elif count:
            said = f"{count} answer{'s' if count != 1 else ''}"
            self.notes = [f"It goes on where it was, after {said}."]
        self._advance()

    def answer(self, yes: bool) -> None:
        """The person's answer, and on to the next question."""
        self.before, self.notes = self._due(), []
        since = len(self.session.answers)
        self.sitting.answer(yes)
        if self.sitting.question is not None:
            self.before = None
            self.notes = [YOURS.format(number=self.sitting.question.number)]
        self._advance()
        self.taught = answers.taught(self.session, since, self._told)

    def back(self) -> bool:
        """Takes the person's last answer back, whose question waits then; False where they have
        given none."""
        place = answers.last_own(self.session)
        if place is None:
            self.notes = [ONLY_GIVEN if self.session.answers else NONE_OF_YOURS]
            return False
        self._back(place, "; here it comes again.")
        return True

    def back_to(self, place: int) -> None:
        """Takes the answer at a place back, also after the end; its question waits then. What was
        said after it is used again where it decides."""
        self._back(place, f". {AGAIN}")

    def stop(self) -> None:
        """Ends the sitting; all answers are kept."""
        self.sitting.stop()

    # ---- how

    def _due(self) -> Question:
        """The question that waits."""
        assert self.sitting.question is not None
        return self.sitting.question

    def _back(self, place: int, then: str) -> None:
        """Takes an answer back, and says so."""
        answer = self.session.answers[place]
        self.sitting.back_to(place)
        self.before, self.taught, self._told = None, NOTHING, set()
        taken = TAKEN_BACK.format(yes_no=answers.yes_no(answer.yes), number=answer.question.number)
        self.notes = [taken + then]

    def _advance(self) -> None:
        """On to what the person has to answer."""
        self.sitting.advance()
        given = answers.given_text(self.sitting.given)
        if given:
            self.notes.append(given)


def marks(values: Values, before: Question | None) -> dict[int, str]:
    """What differs from the last question: other values, and places that are empty now. Where the
    two have no place in common there is nothing to compare, and where all places are new as
    well."""
    if before is None or not set(values) & set(before.values):
        return {}
    changed = {
        thing: CHANGED for thing, value in values.items() if before.values.get(thing) != value
    }
    return changed | {thing: LEFT_OUT for thing in before.values if thing not in values}
