"""The questions of a sitting in a browser: what each page shows, and what its buttons do.

A page shows more at once than a terminal: the rules so far, the answers, each with a way back to
it, and why the question is asked.
"""

from __future__ import annotations

from collections.abc import Iterable

from ..case.model import Constraint, Ending
from ..case.picture import CLASH
from ..hints import sentences
from ..sitting.asking import Asking
from ..sitting.session import Session
from . import reporting, sheets
from .judging import Judging
from .lines import chosen, from_all, latest, stopped
from .sheets import Rule, Sheet, Shown
from .sittings import Owner
from .tables import sentence_of, table_of

MOST_ANSWERS = 40  # beside a question


class Questions:
    """The pages of one sitting."""

    def __init__(self, asking: Asking, owner: Owner) -> None:
        self.asking, self.session, self.owner = asking, asking.session, owner
        self._rules = RulesSoFar(asking.session)

    def run(self) -> Sheet:
        """Asks until the person stops or all is said; the last sheet."""
        first: int | None = None
        if self.session.against():
            first = self._against()
            if first is None:
                return stopped(self.session)
        self.asking.start(first)
        while True:
            while self.asking.question is not None:
                if not self._one():
                    return stopped(self.session)
            ending = self.asking.ending
            assert ending is not None
            place = Judging(self.session, self.owner).end(ending)
            if isinstance(place, Sheet):
                return place
            self.asking.back_to(place)

    def _against(self) -> int | None:
        """Shows the first answer that a line of the case contradicts; its place where the person
        goes back to it, with which all later ones are looked at anew."""
        (place, rule), *more = self.session.against()
        question = self.session.answers[place].question
        marks = {thing: CLASH for thing in rule.things}
        shown = Shown(rule.text, table_of(self.session.case, question.values, marks))
        head = f"Your case contradicts your answer to question {question.number}"
        step = self.owner.put(sheets.Against(head, shown, len(more), place))
        return place if step.do == "back to" else None

    def _one(self) -> bool:
        """Puts one question; whether the sitting goes on."""
        step = self.owner.put(self.sheet())
        if step.do in ("y", "n"):
            self.asking.answer(step.do == "y")
        elif step.do == "b":
            self.asking.back()
        elif chosen(self.session, step):
            self.asking.back_to(step.place)
        elif step.do == "answers":
            place = from_all(self.session, self.owner)
            if place is not None:
                self.asking.back_to(place)
        elif step.do == "report":
            ending = Ending("suspended", len(self.session.answers))
            reporting.shown(self.session, ending, self.owner)
        elif step.do == "q":
            self.asking.stop()
            return False
        return True

    def sheet(self) -> sheets.Question:
        """The question as it is shown."""
        session, case, possible = self.session, self.session.case, self.session.possible
        asked = self.asking.asked()
        values = asked.picture.values
        part = " (a part of the one before)" if asked.is_part else ""
        return sheets.Question(
            f"{asked.title}: question {asked.number}{part}",
            asked.number,
            table_of(case, values, asked.picture.marks),
            sentence_of(case, values),
            asked.picture.part,
            asked.changed,
            asked.left_out,
            asked.notes,
            asked.taught,
            self.asking.at_stake(),
            self._rules.shown(asked.taught.texts),
            tuple(latest(session, MOST_ANSWERS)),
            len(session.answers),
            possible.finished,
            len(session.vocabulary.scopes),
            possible.most,
        )


class RulesSoFar:
    """The rules that are settled, in sentences, put together anew only where they have changed."""

    def __init__(self, session: Session) -> None:
        self._session = session
        self._settled: list[tuple[tuple[int, ...], int]] = []
        self._sentences: list[sentences.Sentence] = []

    def learned(self) -> list[Constraint]:
        """The constraints that are settled, as the program would show them."""
        words = self._session.vocabulary
        return [
            words.constraint(" ".join(words.item(things, table))) for things, table in self._settled
        ]

    def shown(self, taught: Iterable[str]) -> tuple[Rule, ...]:
        """The sentences, those marked that the last answers have taught."""
        settled = list(self._session.possible.said())
        if settled != self._settled:
            self._settled = settled
            self._sentences = sentences.grouped(self._session.vocabulary, self.learned())
        new = set(taught)
        return tuple(
            Rule(one.text, any(rule.text in new for rule in one.rules)) for one in self._sentences
        )
