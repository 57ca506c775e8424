"""After the last question: plans that the rules allow, and for each sentence one that breaks it
alone, to be judged.

A plan that the rules allow and that is wrong can be pointed at, cell by cell. A plan that is judged
otherwise than the rules judge it leads to the answers behind it: those of which one alone, turned
round, lets rules agree with all other answers and with this judgement. Where there are none, the
words of the case can't say it, and a word is looked for that can.
"""

from __future__ import annotations

from collections.abc import Sequence
from dataclasses import dataclass, field

from ..case.picture import Picture
from ..hints.along import Things
from ..hints.sentences import Sentence
from ..program.talk import Clock
from ..sitting import judging, missing
from ..sitting.answers import given, listed
from ..sitting.judging import Plan
from ..sitting.session import Session
from . import point, ways
from .face import Face, Sheet, moving, patience
from .goback import chosen
from .letters import Letters

JUDGE = (("y", "yes, right"), ("n", "no"), ("q", "enough"))
BEFOREHAND = (
    "It stands in a line `always` of the case. If it isn't so, take it out there; `desk carry` "
    "takes your other answers over."
)
UNSAYABLE = (("o", "go on"), ("b", "look at the plan again"), ("q", "enough"))
SLIP = "If it is as you say, one of these answers was a slip, or your words can't say it:"
NONE = (("o", "none of these was wrong"), ("b", "look at the plan again"), ("q", "enough"))
MISSING = (
    "With a word that can say it in the case, `desk carry` takes your answers over, so that only "
    "what is new is asked. "
    + judging.STAYS
)


@dataclass
class Review:
    """What is judged, and what came of it."""

    session: Session
    sentences: Sequence[Sentence]
    face: Face
    unsayable: list[str] = field(default_factory=list)  # judgements that the words can't say

    def run(self) -> int | None:
        """Shows one plan after the other; the place of an answer to go back to, or None."""
        self.face.wait("looking for plans that these rules allow ..")
        told = moving(self.face)
        for plan in judging.plans(self.session, self.sentences, lambda most: Clock(most, told)):
            done, place = self._judged(plan)
            if done or place is not None:
                return place
        return None

    def _judged(self, plan: Plan) -> tuple[bool, int | None]:
        """Has one plan judged: whether that was enough, and the place of an answer to go back
        to."""
        while True:
            key = self.face.put(sheet(self.session, plan))
            if key == "y":
                return False, None
            if key == "q":
                return True, None
            key, place = self._otherwise(plan)
            if key == "b":
                continue
            return key == "q", place

    def _otherwise(self, plan: Plan) -> tuple[str, int | None]:
        """What can be done about a plan that the person judges otherwise: the key, and the place to
        go back to."""
        key, cells = self._cells(plan)
        if key != "o":
            return key, None
        values = plan.meant(cells)
        places = judging.behind(self.session, plan, values)
        if places:
            some = listed((given(self.session, place) for place in places), cut=True)
            letters = Letters(some.targets, NONE)
            key, place = chosen(self.session, self.face, letters, SLIP, (some,))
            if key != "o":
                return key, place
        if judging.said_beforehand(self.session, plan):
            told = f"{plan.title}. " + BEFOREHAND
            return (
                self.face.put(Sheet("You said this rule beforehand", (told,), keys=UNSAYABLE)),
                None,
            )
        with patience(self.face, "looking for a word that can say it .."):
            search = missing.lacking(self.session, values, not plan.allowed)
        lines = (*ways.lacking(self.session, search), "", judging.STAYS)
        key = self.face.put(Sheet("Your words can't say this", lines, keys=UNSAYABLE))
        if key != "b":
            self.unsayable.append(judging.title_of(self.session, plan, cells))
        return key, None

    def _cells(self, plan: Plan) -> tuple[str, Things]:
        """The cells of an allowed plan that are wrong, none where it isn't known or where a rule
        says it; and the key."""
        known = plan.known_cells(max(self.session.vocabulary.arities))
        return (
            ("o", known) if known is not None else point.cells(self.session, self.face, plan.values)
        )


def sheet(session: Session, plan: Plan) -> Sheet:
    """How a plan is put to the person."""
    picture = Picture(session.case, plan.values, plan.marks)
    if plan.shows_rules:
        head = "No plan that you accepted has shown this rule yet:"
        return Sheet(
            head,
            (f"{plan.title}.", picture),
            keys=JUDGE,
            whole=frozenset("y"),
            under=("Here it is kept (marked +). Is that right?",),
        )
    if plan.allowed:
        return Sheet(
            f"{plan.title}. The rules allow it.",
            (picture,),
            under=("Is this right?",),
            keys=JUDGE,
            whole=frozenset("y"),
        )
    head = "The rules refuse this plan, for one reason alone (marked !):"
    return Sheet(
        head, (f"{plan.title}.", picture), under=("Is it right that it is refused?",), keys=JUDGE
    )
