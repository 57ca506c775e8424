"""The end of a sitting in a browser: answers that clash, or rules, plans to judge, the report."""

from __future__ import annotations

from collections.abc import Iterator, Sequence

from ..case.model import Ending, Fault, Values
from ..case.picture import CHOSEN
from ..hints import solver
from ..hints.along import Things, and_list
from ..hints.sentences import Sentence, grouped
from ..sitting import judging, missing
from ..sitting.answers import Odd, behind, given, last_own, odd_ones, open_lines
from ..sitting.judging import Plan
from ..sitting.session import Session, said_by
from . import reporting, sheets
from .lines import chosen, from_all, stopped
from .sheets import Rule, Sheet
from .sittings import Ended, Owner, Step
from .tables import table_of

MOST_ANSWERS = 40
LIFTED = (
    "It may also be that no answer was wrong: {words} {speak} of fewer things than are asked about "
    "together, and where whole plans are asked about first, a right no to a part of one can then "
    "end so. Where one group is asked about at a time it can't: choose that way of asking in the "
    "case, for a new session."
)
LOOKING = "looking for a word that would explain the answers"


class Judging:
    """What comes after the last question."""

    def __init__(self, session: Session, owner: Owner) -> None:
        self.session, self.owner = session, owner
        self._unsayable: dict[str, None] = {}  # judgements that the words can't say, each once
        self._judged = False

    def end(self, ending: Ending) -> int | Sheet:
        """Shows how it has ended: the place of an answer to go back to, or the last sheet."""
        if ending.word == "collapsed":
            return self._clash(ending)
        if ending.word == "converged":
            return self._done(ending)
        if ending.word == "undecided":
            return self._undecided(ending)
        raise Fault(said_by(self.session.journal, ending.status, ending.text))

    # ---- answers that clash

    def _clash(self, ending: Ending) -> int | Sheet:
        """Which answers clash."""
        self.owner.busy(LOOKING)
        search = missing.lacking(self.session)
        sheet = self._clashing(search)
        while True:
            step = self.owner.put(sheet)
            if chosen(self.session, step):
                return step.place
            if step.do == "b" and (last := last_own(self.session)) is not None:
                return last
            if step.do == "q":
                return stopped(self.session)
            if step.do == "report":
                reporting.shown(self.session, ending, self.owner)
            if step.do == "answers" and (place := from_all(self.session, self.owner)) is not None:
                return place

    def _clashing(self, search: missing.Search) -> sheets.Clash:
        """The clash, the suspects, and the words that would explain it."""
        clash, case = judging.clash(self.session), self.session.case
        shown = (
            sheets.Shown(str(question.number), table_of(case, question.values))
            for question in clash.refused
        )
        speak = "speaks" if len(clash.lifted) == 1 else "speak"
        said = LIFTED.format(words=and_list(clash.lifted), speak=speak) if clash.lifted else ""
        return sheets.Clash(
            "Your answers clash",
            clash.count,
            tuple(shown),
            clash.suspects,
            said,
            self._lacking(search),
            search.words,
        )

    def _lacking(self, search: missing.Search) -> tuple[str, ...]:
        """What a search for a word says, but for the words, which the page shows."""
        told = missing.told(self.session, search)
        return tuple(told if not search.words else told[:-1])

    # ---- rules

    def _done(self, ending: Ending) -> int | Sheet:
        """The rules, and what can be done with them."""
        self.owner.busy("putting the rules into sentences")
        session = self.session
        found = grouped(session.vocabulary, ending.learned, session.reduced(), session.answers)
        odd = odd_ones(session, ending.learned)
        while True:
            step = self.owner.put(self._rules(ending, found, odd))
            if chosen(self.session, step):
                return step.place
            if step.do == "q":
                return stopped(session)
            if step.do == "report":
                reporting.shown(session, ending, self.owner)
            if step.do == "answers" and (place := from_all(session, self.owner)) is not None:
                return place
            if step.do == "plans" and (place := self._plans(found)) is not None:
                return place

    def _rules(
        self, ending: Ending, found: Sequence[Sentence], odd: Sequence[Odd]
    ) -> sheets.Done:
        """The sheet of the rules."""
        count = ending.answers
        return sheets.Done(
            f"Done after {count} answer{'s' if count != 1 else ''}",
            tuple(self._rule(said) for said in found),
            tuple(odd),
            solver.name() is not None,
            tuple(self._unsayable),
            self._judged,
        )

    def _rule(self, said: Sentence) -> Rule:
        """A sentence, and the answers behind it."""
        places = behind(self.session, said.rules)
        return Rule(
            said.text,
            False,
            said.whole.removeprefix(said.text).strip(),
            tuple(given(self.session, place) for place in places[:MOST_ANSWERS]),
        )

    def _undecided(self, ending: Ending) -> Sheet:
        """What was learned, and what isn't settled."""
        found = grouped(self.session.vocabulary, ending.learned)
        left = tuple(open_lines(self.session, ending.open))
        while True:
            step = self.owner.put(
                sheets.Undecided(
                    "Some rules couldn't be settled", tuple(Rule(said.text) for said in found), left
                )
            )
            if step.do != "report":
                return stopped(self.session)
            reporting.shown(self.session, ending, self.owner)

    # ---- plans to judge

    def _plans(self, found: Sequence[Sentence]) -> int | None:
        """Has plans judged, one after the other; the place of an answer to go back to, or None."""
        try:
            for shown in judging.plans(
                self.session, found, lambda most: reporting.clock(self.owner, most)
            ):
                done, place = self._one(shown)
                if done or place is not None:
                    return place
        except Ended:
            pass
        self._judged = True
        return None

    def _one(self, shown: Plan) -> tuple[bool, int | None]:
        """Has one plan judged: whether that was enough, and the place of an answer to go back
        to."""
        while True:
            do = self.owner.put(self._judge(shown)).do
            if do == "y":
                return False, None
            if do == "n":
                do, place = self._otherwise(shown)
                if place is not None:
                    return True, place
            if do == "o":
                return False, None
            if do == "q":
                return True, None

    def _judge(self, shown: Plan) -> sheets.Judge:
        """How a plan is put to the person."""
        table = table_of(self.session.case, shown.values, shown.marks)
        if shown.allowed and shown.marks:
            return sheets.Judge(
                "No plan that you accepted has shown this rule yet",
                f"{shown.title}.",
                table,
                "Here it is kept, in the marked cells. Is that right?",
                True,
            )
        if shown.allowed:
            return sheets.Judge(
                f"{shown.title}. The rules allow it.", "", table, "Is this right?", True
            )
        return sheets.Judge(
            "The rules refuse this plan, for one reason alone",
            f"{shown.title}, which the marked cells break.",
            table,
            "Is it right that it is refused?",
            False,
        )

    def _otherwise(self, shown: Plan) -> tuple[str, int | None]:
        """What can be done about a plan that the person judges otherwise: what they do, and the
        place to go back to."""
        do, cells = self._cells(shown)
        if do != "o":
            return do, None
        session = self.session
        values = shown.meant(cells)
        if places := judging.behind(session, shown, values):
            marks = {thing: CHOSEN for thing in cells} or shown.marks
            table = table_of(session.case, shown.values, marks)
            step = self.owner.put(
                sheets.Behind(
                    "Which answer was a slip?",
                    table,
                    tuple(given(session, place) for place in places),
                )
            )
            if chosen(self.session, step):
                return "back to", step.place
            if step.do != "o":
                return step.do, None
        if judging.said_beforehand(session, shown):
            said = (
                "It stands in the case among what you know beforehand. If it isn't so, take it out "
                "there; your other answers are taken over."
            )
            return (
                self.owner.put(
                    sheets.Unsayable("You said this rule beforehand", (f"{shown.title}.", said))
                ).do,
                None,
            )
        return self._missing(shown, values, cells), None

    def _cells(self, shown: Plan) -> tuple[str, Things]:
        """The cells of an allowed plan that are wrong, none where it isn't known or a rule says it;
        and what the person does."""
        most = max(self.session.vocabulary.arities)
        known = shown.known_cells(most)
        if known is not None:
            return "o", known
        step = self.owner.put(
            sheets.Point(
                "Which cells don't go together?", table_of(self.session.case, shown.values), most
            )
        )
        return step.do, tuple(sorted(set(step.things) & set(shown.values)))[:most]

    def _missing(self, shown: Plan, values: Values, cells: Things) -> str:
        """Looks for a word that can say what is wrong; what the person does."""
        self.owner.busy(LOOKING)
        search = missing.lacking(self.session, values, not shown.allowed)
        do = self.owner.put(
            sheets.Unsayable(
                "Your words can't say this",
                (*self._lacking(search), judging.STAYS),
                search.words,
                " - ".join(self.session.case.things[thing].name for thing in search.things),
            )
        ).do
        if do != "b":
            self._unsayable[judging.title_of(self.session, shown, cells)] = None
        return do
