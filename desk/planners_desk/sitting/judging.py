"""Plans to judge after the last question, and what is behind one that is judged otherwise than the
rules judge it.

First come the rules that no accepted example has kept, in a plan that keeps them: where a word is
missing, the nearest one that the case has is learned so. Then come plans that the rules allow, far
from each other, and for each sentence a plan that breaks one of its rules alone.
"""

from __future__ import annotations

from collections.abc import Callable, Iterator, Sequence
from dataclasses import dataclass

from ..case.model import Question, Rule, Values
from ..case.picture import CLASH, KEPT
from ..hints import solver
from ..hints.along import Things
from ..hints.sentences import Sentence
from ..program.talk import Clock
from .answers import Given, given, may_go_back
from .session import Session

MOST_PLANS = 3
SECONDS_FOR_PLANS = 10.0  # that are looked for, all together
SECONDS_FOR_ONE = 5.0  # for a plan that breaks one rule of a sentence alone
MOST_TRIES = 4  # rules of one sentence of which a plan is looked for that breaks it alone
MOST_CLASHES = 3  # refused examples that are drawn where answers clash
STAYS = "What desk can't learn at all, as how often somebody works in a week, stays with you."


@dataclass(frozen=True)
class Plan:
    """A plan that is to be judged: whether the rules allow it, and else the rule that it breaks."""

    values: Values
    allowed: bool
    title: str
    marks: dict[int, str]
    rule: Rule | None

    @property
    def shows_rules(self) -> bool:
        """Whether it is there for rules that nobody has seen kept, which its marks show."""
        return self.allowed and bool(self.marks)

    def known_cells(self, most: int) -> Things | None:
        """The cells that are meant where it is judged otherwise, as far as that is known without
        asking: none where a rule refuses it. A group of the case has so many cells at most."""
        if not self.allowed:
            return ()
        return tuple(sorted(self.marks)) if 0 < len(self.marks) <= most else None

    def meant(self, cells: Things) -> Values:
        """The values of these cells; all where it isn't known which."""
        return {thing: self.values[thing] for thing in cells} if cells else self.values


def plans(
    session: Session, found: Sequence[Sentence], clock: Callable[[float], Clock]
) -> Iterator[Plan]:
    """The plans to judge, one after the other. The clocks that are made of seconds end the search
    for the next ones."""
    allowed = solver.far(
        session.program, session.vocabulary, session.journal, MOST_PLANS, clock(SECONDS_FOR_PLANS)
    )
    for said in found:
        if allowed and said.unseen:
            marks = {thing: KEPT for rule in said.unseen for thing in rule.things}
            yield Plan(allowed[0].values, True, said.text, marks, None)
    for number, plan in enumerate(allowed, 1):
        yield Plan(plan.values, True, f"Plan {number}{apart_text(plan)}", {}, None)
    for said in found:
        one = clock(SECONDS_FOR_ONE)
        one.doing("looking for a plan that breaks one rule alone")
        broken = broken_alone(session, said, found, clock=one)
        if broken is not None:
            yield Plan(broken.values, False, broken.rule.text, broken.marks, broken.rule)


def apart_text(plan: solver.Plan) -> str:
    """How far a plan is from those before."""
    if plan.apart is None:
        return ""
    places = len(plan.values)
    far = (
        f"all {places} places"
        if plan.apart == places
        else f"{plan.apart} of {places} places at least"
    )
    return f", which differs from each one before in {far}"


@dataclass(frozen=True)
class Broken:
    """A plan that breaks one rule of a sentence and no other rule."""

    values: Values
    rule: Rule

    @property
    def marks(self) -> dict[int, str]:
        """The cells that clash."""
        return {thing: CLASH for thing in self.rule.things}


def broken_alone(
    session: Session,
    sentence: Sentence,
    every: Sequence[Sentence],
    clauses: solver.Clauses | None = None,
    clock: Clock | None = None,
) -> Broken | None:
    """A plan that breaks a rule of this sentence alone; None where none is found in time."""
    if sentence.follows == "all":
        return None
    rules = [rule for other in every for rule in other.rules]
    for rule in sentence.rules[:MOST_TRIES]:
        others = [other for other in rules if other is not rule]
        values = solver.breaking(
            session.program, session.vocabulary, session.journal, rule, others, clauses, clock
        )
        if values is not None:
            return Broken(values, rule)
    return None


# ---- what is behind a judgement


def behind(session: Session, plan: Plan, values: Values) -> list[int]:
    """The answers behind a plan that is judged otherwise than the rules judge it, by these of its
    values."""
    places = [
        place
        for place in suspects_with(session, values, not plan.allowed)
        if may_go_back(session, place)
    ]
    if places or plan.rule is None:
        return places
    scopes = [scope for scope in session.vocabulary.scopes if set(plan.rule.things) <= set(scope)]
    return [
        place
        for place, answer in enumerate(session.answers)
        if not answer.yes
        and may_go_back(session, place)
        and plan.rule.violated(answer.question.values)
        and tuple(sorted(answer.question.values)) in scopes
    ]


def suspects_with(session: Session, values: Values, yes: bool) -> list[int]:
    """The answers of which one alone, turned round, lets rules agree with all others and with one
    more answer."""
    session.possible.take(values, yes)
    try:
        return [place for place in session.possible.suspects() if place < len(session.answers)]
    finally:
        session.possible.back()


def said_beforehand(session: Session, plan: Plan) -> bool:
    """Whether the rule that refuses it stands in the case."""
    rule = plan.rule
    return rule is not None and (rule.word.text, rule.things) in session.beforehand


def cells_text(session: Session, values: Values) -> str:
    """Cells by name: `Cy left 1 and Dürr left 2`."""
    return " and ".join(
        f"{session.case.things[thing].name} {session.case.label(value)}"
        for thing, value in sorted(values.items())
    )


def title_of(session: Session, plan: Plan, cells: Things) -> str:
    """What the person says of a plan, where the words can't say it."""
    if plan.rule is not None:
        shown = cells_text(session, {thing: plan.values[thing] for thing in plan.rule.things})
        return f"It isn't always so that {plan.rule.text}: a plan with {shown} is right."
    what = cells_text(session, plan.meant(cells)) if cells else plan.title
    return f"{what} (allowed, and wrong)"


# ---- answers that clash


@dataclass(frozen=True)
class Clash:
    """No rules agree with all answers."""

    count: int  # of the answers
    refused: tuple[Question, ...]  # that clash with what was accepted
    suspects: tuple[Given, ...]  # one of which alone, turned round, lets all others agree
    lifted: tuple[str, ...]  # words of which a right no may have ended it so


def clash(session: Session) -> Clash:
    """What clashes."""
    return Clash(
        len(session.answers),
        tuple(session.answers[place].question for place in clashing(session)),
        tuple(given(session, place) for place in session.possible.suspects()),
        tuple(lifted(session)),
    )


def clashing(session: Session) -> list[int]:
    """The places of the refused examples that clash with what was accepted, without those that
    hold another of them; a few at most."""
    places = session.possible.clash()
    items = {place: set(session.answers[place].question.values.items()) for place in places}
    smallest = [
        place for place in places if not any(items[other] < items[place] for other in places)
    ]
    return smallest[:MOST_CLASHES]


def lifted(session: Session) -> list[str]:
    """The words of which a right no to a part of a plan may have ended the session; none where one
    group is asked about at a time."""
    if session.plan == "scopes":
        return []
    return [f"`{word}`" for word in session.vocabulary.lifted]
