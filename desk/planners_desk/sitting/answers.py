"""Answers and what they have taught, in words that name no key and no button."""

from __future__ import annotations

import itertools
from collections import Counter
from collections.abc import Iterable, Sequence
from dataclasses import dataclass

from ..case.model import Answer, Constraint, Fault, Question, Rule, Way
from ..case.picture import Picture, sentence
from ..hints import patterns
from ..hints.along import and_list
from .items import Item, Kind, Some, Target
from .session import Session

MOST_RULES = 8  # of the rules that a yes rules out
MOST_TAUGHT = 3  # of the rules that an answer has taught
MOST_VALUES = 6  # of an answer in a line, where it is shown whole elsewhere
BY = {
    "always": "said beforehand",
    "carried": "from the earlier session",
    "again": "said before you went back",
}


def yes_no(yes: bool) -> str:
    """How an answer is called."""
    return "yes" if yes else "no"


def given_text(given: Sequence[Answer]) -> str:
    """How many answers were given for the person since the last question, and why."""
    counts = Counter((answer.said.by, answer.yes) for answer in given if answer.said)
    said = [f"{count} {yes_no(yes)} ({BY[by]})" for (by, yes), count in counts.items()]
    if not said:
        return ""
    one = f": {given[0].said.why}" if len(given) == 1 and given[0].said else ""
    return f"Answered for you: {', '.join(said)}{one}."


@dataclass(frozen=True)
class Given:
    """An answer that stands, in a line."""

    number: int  # of its question
    yes: bool
    shown: str  # what was asked about
    why: str  # where it was given for the person
    place: int | None  # to go back to; None where the case itself gives it

    @property
    def text(self) -> str:
        """The whole line."""
        why = f" ({self.why})" if self.why else ""
        return f"{self.number}. {yes_no(self.yes)}: {self.shown}{why}"

    @property
    def item(self) -> Item:
        """It, to be chosen where it can be gone back to."""
        return Item(self.text, None if self.place is None else Target(Kind.ANSWER, self.place))


def given(session: Session, place: int, most: int | None = MOST_VALUES) -> Given:
    """The answer at a place, with so many values at most."""
    answer = session.answers[place]
    values = answer.question.values
    some = dict(sorted(values.items())[:most])
    left = len(values) - len(some)
    return Given(
        answer.question.number,
        answer.yes,
        sentence(Picture(session.case, some)) + (f" and {left} more" if left else ""),
        f"{BY[answer.said.by]}: {answer.said.why}" if answer.said else "",
        place if may_go_back(session, place) else None,
    )


def listed(some: Iterable[Given], inset: bool = False, cut: bool = False) -> Some:
    """Answers below each other, to choose from."""
    return Some(tuple(one.item for one in some), inset, cut)


def may_go_back(session: Session, place: int) -> bool:
    """Whether an answer isn't one that the case itself gives."""
    said = session.answers[place].said
    return said is None or said.by != "always"


def last_own(session: Session) -> int | None:
    """The place of the person's last answer; None where they have given none."""
    places = (place for place, answer in enumerate(session.answers) if answer.said is None)
    return max(places, default=None)


@dataclass(frozen=True)
class Few:
    """A few rules, as sentences, and whether there are more."""

    texts: tuple[str, ...]
    more: bool


def few(texts: Sequence[str], most: int) -> Few:
    """So many of them at most."""
    return Few(tuple(texts[:most]), len(texts) > most)


def taught(session: Session, since: int, told: set[str]) -> Few:
    """What the answers from a place on have taught; it is where a word that is missing shows
    first. What was told isn't told again, and this is added to it: two groups may have one rule
    about a thing in both."""
    new = dict.fromkeys(rule.text for rule in session.taught(since) if rule.text not in told)
    texts = list(itertools.islice(new, MOST_TAUGHT + 1))
    told.update(new)
    return few(texts, MOST_TAUGHT)


def at_stake(session: Session, question: Question) -> Few:
    """The rules of which a yes says that none is needed."""
    rules = session.possible.at_stake(question.values, MOST_RULES + 1)
    return few([rule.text for rule in rules], MOST_RULES)


def behind(session: Session, some: Sequence[Rule]) -> list[int]:
    """The answers about just those groups that hold the things of some rules, by their places."""
    things = {tuple(sorted(rule.things)) for rule in some}
    scopes = set(session.vocabulary.scopes)
    found = []
    for place, answer in enumerate(session.answers):
        asked = tuple(sorted(answer.question.values))
        if asked in scopes and any(
            part in things
            for size in range(1, len(asked) + 1)
            for part in itertools.combinations(asked, size)
        ):
            found.append(place)
    return found


@dataclass(frozen=True)
class Odd:
    """A group whose rules aren't those of its like, and the answers behind it."""

    text: str
    behind: tuple[Given, ...]


def odd_ones(session: Session, learned: Sequence[Constraint]) -> tuple[Odd, ...]:
    """The odd ones out among the groups on which all is settled."""
    names = [thing.name for thing in session.case.things]
    found = patterns.odd(session.vocabulary, learned, session.answers, session.possible.open)
    return tuple(
        Odd(one.text(names), tuple(given(session, place) for place in one.behind)) for one in found
    )


def open_lines(session: Session, constraints: Sequence[Constraint]) -> list[str]:
    """Constraints that aren't settled, in sentences."""
    words = session.vocabulary
    return [
        and_list([rule.text for rule in words.claims(constraint)] or [constraint.line])
        for constraint in constraints
    ]


def contradicted(session: Session) -> Fault:
    """The first answer that a line `always` contradicts, which was added later."""
    place, rule = session.against()[0]
    question, path = session.answers[place].question, session.case.path
    shown = Picture(session.case, {thing: question.values[thing] for thing in sorted(rule.things)})
    return Fault(
        (
            f"{path}: a line `always` says that {rule.text}, and your yes to question "
            f"{question.number} ({sentence(shown)}) says otherwise. If the answer is right, take "
            "the line out, and the session goes on as it was; else go back to that answer"
        ),
        ways=[Way.ASK],
        path=path,
    )
