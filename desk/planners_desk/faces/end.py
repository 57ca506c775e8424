"""How a session ends: a clash of answers, or rules."""

from __future__ import annotations

from ..case.model import Ending
from ..case.picture import Picture
from ..hints import solver
from ..hints.along import and_list
from ..hints.sentences import Sentence, grouped
from ..sitting import judging, missing
from ..sitting.answers import last_own, listed, odd_ones, open_lines
from ..sitting.session import Session, said_by
from . import views, ways
from .face import Face, Sheet, patience
from .goback import chosen, sure
from .letters import Letters, Listed
from .review import MISSING, Review

ALL_SAID = "Nothing is left that your words can say and your answers don't decide. "
LOOK = "What your words can't say wasn't asked: so look at some plans now."
NO_SOLVER = (
    "What your words can't say wasn't asked. For plans to look at, install a SAT solver: cadical, "
    "minisat or clasp."
)
LIFTED = (
    "It may also be that no answer was wrong: {words} {speak} of fewer things than are asked about "
    "together, and in plan {plan} a right no to a part of a plan can then end so. In plan scopes "
    "it can't: `desk ask --plan scopes` in a new session."
)
ONE_SLIP = "If one answer alone was the slip, it is one of these; turned round, all others agree:"
MORE_SLIPS = (
    "No single answer explains it: more than one was a slip, or a word is missing. Go back with b, "
    "one by one."
)
LAST = (("b", "back to the last answer"), ("s", "all answers"), ("q", "stop"))


def shown(session: Session, ending: Ending, face: Face) -> int | None:
    """Shows an ending; the place of an answer to go back to, or None where the sitting is over."""
    if ending.word == "collapsed":
        return Collapse(session, face).run()
    if ending.word == "converged":
        return converged(session, ending, face)
    if ending.word == "undecided":
        face.put(Sheet("Some rules couldn't be settled", tuple(undecided_lines(session, ending))))
    return None


# ---------------------------------------------------------------- answers that clash


class Collapse:
    """No rules agree with all answers: which of them clash, and going back to one."""

    def __init__(self, session: Session, face: Face) -> None:
        self.session, self.face = session, face
        self.clash = judging.clash(session)
        self.suspects = listed(self.clash.suspects)
        self.letters = Letters(self.suspects.targets, LAST)
        with patience(face, "looking for a word that would explain the answers .."):
            self.lacking = ways.lacking(session, missing.lacking(session))

    def run(self) -> int | None:
        """The place of the answer to go back to, or None."""
        blocks = self.blocks()
        while True:
            key, place = chosen(self.session, self.face, self.letters, "Your answers clash", blocks)
            if key == "q":
                return None
            if key == "s":
                place = views.answers(self.session, self.face)
            elif key == "b":
                place = self._last()
            if place is not None:
                return place

    def blocks(self) -> list[Listed]:
        """The clash and the suspects."""
        clash = self.clash
        blocks: list[Listed] = [
            f"No rules that your words can say agree with all {clash.count} answers. One was a "
            "slip, or a word is missing."
        ]
        for question in clash.refused:
            blocks += [
                "",
                (
                    f"You said no to question {question.number}, and what you accepted leaves no "
                    "rule that refuses it:"
                ),
                Picture(self.session.case, question.values),
            ]
        if clash.suspects:
            blocks += ["", ONE_SLIP, self.suspects]
        else:
            blocks += ["", MORE_SLIPS]
        if clash.lifted:
            speak = "speaks" if len(clash.lifted) == 1 else "speak"
            words, plan = and_list(clash.lifted), self.session.plan
            blocks += ["", LIFTED.format(words=words, speak=speak, plan=plan)]
        lacking = "If no answer was a slip, a word is missing. " + self.lacking[0]
        return [*blocks, "", lacking, *self.lacking[1:]]

    def _last(self) -> int | None:
        """The person's last answer, where they want to go back to it."""
        place = last_own(self.session)
        return place if place is not None and sure(self.session, self.face, place) else None


# ---------------------------------------------------------------- rules


def converged(session: Session, ending: Ending, face: Face) -> int | None:
    """The rules, and plans to judge."""
    found = grouped(session.vocabulary, ending.learned, session.reduced(), session.answers)
    head = f"Done after {ending.answers} answer{'s' if ending.answers != 1 else ''}"
    can = solver.name() is not None
    odd = odd_ones(session, ending.learned)
    keys = (("g", "go on to plans"),) * can + (("q", "stop"),)
    letters = Letters(views.odd_targets(odd), keys)
    then = ALL_SAID + (LOOK if can else NO_SOLVER)
    blocks = (*rule_lines(found), *views.odd_blocks(odd), "", then)
    key, place = chosen(session, face, letters, head, blocks)
    if key == "q" or place is not None:
        return place
    review = Review(session, found, face)
    place = review.run()
    if place is None and review.unsayable:
        lines = tuple(f"- {title}" for title in dict.fromkeys(review.unsayable))
        face.put(Sheet("What your words can't say", lines + ("", MISSING)))
    return place


def rule_lines(found: list[Sentence]) -> list[str]:
    """The rules in sentences."""
    return [f"- {sentence.whole}" for sentence in found] or [
        "No rule is needed: everything is allowed."
    ]


def undecided_lines(session: Session, ending: Ending) -> list[str]:
    """What was learned, and what isn't settled."""
    lines = rule_lines(grouped(session.vocabulary, ending.learned))
    lines += [
        "",
        (
            "Not settled, since the search took too long; all else that is possible follows from "
            "the rules above:"
        ),
    ]
    return (
        lines
        + [f"- {text}" for text in open_lines(session, ending.open)]
        + ["", "`desk ask --budget 10000000` looks for longer."]
    )


def print_last(session: Session, ending: Ending | None, rules: bool = True) -> None:
    """What stays in the terminal after the sitting; the rules only where they don't stand there
    already."""
    case = session.case
    if ending is None or ending.word == "suspended":
        count = len(session.answers)
        print(
            f"Stopped after {count} answer{'s' if count != 1 else ''}. All are kept; `desk ask "
            f"{case.path}` goes on from here."
        )
    elif ending.word == "converged" and rules:
        print(f"{case.title}: the rules after {ending.answers} answers")
        print(
            "\n".join(
                rule_lines(
                    grouped(session.vocabulary, ending.learned, session.reduced(), session.answers)
                )
            )
        )
        print(f"`desk report {case.path} FILE.html` writes them on a page.")
    elif ending.word == "collapsed":
        print(f"The answers clash. `desk ask {case.path}` shows which, and goes back to one.")
    elif ending.word == "undecided" and rules:
        print("\n".join(undecided_lines(session, ending)))
    elif ending.word in ("refused", "failed"):
        print(said_by(session.journal, ending.status, ending.text))
        print(
            f"{len(session.answers)} answers stand; each one after which another question came is "
            "among them."
        )
