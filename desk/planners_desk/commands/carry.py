"""`desk carry`: a case has changed, and what was answered before counts on as far as it decides.

Each question of the new session that the old answers decide is answered from them: a part of an
accepted one is accepted, and what holds a refused one is refused. Of an accepted one that names
what the new case lacks the rest counts; a refused one is left out then. Carried over is what a
person said. What an `always` line answered isn't: where that line stands in the new case it answers
there as well, and where it doesn't its answers have no reason any more. What old answers answered
isn't either, since these are carried over themselves.
"""

from __future__ import annotations

import argparse
import contextlib
import os
import shutil
from collections.abc import Callable, Iterator, Sequence

from ..case import casefile, files
from ..case.files import journal_of, kept_of
from ..case.model import Case, Fault
from ..case.picture import Picture, sentence
from ..hints.foreseen import CARRIED, Foreseen
from ..program.talk import Program
from ..program.vocabulary import Vocabulary
from ..sitting import handover
from ..sitting.kept import Kept, Named, case_in, head_of, named, old_answers, read_kept
from ..sitting.lock import given_back, locked
from ..sitting.session import Session, said_by
from . import streams

FOUND = (
    "converged",
    "collapsed",
    "undecided",
    "suspended",
)  # how a run ends that nothing broke off


def main(old: str, new: str | None, options: argparse.Namespace) -> int:
    """Carries answers over, and says what came of it; the exit status."""
    program = Program.found(options.acquire)
    case = casefile.read(new or old)
    streams.can_show(case)
    told = carried(old, case, program, options.budget)
    print("\n".join(told) + f" Go on with: desk ask {case.path}")
    return 0


def carried(old: str, case: Case, program: Program, budget: int | None) -> list[str]:
    """Carries the answers of a session over to a case; what came of it, in lines."""
    Vocabulary(case)  # a new case that the program can't take is refused before anything is made
    journal = journal_of(case.path)
    to_itself = os.path.realpath(journal) == os.path.realpath(journal_of(old))
    with contextlib.ExitStack() as locks:
        before, plan = locks.enter_context(answered(old, program))
        if not to_itself:
            locks.enter_context(free(journal, case.path))

        def make(made: str) -> list[str]:
            return begun(case, program, made, plan, budget, before)

        told = replaced(journal, to_itself, make)
    return told


@contextlib.contextmanager
def held(journal: str) -> Iterator[None]:
    """Nobody else is in front of a session meanwhile."""
    lock = locked(journal)
    try:
        yield
    finally:
        given_back(lock, journal)


@contextlib.contextmanager
def answered(path: str, program: Program) -> Iterator[tuple[list[Named], str]]:
    """A session that is there, held: what the person said in it, and its plan."""
    journal = journal_of(path)
    none = Fault(f"{path} has no session whose answers could be carried over")
    if not os.path.exists(journal):
        raise none
    with held(journal):
        head = head_of(journal)
        if head is None:
            raise none
        yield answers_of(path, program), head[0]


@contextlib.contextmanager
def free(journal: str, path: str) -> Iterator[None]:
    """A place for a new session, held; a fault where one is there."""
    with held(journal):
        if os.path.getsize(journal):
            raise Fault(
                f"{path} has a session already; `desk carry` begins a new one, so put {journal} "
                f"and {kept_of(journal)} aside first"
            )
        yield


# ---------------------------------------------------------------- what a person said


def answers_of(path: str, program: Program) -> list[Named]:
    """What the person said in a session, and what it had carried over itself, by names."""
    journal = journal_of(path)
    kept = read_kept(journal)
    if kept is None:
        raise Fault(
            f"{kept_of(journal)} isn't there, so it isn't known what the answers of {journal} "
            "are about"
        )
    words = words_of(journal, kept)
    foreseen = Foreseen(words.case, old_answers(words.case, kept["before"]))
    reply = program.call([journal, "show"])
    if reply.status:
        raise Fault(said_by(journal, reply.status, reply.text))
    found = [
        named(words.case, dict(one.values), one.yes, CARRIED)
        for one in foreseen.before
        if one.yes or foreseen.violated(dict(one.values)) is None
    ]
    for question, yes in filter(None, map(words.answered, reply.lines)):
        known = foreseen.answer(question.values)
        if known is None or known.yes != yes:
            found.append(named(words.case, question.values, yes, CARRIED))
    return list({repr(one): one for one in found}.values())


def words_of(journal: str, kept: Kept) -> Vocabulary:
    """A session's case in the program's terms; a fault where it isn't what the journal has."""
    head = head_of(journal)
    words = Vocabulary(case_in(journal, kept))
    if head is None or head[1] != words.json.encode():
        raise Fault(
            f"{kept_of(journal)} isn't about {journal}, or another desk made them: put back a copy "
            f"of both. `acquire {journal} show` prints the answers"
        )
    return words


# ---------------------------------------------------------------- the new session


def replaced(journal: str, to_itself: bool, make: Callable[[str], list[str]]) -> list[str]:
    """Makes a new session and puts it in its place, an old one aside; what came of it, in lines."""
    aside: list[str] = []
    try:
        told = make(handover.begun(journal))
        if to_itself:
            put_aside(journal, aside)
        handover.counts(journal)
    except BaseException as error:
        # what broke it off is told, and not that something is left of it
        with contextlib.suppress(Fault):
            handover.given_up(journal)
        for copy in aside:
            with contextlib.suppress(OSError):
                os.unlink(copy)
        if isinstance(error, Fault):
            raise Fault(f"{error}. Nothing was changed") from None
        raise
    try:
        handover.finished(journal)
    except Fault as fault:
        raise Fault(
            f"{fault}. The new session is whole, and the next desk that opens it puts it in its "
            "place"
        ) from None
    return [*(f"The session so far is kept in {copy}." for copy in aside[-1:]), *told]


def put_aside(journal: str, made: list[str]) -> None:
    """Copies a session under the next free number, the journal last, so that none is without
    what desk keeps beside it."""
    stem, number = journal.removesuffix(".journal"), 1
    while any(os.path.lexists(f"{stem}.{number}{end}") for end in (".session", ".journal")):
        number += 1
    for end in (".session", ".journal"):
        with files.told(stem + end), open(stem + end, "rb") as file:
            content = file.read()
        copy = f"{stem}.{number}{end}"
        files.write(copy, content)
        made.append(copy)
        shutil.copymode(stem + end, copy)


def begun(
    case: Case,
    program: Program,
    journal: str,
    plan: str,
    budget: int | None,
    before: Sequence[Named],
) -> list[str]:
    """Begins the new session, with the old answers; what came of it, in lines."""
    with (
        Session.opened(
            case, program, None if case.plan else plan, budget, before=before, journal=journal
        ) as session,
        session.sit() as sitting,
    ):
        sitting.advance()
        sitting.stop()
        ending = sitting.ending
        if ending is None or ending.word not in FOUND:
            raise Fault(
                said_by(journal, ending.status if ending else 0, ending.text if ending else "")
            )
        return [" ".join(taken_over(session, before)), came_of(session, ending.word)]


def taken_over(session: Session, before: Sequence[Named]) -> Iterator[str]:
    """How many of the old answers say something in the new case, and why the others don't."""
    there = session.foreseen.before
    against = session.foreseen.contradicted()
    yield f"{answers_text(len(there) - len(against))} carried over."
    if len(there) < len(before):
        left = answers_text(len(before) - len(there))
        yield f"{left} left out, about things or values that aren't there any more."
    if against:
        one, rule = against[0]
        yield (
            f"{answers_text(len(against))} left out as long as the case says otherwise beforehand: "
            f"you accepted {sentence(Picture(session.case, dict(one.values)))}, "
            f"and by a line `always` {rule.text}."
        )


def answers_text(count: int) -> str:
    """So many answers, as the subject of a sentence."""
    return f"{count} answer was" if count == 1 else f"{count} answers were"


def came_of(session: Session, ended: str) -> str:
    """How far the new session is."""
    given = len(session.answers)
    left = (
        "and now your answers clash"
        if ended == "collapsed"
        else f"at most {session.possible.most} are left"
    )
    return (
        f"{given} question{'s were' if given != 1 else ' was'} answered for you from them and from "
        f"your `always` lines, {left}."
    )
