"""A case's session: the journal of the program, what desk keeps beside it, and a sitting in front
of it.

The journal is made, read and written by the program alone; `kept.py` has what desk keeps beside it.
"""

from __future__ import annotations

import itertools
import os
import re
import shlex
from collections.abc import Iterator, Sequence
from dataclasses import dataclass

from ..case import casefile
from ..case.files import journal_of
from ..case.model import Answer, Case, Constraint, Ending, Fault, Question, Rule, Values, Way
from ..hints import trials
from ..hints.foreseen import AGAIN, ALWAYS, Foreseen, Old, old
from ..hints.possible import Possible
from ..program import talk, vocabulary
from ..program.talk import Clock, Program, Reply, Run, is_question, something_else
from .kept import Named, case_in, changed, head_of, old_answers, read_kept, write_kept
from .lock import given_back, locked

FIRST_GATE = 8  # the place in a journal behind which its vocabulary stands


def no_session(case: Case) -> Fault:
    """A fault where there is no session yet."""
    return Fault(
        f"{case.path} has no session yet; it begins with the first question",
        ways=[Way.ASK],
        path=case.path,
    )


class Session:
    """The session of a case, held by a lock; a context manager."""

    def __init__(
        self,
        words: vocabulary.Vocabulary,
        program: Program,
        journal: str,
        lock: int,
        budget: int | None,
        clock: Clock | None,
    ) -> None:
        """Made by `opened` alone."""
        self.vocabulary = words
        self.case, self.program, self.journal = self.vocabulary.case, program, journal
        self._lock, self.budget, self._clock = lock, budget, clock
        self.plan = ""
        self.foreseen = Foreseen(self.case)
        self.beforehand = frozenset((rule.word.text, rule.things) for rule in self.case.always)
        # on scopes, by these rules together
        self._accepted_beforehand: dict[tuple[int, ...], int] | None = None
        self.answers: list[Answer] = []
        self.possible: Possible

    @classmethod
    def opened(
        cls,
        case: Case,
        program: Program,
        plan: str | None = None,
        budget: int | None = None,
        make: bool = True,
        before: Sequence[Named] = (),
        clock: Clock | None = None,
        journal: str | None = None,
    ) -> Session:
        """Opens a case's session; a fault where that can't be.

        It is made where there is none and `make` says so, with old answers by names that may answer
        for the person. Where no plan is named, the clock says how long one may be looked for. Its
        journal lies beside the case where no other is named.
        """
        journal = journal or journal_of(case.path)
        if not make and not os.path.exists(journal):
            raise no_session(case)
        words = vocabulary.build(case)
        session = cls(words, program, journal, locked(journal), budget, clock)
        try:
            session.foreseen.before = old_answers(session.case, before)
            session._begin(plan, make)
        except BaseException:
            session.close()
            raise
        return session

    def __enter__(self) -> Session:
        return self

    def __exit__(self, *_: object) -> None:
        self.close()

    def close(self) -> None:
        """Gives the lock back."""
        if self._lock >= 0:
            given_back(self._lock, self.journal)
            self._lock = -1

    def _begin(self, plan: str | None, make: bool) -> None:
        """Makes the session or goes on with it."""
        head = head_of(self.journal)
        if head is None and os.fstat(self._lock).st_size > 9:
            self.plan = "?"
            self.reload()  # the program says what is wrong with the file
        if head is None:
            if not make:
                raise no_session(self.case)
            self._make(plan)
            began = self.case.text
        else:
            began = self._go_on(head, plan)
        self.reload()
        if began != self.case.text and not self.against():
            self.keep()

    def _make(self, plan: str | None) -> None:
        """A new session."""
        if plan is None and self.case.plan is None:
            plan = trials.advised(
                self.vocabulary, self.program, self._clock or Clock(trials.SECONDS_AT_FIRST)
            )
        self.plan = plan or self.case.plan or "scopes"
        write_kept(self.journal, self.case, self.foreseen.before)
        reply = self.program.call(
            [self.journal, "new", "--plan", self.plan], self.vocabulary.json.encode()
        )
        if reply.status:
            raise Fault(said_by(self.journal, reply.status, reply.text))

    def _go_on(self, head: tuple[str, bytes], plan: str | None) -> str:
        """A session that is there, where it is one of this case; the text for which it stands."""
        self.plan, text = head
        kept = read_kept(self.journal)
        difference = None
        if kept is not None:
            difference = changed(
                case_in(self.journal, kept), casefile.parse(self.case.text, self.case.path)
            )
        if difference is None and text != self.vocabulary.json.encode():
            difference = "it is said to the program in another way"
        if difference is not None:
            self._shown()  # a file that is damaged isn't a case that has changed
            raise Fault(
                (
                    f"{self.case.path} has changed since its session began: {difference}. Take the "
                    "change back, or take the answers over into a new session"
                ),
                ways=[Way.CARRY],
                path=self.case.path,
            )
        wanted = plan or self.case.plan
        if wanted and wanted != self.plan:
            raise Fault(
                f"the session of {self.case.path} has plan {self.plan}, which stays as long as it "
                "goes on"
            )
        self.foreseen = Foreseen(self.case, old_answers(self.case, kept["before"] if kept else []))
        return kept["case"] if kept else ""

    def against(self) -> list[tuple[int, Rule]]:
        """The places of accepted examples that a rule said beforehand contradicts, which then came
        later, each with the rule.

        As long as there is one, the session stands for the text without that rule, so that its line
        may be taken out again.
        """
        broken = (
            (place, self.foreseen.violated(answer.question.values))
            for place, answer in enumerate(self.answers)
            if answer.yes
        )
        return [(place, rule) for place, rule in broken if rule is not None]

    def keep(self) -> None:
        """Puts down what desk keeps."""
        write_kept(self.journal, self.case, self.foreseen.before)

    def _shown(self) -> list[str]:
        """What `show` prints; a fault where it refuses the file."""
        reply = self.program.call([self.journal, "show"])
        if reply.status:
            raise Fault(said_by(self.journal, reply.status, reply.text))
        return reply.lines

    def reload(self) -> None:
        """The answers that stand, as the program shows them."""
        lines = self._shown()
        self.answers = []
        self.possible = Possible(self.vocabulary, self.plan)
        for said in map(self.vocabulary.answered, lines):
            if said is not None:
                self.added(*said)
        if f"answers {len(self.answers)}" not in lines:
            raise something_else(f"{len(self.answers)} answers without their count")

    def added(self, question: Question, yes: bool, by_person: bool = False) -> Answer:
        """An answer that stands now. Where it isn't known who gave it, it counts as given for the
        person if it is foreseen."""
        said = None if by_person else self.foreseen.answer(question.values)
        answer = Answer(question, yes, said if said is not None and said.yes == yes else None)
        self.answers.append(answer)
        self.possible.take(question.values, yes)
        return answer

    def taken_back(self) -> Answer:
        """The last answer stands no more."""
        self.possible.back()
        return self.answers.pop()

    def contradicted(self, values: Values, yes: bool) -> bool:
        """Drops the old answers that a new one contradicts; whether there were some."""
        dropped = self.foreseen.forget(values, yes)
        if dropped:
            self.keep()
        return dropped

    def trusted(self, some: Sequence[Old]) -> None:
        """Takes old answers back in, which the person's new one bears out."""
        if some:
            self.foreseen.remember(some)
            self.keep()

    def groundless(self) -> int | None:
        """The place of the first answer that was given for the person and wouldn't be now; None
        where there is none."""
        for place, answer in enumerate(self.answers):
            if answer.said is not None and answer.said.by != ALWAYS:
                said = self.foreseen.answer(answer.question.values)
                if said is None or said.yes != answer.yes:
                    return place
        return None

    def taught(self, since: int) -> Iterator[Rule]:
        """The rules that were settled by a no from a place on, without those that were said
        beforehand; answers that were given again teach nothing new."""
        if self._accepted_beforehand is None:
            self._accepted_beforehand = self.vocabulary.together(self.case.always)
        places = [
            since + place
            for place, answer in enumerate(self.answers[since:])
            if answer.said is None or answer.said.by != AGAIN
        ]
        for scope, table in self.possible.taught(places):
            if table != self._accepted_beforehand.get(scope):
                yield from (
                    rule
                    for rule in self.vocabulary.fewest(scope, table)
                    if (rule.word.text, rule.things) not in self.beforehand
                )

    def learned(self) -> list[Constraint]:
        """The constraints that are learned so far, as the program shows them."""
        lines = self.program.call([self.journal, "show"]).lines
        start = next(
            (k for k, line in enumerate(lines) if re.fullmatch(r"learned \d+", line)), len(lines)
        )
        return [
            self.vocabulary.constraint(line)
            for line in lines[start + 1 :]
            if not line.startswith("state ")
        ]

    def reduced(self) -> list[Constraint] | None:
        """Those of them from which the others follow; None where the search for that is too
        long."""
        reply = self.program.call([self.journal, "reduce", *self.budget_words()])
        return (
            None if reply.status else [self.vocabulary.constraint(line) for line in reply.lines[1:]]
        )

    def budget_words(self) -> list[str]:
        """The option for the program."""
        return [] if self.budget is None else ["--budget", str(self.budget)]

    def state(self) -> Ending:
        """Where the session stands; `suspended` where a question is open."""
        reply = self.program.call([self.journal, "run", *self.budget_words()])
        return ending_of(self.vocabulary, reply.lines, reply.status)

    def sit(self) -> Sitting:
        """A sitting in front of it."""
        return Sitting(self)

    def run(self) -> Run:
        """The program over the journal, waiting for answers."""
        return Run(self.program, [self.journal, "run", *self.budget_words()], self._lock)


@dataclass(frozen=True)
class Aside:
    """What a step back has put aside so that its question waits."""

    yes: bool  # how it was answered
    reasons: list[Old]  # the old answers that would answer it
    mine: list[Old]  # the person's own answer to it, if it was theirs

    @property
    def every(self) -> list[Old]:
        """All of it, for one more step back."""
        return self.mine + self.reasons


class Sitting:
    """A person in front of a session; a context manager. Either a question waits, or it has
    ended."""

    def __init__(self, session: Session) -> None:
        """Starts the program; `advance` then finds the first question."""
        self.session = session
        self.question: Question | None = None
        self.ending: Ending | None = None
        self.given: list[Answer] = []
        self._aside: Aside | None = None  # while the question of a step back waits
        self._run: Run | None = session.run()

    def __enter__(self) -> Sitting:
        return self

    def __exit__(self, *_: object) -> None:
        self.close()

    def advance(self) -> None:
        """Goes on until the person is needed or the run has ended. What is foreseen is answered,
        and stands in `given`."""
        self.given = []
        if self.question is None:
            self._next()
        while self.question is not None:
            assert self._run is not None
            said = self.session.foreseen.answer(self.question.values)
            if said is None:
                return
            self._run.say("yes" if said.yes else "no")
            self.given.append(self.session.added(self.question, said.yes))
            self._aside = None
            self._next()

    def _next(self) -> bool:
        """Reads the next question; False where the run has ended instead."""
        if self._run is None:
            return False
        line = self._run.line()
        self.question = self.session.vocabulary.asked(line)
        if self.question is not None:
            return True
        self._ended([line] if line else [])
        return False

    def _ended(self, lines: list[str]) -> None:
        """Reads how the run has ended, and ends the program."""
        assert self._run is not None
        self.question = None
        lines = lines + self._run.rest()
        status = self._run.close()
        self._run = None
        self.ending = ending_of(self.session.vocabulary, lines, status)
        if self.ending.word == "failed":
            self.session.reload()

    def answer(self, yes: bool) -> None:
        """The person's answer to the question; `advance` goes on.

        Where it takes their reason from answers that were given for them, the first of these is
        gone back to, and its question waits then.
        """
        assert self.question is not None and self._run is not None
        aside, self._aside = self._aside, None
        dropped = self.session.contradicted(self.question.values, yes)
        if aside is not None and aside.yes == yes:
            self.session.trusted(aside.reasons)
        elif aside is not None:
            dropped = dropped or bool(aside.reasons)
        self._run.say("yes" if yes else "no")
        self.session.added(self.question, yes, by_person=True)
        self.question = None
        place = self.session.groundless() if dropped else None
        if place is not None:
            self.back_to(place)

    def back(self) -> bool:
        """Takes back the person's last answer and what was given for them behind it; False where
        they have answered nothing.

        The question that comes again waits then. Several steps in a row are one step to the answer
        at which they end: what the person said later counts again where it decides.
        """
        own = [place for place, answer in enumerate(self.session.answers) if answer.said is None]
        if not own:
            return False
        self.back_to(own[-1])
        return True

    def back_to(self, place: int) -> None:
        """Takes back the answers from a place on, also after the end. Its question waits then.

        The person's later ones are remembered first, and given again where they decide.
        """
        session = self.session
        chosen = session.answers[place]
        mine, *later = [
            (
                [old(answer.question.values, answer.yes, AGAIN)]
                if answer.said is None or answer.said.by == AGAIN
                else []
            )
            for answer in session.answers[place:]
        ]
        session.foreseen.remember(
            [*itertools.chain(*later), *(self._aside.every if self._aside else ())]
        )
        before = list(session.foreseen.before)
        # neither an old answer nor a later one is to decide the question that the person wants to
        # see again
        session.foreseen.forget(chosen.question.values, not chosen.yes)
        session.keep()
        self._aside = Aside(
            chosen.yes, [one for one in before if one not in session.foreseen.before], mine
        )
        self._take_back(len(session.answers) - place)

    def _take_back(self, count: int) -> None:
        """Takes so many answers back, by the run where one waits, else by calls."""
        if self._run is None or self.question is None:
            self._restart(count)
            return
        for _ in range(count):
            self._run.say("back")
            if not self._next():
                return
            self.session.taken_back()

    def _restart(self, count: int) -> None:
        """Takes answers back by calls, and starts the program again."""
        self.close()
        for _ in range(count):
            reply = self.session.program.call([self.session.journal, "back"])
            if reply.status:
                raise Fault(said_by(self.session.journal, reply.status, reply.text))
            self.session.taken_back()
        self.ending, self._run = None, self.session.run()
        self._next()

    def stop(self) -> None:
        """The person stops; all answers are kept."""
        if self._run is not None:
            self._ended([])

    def close(self) -> None:
        """Leaves no process behind."""
        if self._run is not None:
            self._run.close()
            self._run = None


def ending_of(words: vocabulary.Vocabulary, printed: Sequence[str], status: int) -> Ending:
    """How a run has ended, from its closing lines; questions before them don't count."""
    lines = [line for line in printed if not is_question(line.split(" ", 1)[0])]
    head = lines[0].split() if lines else []
    if (
        len(head) == 2
        and head[0] in ("converged", "collapsed", "undecided", "suspended")
        and head[1].isdecimal()
    ):
        learned = tuple(
            words.constraint(line) for line in lines[1:] if not line.startswith("open ")
        )
        left = tuple(
            words.constraint(line.removeprefix("open "))
            for line in lines[1:]
            if line.startswith("open ")
        )
        return Ending(head[0], int(head[1]), learned, left, status)
    return Ending(
        "refused" if head[:1] == ["refused"] else "failed", 0, status=status, text="\n".join(lines)
    )


def said_by(journal: str, status: int, text: str) -> str:
    """What the program said, for people."""
    if status < 0:
        return f"{journal}: acquire was ended by signal {-status}; the answers are kept"
    said = talk.said(Reply(status, text))
    return f"{journal}: acquire says: {said}{_remedy(journal, said)}"


def _remedy(journal: str, said: str) -> str:
    """What can be done about a journal that the program refuses."""
    damaged = re.fullmatch(r"refused journal damaged (\d+)", said)
    if damaged is None:
        return (
            ". Put back a copy of the file, or move it away"
            if said.startswith("refused journal ")
            else ""
        )
    place, file = int(damaged[1]), shlex.quote(journal)
    told = f". From byte {place} on it was changed or cut off: put back a copy of the file"
    if place <= FIRST_GATE:
        return told
    # a byte of 0 behind the records is a gate that is closed: a journal may end there
    return (
        told
        + f"; without one, `cp {file} {file}.damaged; truncate -s {place} {file}; truncate -s"
        f" {place + 1} {file}` keeps the answers before that place"
    )
