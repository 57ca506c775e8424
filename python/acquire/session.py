"""A session with the program: questions, answers, and what they have taught."""

from __future__ import annotations

import contextlib
import os
import re
import tempfile
from collections.abc import Callable, Iterator, Mapping, Sequence
from dataclasses import dataclass, field
from types import TracebackType
from typing import Any

from . import solver as solvers
from .faults import JournalRefused, NotFinished, ProgramEnded, Refusal, SystemFault, TimeOver, Unexpected, VocabularyRefused
from .process import Deadline
from .program import Program, Reply, Run
from .vocabulary import Constraint, Vocabulary

PLANS = ("quacq", "multi", "scopes")
# A journal begins with its magic and an open gate; then come the kind, the length, the plan and the vocabulary.
_MAGIC = b"QUACQJ1\n\x01S"
_PLAN_BYTES = {1: "scopes", 2: "quacq", 3: "multi"}

Assignment = Mapping[str, int]
Oracle = Callable[[dict[str, int]], bool]


@dataclass(frozen=True)
class Question:
    """A partial assignment that is asked about: do its values break no rule by themselves?

    number: one more than the answers that stand.
    shown: the value of each variable that has one, by name, in the order of the vocabulary.
    is_complete: whether all variables have a value.
    """

    number: int
    shown: dict[str, int] = field(hash=False)
    is_complete: bool


@dataclass(frozen=True)
class Answer:
    """A question and whether the answer was yes."""

    question: Question
    yes: bool


@dataclass(frozen=True)
class Converged:
    """Nothing is left to ask: each network of the vocabulary that agrees with the answers has the solutions of `learned`.

    answers: how many answers stand.
    learned: the constraints, in the order in which they were learned.
    """

    answers: int
    learned: tuple[Constraint, ...]


@dataclass(frozen=True)
class Collapsed:
    """No network of the vocabulary agrees with the answers. One of them was a slip, or they follow a rule that no relation says.

    answers: how many answers stand.
    """

    answers: int


@dataclass(frozen=True)
class Undecided:
    """Under this budget no question was found, and it isn't known whether there is one. A larger budget goes on from here.

    answers: how many answers stand.
    learned: the constraints, in the order in which they were learned.
    open: the constraints for which the search was cut off; whether they follow from the learned ones isn't known.
    """

    answers: int
    learned: tuple[Constraint, ...]
    open: tuple[Constraint, ...]


@dataclass(frozen=True)
class Suspended:
    """The run was stopped while a question was open. Over a journal the next `Session` goes on there.

    answers: how many answers stand.
    """

    answers: int


@dataclass(frozen=True)
class Full:
    """A question is due, but the journal has 1,000,000 records and takes no more. Only with many take-backs does one get there."""


Ending = Converged | Collapsed | Undecided | Suspended | Full


class Session:
    """A session with the program, in memory or over a journal.

    Either a question is open (`question`) or the session has ended (`ending`). `answer`, `back` and `stop` say what a person says;
    `run` has a function answer until the end. Use it as a context manager, or call `close`: the program waits until then.

    `vocabulary` is the `Vocabulary` that it is about, also where the journal gave it; `plan` is its
    plan.

    Over a journal each answer is on the disk before the next question comes, and a session that is begun over a journal with
    answers goes on behind them. It isn't for several threads at a time.
    """

    def __init__(self, vocabulary: Vocabulary | Mapping[str, Any] | str | bytes | None = None, *, plan: str | None = None,
                 journal: str | os.PathLike[str] | None = None, budget: int | None = None,
                 program: Program | str | os.PathLike[str] | None = None, patience: float | None = None) -> None:
        """Starts the program, and waits for the first question.

        vocabulary: the object that `docs/formats.md` describes, its JSON text, or a `Vocabulary`. Where the journal has a session it
            may be left out, and otherwise has to describe the same.
        plan: how questions are chosen: `quacq`, which is the default, `multi` or `scopes`. A journal keeps the plan it was made with.
        journal: the file that keeps the answers; it is made where there is none. Without one nothing is kept.
        budget: how many steps the search for a question may take on each candidate, 1 to 1,000,000,000; else it is 100,000.
        program: a `Program` or its path; else `Program.found` says where it is looked for.
        patience: how many seconds each question, and each other call, may take; else they are waited for. Where they are over, the
            program is killed, the session is at its end, and `TimeOver` is raised; over a journal a new `Session` goes on.

        Raises `ValueError` where there is no such plan or budget, or neither vocabulary nor journal
        is named; `VocabularyRefused`; `JournalRefused`, also where the journal has another
        vocabulary or plan; `ProgramMissing`, `ProgramEnded` and `SystemFault`.
        """
        if plan is not None and plan not in PLANS:
            raise ValueError(f"{plan!r} is no plan: {', '.join(PLANS)}")
        if budget is not None and not 1 <= budget <= 1_000_000_000:
            raise ValueError(f"a budget is 1 to 1,000,000,000, and not {budget}")
        self.program = program if isinstance(program, Program) else Program.found(program)
        self.journal = None if journal is None else os.fspath(journal)
        self._budget = [] if budget is None else [f"--budget={budget}"]
        self._patience = patience
        self._answers: list[Answer] = []
        self._run: Run | None = None
        self._question: Question | None = None
        self._ending: Ending | None = None
        given = vocabulary if vocabulary is None or isinstance(vocabulary, Vocabulary) else Vocabulary(vocabulary)
        if self.journal is None:
            self._begin_in_memory(given, plan)
        else:
            self._begin_over(self.journal, given, plan)
        self._next()

    # ---- what there is

    @property
    def question(self) -> Question | None:
        """The question that is open; None once the session has ended."""
        return self._question

    @property
    def ending(self) -> Ending | None:
        """How it ended; None while a question is open."""
        return self._ending

    @property
    def answers(self) -> tuple[Answer, ...]:
        """The answers that stand, also those of earlier runs over the journal."""
        return tuple(self._answers)

    @property
    def learned(self) -> tuple[Constraint, ...]:
        """The constraints that the answers have taught so far, in the order of learning.

        While a question is open the program is called once more to tell them.
        """
        if isinstance(self._ending, Converged | Undecided):
            return self._ending.learned
        with self._over_journal() as journal:
            lines = self._called("show", journal).lines
        at = next(i for i, line in enumerate(lines) if re.fullmatch(r"learned \d+", line))
        return tuple(map(self.vocabulary.constraint, lines[at + 1 : at + 1 + int(lines[at].split()[1])]))

    # ---- what is said

    def answer(self, yes: bool) -> Question | None:
        """Answers the open question, and gives the next one, or None where the session has ended by that.

        Raises `NotFinished` where no question is open, and `SystemFault` or `ProgramEnded` where the answer may be lost.
        """
        question = self._due()
        self._say("yes" if yes else "no")
        self._answers.append(Answer(question, bool(yes)))
        return self._next()

    def back(self) -> Question | None:
        """Takes back the last answer that stands, and gives the question that is due then.

        Raises `NotFinished` where no answer stands, or where the session has ended. Over a journal the command `back` of the program
        takes answers back after the end too, and a new `Session` goes on from there.
        """
        self._due()
        if not self._answers:
            raise NotFinished("no answer stands that could be taken back")
        self._say("back")
        self._answers.pop()
        return self._next()

    def stop(self) -> Ending:
        """Ends the run at the open question, as `Suspended`."""
        self._due()
        self._say("stop")
        self._next()
        assert self._ending is not None
        return self._ending

    def run(self, oracle: Oracle) -> Ending:
        """Has a function answer until the session ends, and gives how it ended.

        oracle: is given the values that are shown, by name, and says whether they break no rule by themselves. What it raises comes
            out as it is, and the question is still open then, so that the session can go on.
        """
        while self._question is not None:
            self.answer(oracle(dict(self._question.shown)))
        assert self._ending is not None
        return self._ending

    # ---- what it hands on

    def reduced(self) -> tuple[Constraint, ...]:
        """The learned constraints without those that follow from the others. Raises `Refusal` where telling takes more than the budget."""
        with self._over_journal() as journal:
            lines = self._called("reduce", journal, *self._budget).lines
        return tuple(map(self.vocabulary.constraint, lines[1:]))

    def clauses(self) -> str:
        """The learned network as clauses in DIMACS, with a model for each solution; lines `c NAME=VALUE NUMBER` name the Booleans."""
        with self._over_journal() as journal:
            return self._called("cnf", journal).text

    def model(self, solver: str | Sequence[str] | None = None) -> dict[str, int] | None:
        """A solution of the learned network, by the names of its variables. None where the solver says that there is none.

        A SAT solver finds it, and the program confirms it: a wrong one is raised as a `Refusal`.

        solver: the solver's name, or its words, behind which the name of a file of clauses is put; else the first of cadical, kissat,
            clasp and minisat that is installed. Raises `ProgramMissing` where there is none.
        """
        with self._over_journal() as journal:
            said = solvers.model_text(self._called("cnf", journal).text, solver)
            if said is None:
                return None
            return _assignment(self._called("model", journal, given=said).text.split()[1:])

    def certificate(self) -> bytes:
        """A certificate that the session has converged, which `check` confirms without any search. Raises `Refusal` where it hasn't."""
        with self._over_journal() as journal:
            return self._called("certify", journal, *self._budget).text.encode()

    # ---- its end

    def close(self) -> None:
        """Ends the program, if it still waits for an answer. A journal keeps all answers that were given."""
        if self._run is not None:
            self._run.close()
            self._run, self._question = None, None

    def __enter__(self) -> Session:
        return self

    def __exit__(self, kind: type[BaseException] | None, error: BaseException | None, trace: TracebackType | None) -> None:
        self.close()

    # ---- beginning

    def _begin_in_memory(self, vocabulary: Vocabulary | None, plan: str | None) -> None:
        if vocabulary is None:
            raise ValueError("a session without a journal needs a vocabulary")
        self.vocabulary, self.plan = vocabulary, plan or "quacq"
        self._run = self.program.run([":memory:", "try", f"--plan={self.plan}", *self._budget])
        self._run.write(vocabulary.line)

    def _begin_over(self, journal: str, vocabulary: Vocabulary | None, plan: str | None) -> None:
        shown = self.program.call([journal, "show"], deadline=self._deadline())
        if shown.text == "refused journal no session\n":
            if vocabulary is None:
                raise JournalRefused("journal", "no session")
            self._made(journal, vocabulary, plan or "quacq")
            self.vocabulary, self.plan = vocabulary, plan or "quacq"
        else:
            self._accepted(shown)
            self.vocabulary, self.plan = _kept_in(journal)
            if vocabulary is not None and vocabulary.data != self.vocabulary.data:
                raise JournalRefused("journal", "has another vocabulary")
            if plan is not None and plan != self.plan:
                raise JournalRefused("journal", f"has plan {self.plan}")
            self._answers = [self._answer_of(line) for line in shown.lines if line.startswith("q")]
        self._run = self.program.run([journal, "run", *self._budget])

    def _made(self, journal: str, vocabulary: Vocabulary, plan: str) -> None:
        self._accepted(self.program.call([journal, "new", f"--plan={plan}"], vocabulary.bytes, self._deadline()))

    # ---- lines

    def _deadline(self) -> Deadline | None:
        """For what is waited for now."""
        return None if self._patience is None else Deadline(self._patience)

    def _due(self) -> Question:
        if self._question is None:
            raise NotFinished("no question is open: the session has ended")
        return self._question

    def _say(self, word: str) -> None:
        assert self._run is not None
        self._run.write(word.encode() + b"\n")

    def _next(self) -> Question | None:
        """Reads on: a question, or how it ended."""
        assert self._run is not None
        self._question = None
        try:
            line = self._run.line(self._deadline())
            if line.startswith("q"):
                self._question = self._question_of(line.split(" "))
                return self._question
            lines = [line, *self._run.rest(self._deadline())]
        except (TimeOver, Unexpected):
            run, self._run = self._run, None
            with contextlib.suppress(Unexpected):
                run.kill()
            raise
        status = self._run.close()
        self._run = None
        self._ending = self._ending_of(lines, status)
        return None

    def _question_of(self, words: list[str]) -> Question:
        shown = _assignment(words[1:])
        return Question(int(words[0][1:]), shown, len(shown) == len(self.vocabulary.variables))

    def _answer_of(self, line: str) -> Answer:
        *words, said = line.split(" ")
        return Answer(self._question_of(words), said == "yes")

    def _ending_of(self, lines: list[str], status: int) -> Ending:
        """How the run ended, by its last lines. Whatever refuses is raised."""
        found = re.fullmatch(r"(converged|collapsed|undecided|suspended) (\d+)", lines[0])
        if not found:
            if lines[0] == "refused journal full":
                return Full()
            self._accepted(Reply(status, "\n".join(lines)))
            raise ProgramEnded(status, lines[0])
        count = int(found[2])
        named = [line for line in lines[1:] if line]
        learned = tuple(self.vocabulary.constraint(line) for line in named if not line.startswith("open "))
        opened = tuple(self.vocabulary.constraint(line[5:]) for line in named if line.startswith("open "))
        match found[1]:
            case "converged":
                return Converged(count, learned)
            case "collapsed":
                return Collapsed(count)
            case "undecided":
                return Undecided(count, learned, opened)
            case _:
                return Suspended(count)

    # ---- other commands

    @contextlib.contextmanager
    def _over_journal(self) -> Iterator[str]:
        """A journal of the session: its own, or a temporary one that the same answers lead to."""
        if self.journal is not None:
            yield self.journal
            return
        with tempfile.TemporaryDirectory() as folder:
            journal = os.path.join(folder, "journal")
            self._made(journal, self.vocabulary, self.plan)
            self.program.call([journal, "run", *self._budget], b"".join(b"yes\n" if it.yes else b"no\n" for it in self._answers),
                              self._deadline())
            yield journal

    def _called(self, command: str, journal: str, *words: str, given: bytes = b"") -> Reply:
        return self._accepted(self.program.call([journal, command, *words], given, self._deadline()))

    def _accepted(self, reply: Reply) -> Reply:
        """The reply, where the program has done what was asked. Else what it says is raised."""
        if reply.status == 0:
            return reply
        if reply.status in SystemFault.TEXTS:
            raise SystemFault(reply.status)
        found = re.match(r"refused (\S+) ?(.*)", reply.text)
        if not found:
            raise ProgramEnded(reply.status, reply.text[:200])
        kind = {"vocabulary": VocabularyRefused, "journal": JournalRefused}.get(found[1], Refusal)
        raise kind(found[1], found[2])


def check(certificate: bytes, program: Program | str | os.PathLike[str] | None = None) -> int:
    """Has the program confirm a certificate without any search, and gives the number of its answers. Raises `Refusal` for a flaw."""
    reply = (program if isinstance(program, Program) else Program.found(program)).call([":memory:", "check"], certificate)
    if found := re.match(r"confirmed (\d+)\n", reply.text):
        return int(found[1])
    if found := re.match(r"refused (\S+) ?(.*)", reply.text):
        raise Refusal(found[1], found[2])
    raise SystemFault(reply.status) if reply.status in SystemFault.TEXTS else ProgramEnded(reply.status, reply.text[:200])


def _assignment(pairs: Sequence[str]) -> dict[str, int]:
    """The values that pieces `NAME=VALUE` give."""
    return {name: int(value) for name, value in (pair.split("=") for pair in pairs)}


def _kept_in(journal: str) -> tuple[Vocabulary, str]:
    """The vocabulary and the plan of a journal that the program has accepted."""
    with open(journal, "rb") as file:
        content = file.read(5_000_000)
    if not content.startswith(_MAGIC):
        raise JournalRefused("journal", "not a journal")
    start = len(_MAGIC) + 4
    length = int.from_bytes(content[len(_MAGIC) : start], "big")
    return Vocabulary(content[start + 1 : start + length]), _PLAN_BYTES[content[start]]
