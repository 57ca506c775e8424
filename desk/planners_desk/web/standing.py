"""How a case stands to its session: whether it goes on, and what would become of its answers."""

from __future__ import annotations

import os
from dataclasses import dataclass

from ..case.files import journal_of
from ..case.model import Case, Fault
from ..commands import carry
from ..hints.foreseen import Foreseen
from ..program.talk import Program
from ..program.vocabulary import Vocabulary
from ..sitting.kept import case_in, changed, head_of, old_answers, read_kept


@dataclass(frozen=True)
class Standing:
    """A case beside its session."""

    begun: bool = False  # whether there is one
    plan: str = ""  # its way of asking
    change: str = ""  # why it can't go on with the case as it is now; "" where it can
    fault: str = ""  # why that can't be told


@dataclass(frozen=True)
class Carried:
    """What becomes of the answers of a session in a changed case."""

    every: int  # answers that the person gave
    there: int  # of them that say something in the new case
    against: int  # of these that the case contradicts beforehand


def standing(path: str, case: Case | None, words: Vocabulary | None) -> Standing:
    """How a case stands; `words` is None where it has faults."""
    journal = journal_of(path)
    try:
        head = head_of(journal) if os.path.isfile(journal) else None
        if head is None:
            return Standing()
        if case is None or words is None:
            return Standing(True, head[0])
        return Standing(True, head[0], _change(journal, case, words, head))
    except Fault as fault:
        return Standing(True, fault=str(fault))


def _change(journal: str, case: Case, words: Vocabulary, head: tuple[str, bytes]) -> str:
    """Why a session can't go on with a case, as the next desk would say; "" where it can."""
    kept = read_kept(journal)
    change = changed(case_in(journal, kept), case) if kept is not None else None
    if change is None and head[1] != words.json.encode():
        change = "it is said to the program in another way"
    if change is None and case.plan not in (None, head[0]):
        change = f"another way of asking is wanted, and the session asks by `{head[0]}`"
    return change or ""


def carried(path: str, case: Case, program: Program) -> Carried:
    """What would become of the answers of a case's session in the case as it is now."""
    before = carry.answers_of(path, program)
    there = old_answers(case, before)
    return Carried(len(before), len(there), len(Foreseen(case, there).contradicted()))
