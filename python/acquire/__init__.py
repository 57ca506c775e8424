"""Sessions with the program `acquire`, which learns constraints from answers of yes and no.

The program shows values for some variables of a vocabulary. A function, or a person, says of each such partial assignment whether
its values break no rule by themselves. At the end there is the network of constraints that the answers follow.

    from acquire import Session

    vocabulary = {"variables": ["maths", "art"], "domain": [1, 4], "scopes": "all",
                  "relations": [{"name": "differ", "arity": 2, "formula": ["!=", "$0", "$1"]}]}

    def breaks_no_rule(shown):
        return "maths" not in shown or "art" not in shown or shown["maths"] != shown["art"]

    with Session(vocabulary, plan="quacq") as session:
        print(session.run(breaks_no_rule))
        for constraint in session.learned:
            print(constraint.text, constraint.predicate(1, 2))

`Session` asks: question by question, or a function until the end, in memory or over a journal that keeps the answers. `Converged`,
`Collapsed`, `Undecided`, `Suspended` and `Full` say how it ended. `Constraint` and `Vocabulary` hand on what was learned, as
predicates and as tables for other solvers. `check` confirms a certificate. What is refused, or fails, is raised as an
`AcquireError`. `Program`, `Run` and `Reply` are for those who talk to the program line by line, with a `Deadline` where it may take
too long. Whichever thread starts the program, it ends when the process does.

Each question, ending and constraint comes from the program, of which it is proved that they are right; of this package nothing is
proved. It needs the standard library alone. `docs/python.md` has sessions to try, and `docs/formats.md` each word of the program.
"""

from .faults import (AcquireError, JournalRefused, NotFinished, ProgramEnded, ProgramMissing, Refusal, SystemFault, TimeOver, Unexpected,
                     VocabularyRefused)
from .process import Deadline
from .program import Program, Reply, Run
from .session import (PLANS, Answer, Collapsed, Converged, Ending, Full, Oracle, Question, Session, Suspended, Undecided, check)
from .vocabulary import Constraint, Vocabulary

__all__ = [
    "AcquireError", "Answer", "Collapsed", "Constraint", "Converged", "Deadline", "Ending", "Full", "JournalRefused", "NotFinished",
    "Oracle", "PLANS", "Program", "ProgramEnded", "ProgramMissing", "Question", "Refusal", "Reply", "Run", "Session", "Suspended",
    "SystemFault", "TimeOver", "Undecided", "Unexpected", "Vocabulary", "VocabularyRefused", "check",
]
