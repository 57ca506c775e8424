"""Plans from a SAT solver: such as are far from each other, and one that breaks a single rule.

No solver is trusted. A plan that the rules allow is shown only as `acquire JOURNAL model` prints
it, which checks it against the learned network. Of a plan that breaks a rule, `model` has to say
that it violates something, and each other rule is looked at here as well. Solutions aren't counted.
"""

from __future__ import annotations

import dataclasses
import itertools
import os
import re
import shutil
import tempfile
from collections.abc import Iterable, Sequence
from dataclasses import dataclass

from acquire import Unexpected
from acquire.process import called

from ..case.model import Count, Rule, Values
from ..program.talk import MOST_PRINTED, Clock, Endless, Program, TimeOver, something_else
from ..program.vocabulary import Vocabulary

# the words behind a solver's name; minisat writes its model to a file, the others print it
SOLVERS = {"cadical": ("-q",), "minisat": ("-verb=0",), "clasp": ("--verbose=0",)}
SATISFIABLE = (10, 30)  # clasp says 30 where it has found all
SECONDS = 5.0  # for one call
MOST_LITERALS = 4_000_000  # of all clauses together; above it no solver is asked

Clause = tuple[int, ...]


def name() -> str | None:
    """The solver that is used: the first that is installed."""
    return next((solver for solver in SOLVERS if shutil.which(solver)), None)


@dataclass(frozen=True)
class Clauses:
    """What `cnf` prints: a Boolean for each value of a thing, and clauses."""

    number: dict[tuple[int, int], int]  # of a thing and a value
    count: int  # of Booleans
    clauses: tuple[Clause, ...]  # that each thing has one value, and the learned constraints
    own: int  # how many of them say that each thing has exactly one value

    def values(self, true: Iterable[int]) -> Values:
        """The values that some true Booleans say."""
        of = {number: pair for pair, number in self.number.items()}
        return dict(of[boolean] for boolean in sorted(true) if boolean in of)

    def literals(self, values: Values) -> list[int]:
        """The Booleans of a plan."""
        return [self.number[pair] for pair in sorted(values.items())]


def clauses_of(
    program: Program, vocabulary: Vocabulary, journal: str, clock: Clock | None = None
) -> Clauses | None:
    """What `cnf` prints of a journal; None where it is refused, is more than any solver is asked
    about, or isn't there in time."""
    try:
        reply = program.call([journal, "cnf"], deadline=clock)
    except (TimeOver, Endless):
        return None
    if reply.status != 0:
        return None
    number: dict[tuple[int, int], int] = {}
    found: list[Clause] = []
    for line in reply.lines:
        head, *words = line.split() or [""]
        try:
            if head == "c":
                number[next(iter(vocabulary.values_of(words[:1]).items()))] = int(words[1])
            elif head != "p":
                found.append(tuple(map(int, [head, *words[:-1]])))
        except (IndexError, StopIteration, ValueError):
            raise something_else(f"`{line}`") from None
    things = {thing for thing, _ in number}
    sizes = [sum(thing == other for other, _ in number) for thing in things]
    return Clauses(
        number,
        len(number),
        tuple(found),
        len(things) + sum(size * (size - 1) // 2 for size in sizes),
    )


def solved(count: int, clauses: Sequence[Clause], clock: Clock | None = None) -> set[int] | None:
    """The true Booleans of a model; None where there is none, where the solver takes too long, or
    where none is installed."""
    solver = name()
    own = Clock(SECONDS) if clock is None else clock.within(SECONDS)
    if solver is None or sum(map(len, clauses)) > MOST_LITERALS or own.over:
        return None
    with tempfile.TemporaryDirectory() as folder:
        given, made = os.path.join(folder, "clauses"), os.path.join(folder, "model")
        with open(given, "w", encoding="ascii") as file:
            file.write(f"p cnf {count} {len(clauses)}\n")
            file.writelines(" ".join(map(str, clause)) + " 0\n" for clause in clauses)
        words = [solver, *SOLVERS[solver], given, *([made] if solver == "minisat" else [])]
        try:
            status, printed = called(words, deadline=own, quiet=True, most=MOST_PRINTED)
            if solver == "minisat" and status in SATISFIABLE:
                with open(made, "rb") as model:
                    printed = model.read()
        except (TimeOver, Unexpected, OSError):
            return None
        return _true(printed) if status in SATISFIABLE else None


def _true(printed: bytes) -> set[int]:
    """The positive numbers of a solver's model; what else it prints is passed over."""
    lines = [
        line.split()
        for line in printed.decode(errors="replace").splitlines()
        if line[:1] not in ("c", "s", "S", "U")
    ]
    return {int(word) for words in lines for word in words if re.fullmatch("[1-9][0-9]{0,8}", word)}


def checked(
    program: Program,
    vocabulary: Vocabulary,
    journal: str,
    clauses: Clauses,
    true: set[int],
    clock: Clock | None = None,
) -> Values | None:
    """The plan of a solver's model as `acquire JOURNAL model` prints it; None where that refuses
    it, or takes too long."""
    booleans = " ".join(str(boolean) for boolean in sorted(true) if boolean <= clauses.count)
    try:
        reply = program.call([journal, "model"], f"v {booleans} 0\n".encode(), clock)
    except TimeOver:
        return None
    if reply.status != 0 or not reply.lines or not reply.lines[0].startswith("solution"):
        return None
    return vocabulary.values_of(reply.lines[0].split()[1:])


# ---------------------------------------------------------------- plans that the rules allow


@dataclass(frozen=True)
class Plan:
    """A plan that the rules allow, and from how many values of each plan before it it differs at
    least."""

    values: Values
    apart: int | None  # None of the first one


def plans(
    program: Program, vocabulary: Vocabulary, journal: str, most: int, clock: Clock | None = None
) -> list[Values]:
    """Plans that the learned rules of a journal allow, far from each other; fewer where no more are
    found, in time."""
    return [plan.values for plan in far(program, vocabulary, journal, most, clock)]


def far(
    program: Program, vocabulary: Vocabulary, journal: str, most: int, clock: Clock | None = None
) -> list[Plan]:
    """Such plans with their distances: each differs from those before in as many values as any plan
    does that the solver finds in its time."""
    clauses = clauses_of(program, vocabulary, journal, clock)
    wanted = None if clauses is None else with_known(clauses, vocabulary)
    found: list[Plan] = []
    while clauses is not None and wanted is not None and len(found) < most:
        if clock is not None:
            clock.doing(f"looking for plan {len(found) + 1} of {most}")
        true, apart = _farthest(wanted, [plan.values for plan in found], clock)
        values = (
            None if true is None else checked(program, vocabulary, journal, clauses, true, clock)
        )
        if values is None:
            break
        found.append(Plan(values, apart))
    return found


def with_known(clauses: Clauses, vocabulary: Vocabulary) -> Clauses:
    """The clauses with those that say what the person knows and isn't asked about. The Booleans
    that they need come last."""
    made, count = list(clauses.clauses), clauses.count
    for known in vocabulary.case.known:
        for rule in known.rules:
            made += rejected(clauses, rule)
        for one in known.counts:
            more, count = counted(clauses, one, count)
            made += more
    return Clauses(clauses.number, count, tuple(made), clauses.own)


def counted(clauses: Clauses, count: Count, last: int) -> tuple[list[Clause], int]:
    """A count as clauses, and how many Booleans there are then; each thing has exactly one
    value."""
    literals = [
        number
        for (thing, value), number in clauses.number.items()
        if thing in count.things and value in count.values
    ]
    made: list[Clause] = []
    if count.most < len(literals):
        more, last = at_least(literals, len(literals) - count.most, last)
        made += more
    if count.least > len(literals):
        return [(1,), (-1,)], last  # no plan has so many
    if count.least:
        more, last = at_least([-literal for literal in literals], count.least, last)
        made += more
    return made, last


def _farthest(
    clauses: Clauses, before: list[Values], clock: Clock | None = None
) -> tuple[set[int] | None, int | None]:
    """The model that differs most from some plans, by halving, and in how many values."""
    if not before:
        return solved(clauses.count, clauses.clauses, clock), None
    low, high = 0, len(
        before[0]
    )  # a plan that differs in `low` values was found, none in more than `high`
    best: set[int] | None = None
    while low < high:
        middle = (low + high + 1) // 2
        extra, count = list(clauses.clauses), clauses.count
        for values in before:
            more, count = at_least(clauses.literals(values), middle, count)
            extra += more
        true = solved(count, extra, clock)
        reached = (
            -1
            if true is None
            else min(_distance(clauses.values(true), values) for values in before)
        )
        if reached < middle:  # also where a solver says what isn't so
            high = middle - 1
        else:
            best, low = true, reached
    return best, low


def _distance(one: Values, other: Values) -> int:
    return sum(one.get(thing) != value for thing, value in other.items())


def at_least(literals: Sequence[int], least: int, count: int) -> tuple[list[Clause], int]:
    """Clauses that say that so many of these Booleans at least are false, by a sequential counter
    (Sinz, 2005), and how many Booleans there are then. `count` is the highest number that is in
    use."""
    most = len(literals) - least  # so many are true at most
    if most == 0:
        return [(-literal,) for literal in literals], count
    register = [
        [count + place * most + level + 1 for level in range(most)]
        for place in range(len(literals))
    ]
    made: list[Clause] = [(-literals[0], register[0][0])] + [
        (-register[0][level],) for level in range(1, most)
    ]
    for place in range(1, len(literals)):
        now, before, literal = register[place], register[place - 1], literals[place]
        made += [(-literal, now[0]), (-literal, -before[most - 1])]
        made += [(-before[level], now[level]) for level in range(most)]
        made += [(-literal, -before[level - 1], now[level]) for level in range(1, most)]
    return made, count + len(literals) * most


# ---------------------------------------------------------------- a plan that breaks one rule


def breaking(
    program: Program,
    vocabulary: Vocabulary,
    journal: str,
    rule: Rule,
    others: Sequence[Rule],
    clauses: Clauses | None = None,
    clock: Clock | None = None,
) -> Values | None:
    """A plan that breaks a rule and keeps the others; None where the solver finds none in time.

    `rule` and `others` are all rules that were learned, so the plan is refused for this one alone.
    """
    clauses = clauses or clauses_of(program, vocabulary, journal, clock)
    if clauses is None or clock is not None and clock.over:
        return None
    wanted = with_known(
        dataclasses.replace(clauses, clauses=clauses.clauses[: clauses.own]), vocabulary
    )
    extra = list(wanted.clauses)
    for other in others:
        extra += rejected(clauses, other)
    picks, count = _one_of(wanted, rule)
    true = solved(count, extra + picks, clock)
    if true is None:
        return None
    values = clauses.values(true)
    if (
        len(values) != len(vocabulary.case.things)
        or not rule.violated(values)
        or any(other.violated(values) for other in others)
    ):
        return None
    booleans = " ".join(map(str, clauses.literals(values)))
    reply = program.call([journal, "model"], f"v {booleans} 0\n".encode())
    return values if reply.text.startswith("refused model violates") else None


def _tuples(clauses: Clauses, rule: Rule) -> list[Clause]:
    """The values of a rule's things that break it, as Booleans."""
    mine = [
        [(value, number) for (thing, value), number in clauses.number.items() if thing == one]
        for one in rule.things
    ]
    return [
        tuple(number for _, number in some)
        for some in itertools.product(*mine)
        if not rule.word.holds(*(value for value, _ in some))
    ]


def rejected(clauses: Clauses, rule: Rule) -> list[Clause]:
    """The rule as clauses: none of the tuples that break it."""
    return [tuple(-number for number in some) for some in _tuples(clauses, rule)]


def _one_of(clauses: Clauses, rule: Rule) -> tuple[list[Clause], int]:
    """The rule turned round: one of the tuples that break it, each with a Boolean of its own."""
    broken = _tuples(clauses, rule)
    first = clauses.count + 1
    made: list[Clause] = [tuple(range(first, first + len(broken)))]
    for place, some in enumerate(broken):
        made += [(-(first + place), number) for number in some]
    return made, clauses.count + len(broken)
