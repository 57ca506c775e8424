"""What is said of a case before the first question: how large it is, what it can't say, plans that
it allows so far, and how many questions will come. Each is data, which a face puts into its own
form.
"""

from __future__ import annotations

import itertools
import json
import os
import tempfile
from collections.abc import Iterable, Sequence
from dataclasses import dataclass

from ..case.files import journal_of
from ..case.model import MOST_RELATIONS, Fault, Values
from ..hints import offers, solver, trials
from ..hints.trials import Figures, Price
from ..program.talk import Clock, Program, TimeOver, said
from ..program.vocabulary import Vocabulary
from .kept import head_of

PLANS_SHOWN = 3
SECONDS_FOR_PLANS = 3.0  # for those that are shown
SECONDS_FOR_PRICES = 3.0  # for what words cost in questions
SECONDS_FOR_COUNTS = 2.0  # for what counts would cost
DEAREST = 3  # words of which it is said what leaving them out saves
Things = tuple[int, ...]


# ---- how large it is


@dataclass(frozen=True)
class Combined:
    """How many rules the words make on groups of one size, alone and several at once."""

    arity: int
    groups: int  # that are asked about
    rules: int
    without: tuple[tuple[str, int], ...]  # a word, and how many they are without it; the dearest


def combined(words: Vocabulary) -> list[Combined]:
    """For each size of groups that are asked about, in order."""
    found = []
    for arity, made in words.closings.items():
        groups = sum(len(scope) == arity for scope in words.scopes)
        rules = len(made.tables)
        found.append(Combined(arity, groups, rules, tuple(_dearest(words, arity, rules))))
    return found


def _dearest(words: Vocabulary, arity: int, whole: int) -> list[tuple[str, int]]:
    """What leaving a word out would save, where they come near to what the program takes."""
    if whole < MOST_RELATIONS // 4 or len(words.case.words) < 2:
        return []
    costs = [(word.text, words.cost(arity, (word.text,))) for word in words.case.words]
    return sorted(costs, key=lambda cost: cost[1])[:DEAREST]


# ---- what it can't say


@dataclass(frozen=True)
class Apart:
    """Pairs of things that no group holds."""

    pairs: int
    of: int  # pairs that there are
    example: tuple[str, str]


@dataclass(frozen=True)
class Coarse:
    """A choice that no word forbids without forbidding others too."""

    values: Values
    others: int  # at the least
    example: Values  # the first of these


@dataclass(frozen=True)
class Weak:
    """What the words can't refuse on a group, the one of its size with most choices."""

    things: Things
    refuses: bool  # whether some word refuses something
    choices: int
    never: int  # how many of these can never be forbidden
    example: Values | None  # the first of them
    coarse: Coarse | None


@dataclass(frozen=True)
class Unsaid:
    """What no answers can bring about."""

    counts: tuple[str, ...]  # the words that do say a count
    alone: tuple[str, ...]  # things that are in no group
    apart: Apart | None
    weak: tuple[Weak, ...]  # for each size of groups


def unsaid(words: Vocabulary) -> Unsaid:
    """What a case can't say."""
    asked = {thing for scope in words.scopes for thing in scope}
    alone = tuple(thing.name for thing in words.case.things if thing.place not in asked)
    counts = tuple(offers.counts_said(words.case))
    weak = tuple(_weak(words, arity) for arity in words.arities)
    return Unsaid(counts, alone, _apart(words), weak)


def _apart(words: Vocabulary) -> Apart | None:
    """Pairs that no group holds; None where each is held by one."""
    things = words.case.things
    together = {pair for scope in words.scopes for pair in itertools.combinations(scope, 2)}
    every = list(itertools.combinations(range(len(things)), 2))
    first = next((pair for pair in every if pair not in together), None)
    if first is None:
        return None
    example = (things[first[0]].name, things[first[1]].name)
    return Apart(len(every) - len(together), len(every), example)


def _weak(words: Vocabulary, arity: int) -> Weak:
    """What can't be refused on the first group of an arity, and what not alone."""
    scope = max((scope for scope in words.scopes if len(scope) == arity), key=words.choices)
    inside = words.inside(scope)
    tables = [table & inside for table in words.closings[arity].tables if inside & ~table]
    never = inside
    for table in tables:
        never &= table
    return Weak(
        scope,
        bool(tables),
        inside.bit_count(),
        never.bit_count(),
        _choice(words, scope, never) if never else None,
        _coarse(words, scope, tables),
    )


def _coarse(words: Vocabulary, scope: Things, tables: Sequence[int]) -> Coarse | None:
    """The first choice that can't be forbidden without others; None where there is none."""
    inside = words.inside(scope)
    for place in range(inside.bit_length()):
        weakest = max(
            (table for table in tables if not table >> place & 1),
            key=lambda table: table.bit_count(),
            default=None,
        )
        if inside >> place & 1 and weakest is not None and (inside & ~weakest).bit_count() > 1:
            also = inside & ~weakest & ~(1 << place)
            values = _choice(words, scope, 1 << place)
            return Coarse(values, also.bit_count(), _choice(words, scope, also))
    return None


def _choice(words: Vocabulary, scope: Things, table: int) -> Values:
    """The first choice of a table."""
    place = (table & -table).bit_length() - 1
    values: Values = {}
    for thing in reversed(scope):
        place, digit = divmod(place, words.coding.size)
        values[thing] = words.coding.value_of[digit]
    return values


# ---- plans before the first question

LEARNED, BEFOREHAND, NOTHING = "learned", "beforehand", "nothing"


@dataclass(frozen=True)
class FirstPlans:
    """Plans that all that is known so far allows."""

    by: str  # LEARNED so far in the session, said BEFOREHAND, or NOTHING is known
    some: tuple[Values, ...]
    strictest: Values | None  # a plan that keeps every rule that the words can say


def first_plans(words: Vocabulary, program: Program, clock: Clock) -> FirstPlans | None:
    """The plans; None where no SAT solver is installed."""
    if solver.name() is None:
        return None
    journal = journal_of(words.case.path)
    head = head_of(journal) if os.path.exists(journal) else None
    if head is not None and head[1] == words.json.encode():
        by, some = LEARNED, solver.plans(program, words, journal, PLANS_SHOWN, clock)
    else:
        by = BEFOREHAND if words.case.always else NOTHING
        some = plans_of(words, program, words.network(words.case.always), PLANS_SHOWN, clock)
    strict = [words.item(scope, words.strictest(scope)) for scope in words.scopes]
    strictest = plans_of(words, program, strict, 1, clock)
    return FirstPlans(by, tuple(some), next(iter(strictest), None))


def plans_of(
    words: Vocabulary, program: Program, network: Sequence[Sequence[str]], most: int, clock: Clock
) -> list[Values]:
    """Plans that a network allows: it is played, which learns it, and the solver draws from what
    was learned."""
    memory = trials.MEMORY if os.path.isdir(trials.MEMORY) else None
    with tempfile.TemporaryDirectory(dir=memory) as folder:
        made = os.path.join(folder, "known.journal")
        clock.doing("looking for plans")
        for call, given in (
            (["new", "--plan", "scopes"], words.json.encode()),
            (["play"], json.dumps(network).encode()),
        ):
            try:
                reply = program.call([made, *call], given, clock)
            except TimeOver:
                return []
            if reply.status:
                raise Fault(f"{words.case.path}: acquire says: {said(reply)}")
        return solver.plans(program, words, made, most, clock)


# ---- ways of asking


@dataclass(frozen=True)
class Forecast:
    """How many questions will come in each way of asking, and which way is advised."""

    cases: int  # made-up ones, on which each was tried
    ways: tuple[Figures, ...]
    best: Figures
    because: str  # why it is advised
    beside: str  # what helps against slips there
    late: bool  # whether it is advised since the time was over

    @property
    def one_by_one(self) -> Figures:
        """The way that asks about one group at a time."""
        return next(one for one in self.ways if one.plan == "scopes")


def forecast(words: Vocabulary, program: Program, clock: Clock) -> Forecast:
    """Tries each way of asking, as long as there is time."""
    return advice(words, trials.compared(words, program, clock))


def advice(words: Vocabulary, some: list[Figures]) -> Forecast:
    """Which of some ways is advised."""
    best = trials.best(words, some)
    late = any(one.late for one in some) and not words.lifted
    by_slips = best.plan != "scopes" and not late and not words.lifted
    because = _because(words, best, some)
    beside = "" if by_slips else _odd_one_out(words)
    return Forecast(trials.trials_of(words), tuple(some), best, because, beside, late)


def _because(words: Vocabulary, best: Figures, some: list[Figures]) -> str:
    """Why a way of asking is advised."""
    if words.lifted:
        return (
            f"{' and '.join(f'`{text}`' for text in words.lifted)} "
            f"speak{'s' if len(words.lifted) == 1 else ''} of fewer things than groups "
            "have that are asked about. The other ways also ask about parts of groups, where a no "
            "because of such a word may end the session though no answer was wrong."
        )
    if any(one.late for one in some):
        return (
            "the time was over before the others had been tried to the end, and what it costs is "
            "known."
        )
    cheapest = min(some, key=lambda one: one.effort)
    if best.plan != "scopes":
        times = best.effort / max(cheapest.effort, 1)
        dear = f", and costs {times:.1f} times the reading of {cheapest.plan}."
        return "it notices slips" + ("." if best is cheapest else dear)
    careful = min((one for one in some if one.notices), key=lambda one: one.effort, default=None)
    if careful is None:
        return "it shows the fewest values to judge."
    return (
        f"it shows the fewest values to judge; {careful.plan}, which notices slips, costs "
        f"{careful.effort / max(best.effort, 1):.1f} times the reading."
    )


def _odd_one_out(words: Vocabulary) -> str:
    """What helps against slips where one group is asked about at a time."""
    grid = (
        "A group whose rule is another than that of its like in the grid is shown as the odd one "
        "out. "
    )
    look = "Look at the plans that break a rule, at the end."
    return grid + look if words.case.thing_parts else look


# ---- prices


@dataclass(frozen=True)
class Prices:
    """What each word costs in questions, in the middle case of those that are made up."""

    known: tuple[Price, ...]  # the dearest first
    unknown: tuple[str, ...]  # words for which the time was over


def prices(some: Iterable[Price]) -> Prices:
    """Those that are known, and those that aren't."""
    found = list(some)
    known = [(price.without, price) for price in found if price.without is not None]
    known.sort(key=lambda pair: pair[0])
    left = tuple(price.word for price in found if price.without is None)
    return Prices(tuple(price for _, price in known), left)


# ---- how long that may take


@dataclass(frozen=True)
class Seconds:
    """How long each part may take."""

    plans: float = SECONDS_FOR_PLANS
    ways: float = trials.SECONDS
    prices: float = SECONDS_FOR_PRICES
    counts: float = SECONDS_FOR_COUNTS

    @classmethod
    def each(cls, seconds: float | None) -> Seconds:
        """So many for each part, where they are given."""
        return cls() if seconds is None else cls(seconds, seconds, seconds, seconds)
