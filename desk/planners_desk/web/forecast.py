"""What a case comes to before its first question, reckoned aside: plans that are possible, how many
questions each way of asking has, and what each word costs."""

from __future__ import annotations

import dataclasses
import threading
from collections.abc import Callable
from dataclasses import dataclass

from ..case import casefile
from ..hints import offers, solver, trials
from ..hints.offers import Offer
from ..hints.trials import Figures
from ..program.talk import Clock, Program
from ..program.vocabulary import Vocabulary
from ..sitting import outlook
from ..sitting.outlook import Prices, Seconds
from .sheets import Busy, Sheet
from .sittings import Owner
from .tables import Table, table_of

MOST_KEPT = 50  # cases of which it is kept what came of it
SECONDS = dataclasses.asdict(Seconds())  # of each step, in their order


@dataclass(frozen=True)
class Forecast(Sheet):
    """What came of it."""

    solver: bool  # whether plans could be looked for
    plans: tuple[Table, ...]  # that all that is known so far allows
    by: str  # what that is
    last: Table | None  # a plan that no answers can rule out
    ways: outlook.Forecast
    prices: Prices
    counts: tuple[Offer, ...]


@dataclass(frozen=True)
class Reckoned:
    """How far a forecast is."""

    busy: Busy | None = None
    done: Forecast | None = None
    fault: str = ""


class Forecasts:
    """What is reckoned of cases, each in a thread of its own, one at most for a case."""

    def __init__(self, program: Program) -> None:
        self._program = program
        self._lock = threading.Lock()
        self._owners: dict[str, tuple[str, Owner]] = {}

    def begin(self, path: str, mark: str) -> None:
        """Begins with a case as it is now; what was reckoned of another text of it is dropped."""
        with self._lock:
            old = self._owners.pop(path, None)
            if old is not None and old[0] == mark and not old[1].state().over:
                self._owners[path] = old
                return
            while len(self._owners) >= MOST_KEPT:
                self._owners.pop(next(iter(self._owners)))[1].give_up()
            self._owners[path] = (mark, Owner(self._work, path).start())
        if old is not None:
            old[1].give_up()

    def of(self, path: str, mark: str) -> Reckoned | None:
        """How far it is with a case as it is now; None where it wasn't begun."""
        with self._lock:
            found = self._owners.get(path)
        if found is None or found[0] != mark:
            return None
        sheet = found[1].state().sheet
        if isinstance(sheet, Busy):
            return Reckoned(busy=sheet)
        if isinstance(sheet, Forecast):
            return Reckoned(done=sheet)
        return Reckoned(fault=" ".join(getattr(sheet, "lines", ())) or "It was broken off.")

    def close(self) -> None:
        """Ends all."""
        with self._lock:
            owners, self._owners = list(self._owners.values()), {}
        for _, owner in owners:
            owner.close()

    def _work(self, owner: Owner) -> Sheet:
        """All steps, in the thread that owns them."""
        owner.busy("reading the case", 0.0)
        case = casefile.read(owner.path)
        return reckoned(Vocabulary(case), self._program, _clocks(owner))


def questions(one: Figures, cases: int) -> str:
    """How many questions a way of asking had in some of so many made-up cases, as far as it was
    tried."""
    more = one.more_than
    if not one.questions:
        known = f"more than {more} in the first case"
        return "not tried: the time was over" if more is None else known
    counts = f"{one.questions[0]} / {one.middle} / {one.questions[-1]}"
    if not one.late:
        return counts
    tried = f"{counts}, in {len(one.questions)} of {cases} cases"
    return tried if more is None else f"{tried}, and more than {more} in the next"


def _clocks(owner: Owner) -> Callable[[str], Clock]:
    """A clock for each step, which tells how much of the whole time is over."""
    whole = sum(SECONDS.values())
    before = dict(zip(SECONDS, (sum(list(SECONDS.values())[:k]) for k in range(len(SECONDS)))))

    def clock(step: str) -> Clock:
        made = Clock(
            SECONDS[step],
            lambda text: owner.busy(text, (before[step] + SECONDS[step] - made.left) / whole),
        )
        return made

    return clock


def reckoned(words: Vocabulary, program: Program, clock: Callable[[str], Clock]) -> Forecast:
    """What a case comes to."""
    case = words.case
    plans = outlook.first_plans(words, program, clock("plans"))
    last = plans.strictest if plans is not None else None
    return Forecast(
        "What it comes to",
        solver.name() is not None,
        tuple(table_of(case, values) for values in plans.some) if plans is not None else (),
        plans.by if plans is not None else outlook.NOTHING,
        table_of(case, last) if last is not None else None,
        outlook.forecast(words, program, clock("ways")),
        outlook.prices(trials.prices(case, program, clock("prices"))),
        tuple(offers.offers(case, program, clock("counts"))),
    )
