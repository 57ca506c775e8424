"""What each way of asking would cost: made-up owners answer in place of the person, by `play`, and
then with one answer turned round.

All draws come of fixed numbers, so that a case gets the same figures and the same advice each time,
as long as the time isn't over before all was tried.
"""

from __future__ import annotations

import dataclasses
import json
import os
import random
import statistics
import tempfile
from collections import defaultdict
from collections.abc import Iterator, Sequence
from dataclasses import dataclass, field

from ..case.model import PLANS, Case, Fault, Rule, Values
from ..program.talk import Clock, Program, Run, TimeOver, is_question, said, something_else
from ..program.vocabulary import Vocabulary
from .foreseen import Foreseen
from .possible import Possible

MOST_TRIALS = 12
LEAST_TRIALS = 3  # one of each shape
MEMORY = "/dev/shm"  # journals of trials are kept here where it is there: nothing is lost with them
WORK = 4000  # trials of a plan are so few that they have about so many scopes in all
MOST_FOR_SLIPS = 600  # scopes; above it slips aren't tried
STEPS = 5  # of the search for a plan that keeps some rules, for each thing
MOST_LOOKS = 100_000  # of that search at a rule
READING = 3  # a question costs so much beside one for each value that it shows
DEAR = 2.5  # a plan that notices slips may cost so many times what the cheapest costs
ENOUGH = 0.25  # of slips noticed, for a plan to be one that notices them
BLOCK = 3  # a block has at most about one in so many of the things
MOST_PRICED = 8  # words of which it is told what they cost in questions
SECONDS = 10.0  # for comparing the plans in `desk check`
SECONDS_AT_FIRST = 3.0  # for the same before the first question of `desk ask`

# what each plan of the program does, for people
WAYS = {
    "scopes": "one group at a time",
    "quacq": "whole plans first, one rule after a no",
    "multi": "whole plans first, all rules after a no",
}

# rules that an owner may have on scopes, each with its table there
Wishes = dict[tuple[int, ...], list[tuple[Rule, int]]]


@dataclass(frozen=True)
class Drawn:
    """A network that answers: on a scope what it accepts there."""

    tables: dict[tuple[int, ...], int]


@dataclass(frozen=True)
class Figures:
    """What a plan would cost."""

    plan: str
    questions: tuple[
        int, ...
    ]  # put to the person, of each trial that was played to its end, rising
    shown: float  # values that a question shows, in the middle
    at_first: int  # values that the first question shows
    effort: float  # of a session, in the middle
    most: int  # the bound on questions before the first
    slips: int  # how many were planted
    noticed: int  # after how many of them the session collapsed
    late: bool = False  # whether the time was over before all was tried
    # questions so far of the trial that was under way then; None where none was
    beyond: int | None = None

    @property
    def notices(self) -> bool:
        """Whether it notices enough slips to be one that does."""
        return self.slips > 0 and self.noticed >= ENOUGH * self.slips

    @property
    def middle(self) -> int:
        """Questions in the middle trial."""
        return self.questions[len(self.questions) // 2]

    @property
    def more_than(self) -> int | None:
        """Questions so far of the trial under way when the time was over, where that says more than
        the trials before; else None."""
        return self.beyond if (self.beyond or 0) > max(self.questions, default=0) else None


@dataclass(frozen=True)
class Price:
    """What a word costs: how many questions come without it in the middle trial; None where the
    time was over."""

    word: str
    without: int | None


def trials_of(words: Vocabulary) -> int:
    """How many networks are drawn."""
    return max(LEAST_TRIALS, min(MOST_TRIALS, WORK // len(words.scopes)))


# ---------------------------------------------------------------- made-up owners


def hidden_plan(case: Case, rules: Sequence[Rule], draw: random.Random) -> Values:
    """A plan that keeps some rules, where a short search by least conflicts finds one."""
    values = {thing.place: draw.choice(thing.allowed) for thing in case.things}
    by_thing: dict[int, list[int]] = defaultdict(list)
    for place, rule in enumerate(rules):
        for thing in rule.things:
            by_thing[thing].append(place)
    broken = {place: None for place, rule in enumerate(rules) if rule.violated(values)}
    looks = 0
    for _ in range(STEPS * len(values)):
        if not broken or looks > MOST_LOOKS:
            break
        thing = draw.choice(rules[draw.choice(list(broken))].things)
        allowed, mine = case.things[thing].allowed, by_thing[thing]
        conflicts = {
            value: sum(rules[place].violated({**values, thing: value}) for place in mine)
            for value in allowed
        }
        looks += len(allowed) * len(mine)
        values[thing] = draw.choice(
            [value for value in allowed if conflicts[value] == min(conflicts.values())]
        )
        for place in mine:
            if rules[place].violated(values):
                broken[place] = None
            else:
                broken.pop(place, None)
    return values


def scattered(words: Vocabulary, draw: random.Random, share: float) -> Wishes:
    """Any rule on a share of the scopes."""
    return {scope: list(words.rules_on(scope)) for scope in words.scopes if draw.random() < share}


def hubs(words: Vocabulary, draw: random.Random, share: float) -> Wishes:
    """One or two things that have a rule of one word with all others: the opening is before each
    talk."""
    wishes: Wishes = {}
    for _ in range(1 + (share > 0.5)):
        hub = draw.randrange(len(words.case.things))
        _wish(words, draw, wishes, [scope for scope in words.scopes if hub in scope], [{hub}])
    return wishes


def blocks(words: Vocabulary, draw: random.Random, share: float) -> Wishes:
    """Things of two kinds, each of the one with a rule of one word with each of the other: no acid
    beside a lye."""
    wishes: Wishes = {}
    count = len(words.case.things)
    size = 1 + int(share * count / BLOCK)
    for _ in range(1 + (share > 0.5)):
        mixed = draw.sample(range(count), count)
        sides = [set(mixed[:size]), set(mixed[size : 2 * size]) or set(mixed[:size])]
        _wish(
            words,
            draw,
            wishes,
            [scope for scope in words.scopes if all(side & set(scope) for side in sides)],
            sides,
        )
    return wishes


def _wish(
    words: Vocabulary,
    draw: random.Random,
    wishes: Wishes,
    scopes: Sequence[tuple[int, ...]],
    sides: Sequence[set[int]],
) -> None:
    """Adds the rules of one word, by draw, that stand between sides on some scopes."""

    def between(scope: tuple[int, ...]) -> list[tuple[Rule, int]]:
        return [
            (rule, table)
            for rule, table in words.rules_on(scope)
            if len(rule.things) < 2 or all(side & set(rule.things) for side in sides)
        ]

    first = next((some for scope in scopes if (some := between(scope))), None)
    if first is None:
        return
    text = draw.choice(first)[0].word.text
    for scope in scopes:
        some = [(rule, table) for rule, table in between(scope) if rule.word.text == text]
        if some:
            wishes.setdefault(scope, some)


SHAPES = (scattered, hubs, blocks)


def drawn(words: Vocabulary, trial: int, trials: int) -> Drawn:
    """A network with the rules said beforehand and more, whose share and shape depend on the trial;
    some plan keeps them all."""
    draw = random.Random(trial)
    wishes = SHAPES[trial % len(SHAPES)](words, draw, (trial + 1) / trials)
    shaped = (
        [rule for some in wishes.values() for rule, _ in some[:1]] if trial % len(SHAPES) else []
    )
    hidden = hidden_plan(words.case, [*words.case.always, *shaped], draw)
    tables = {}
    for item in words.network(words.case.always):
        constraint = words.constraint(" ".join(item))
        tables[constraint.scope] = words.table(constraint)
    for scope, some in wishes.items():
        place = words.place(scope, hidden)
        fits = [table for _, table in some if table >> place & 1]
        if fits:
            tables[scope] = tables.get(scope, words.inside(scope)) & draw.choice(fits)
    return Drawn(tables)


def accepts(words: Vocabulary, network: Drawn, values: Values) -> bool:
    """Whether a network accepts values, as far as they go."""
    return all(
        table >> words.place(scope, values) & 1
        for scope, table in network.tables.items()
        if all(thing in values for thing in scope)
    )


def network_text(words: Vocabulary, network: Drawn) -> bytes:
    """The network for `play`."""
    return json.dumps(
        [
            words.item(scope, table)
            for scope, table in network.tables.items()
            if table != words.inside(scope)
        ]
    ).encode()


# ---------------------------------------------------------------- sessions with them


def played(
    words: Vocabulary, program: Program, plan: str, network: Drawn, clock: Clock | None = None
) -> list[str]:
    """The lines of the questions that a plan asks where the network answers; `TimeOver` has the
    lines so far."""
    with tempfile.TemporaryDirectory(dir=MEMORY if os.path.isdir(MEMORY) else None) as folder:
        journal = os.path.join(folder, "trial.journal")
        made = program.call([journal, "new", "--plan", plan], words.json.encode(), clock)
        if made.status:
            raise Fault(f"{words.case.path}: acquire says: {said(made)}")
        reply = program.call([journal, "play"], network_text(words, network), clock)
    if reply.status not in (0, 5):
        raise Fault(f"{words.case.path}: acquire says: {said(reply)}")
    asked = [line for line in reply.lines if is_question(line.split(" ", 1)[0])]
    if reply.lines[len(asked) : len(asked) + 1] not in (
        [f"converged {len(asked)}"],
        [f"undecided {len(asked)}"],
    ):
        raise something_else(f"{len(asked)} questions without an end")
    return asked


def own_of(words: Vocabulary, lines: Sequence[str], foreseen: Foreseen) -> list[Values]:
    """The questions of some lines that are put to the person, since no rule said beforehand answers
    them."""
    asked = (question.values for question, _ in filter(None, map(words.answered, lines)))
    return [values for values in asked if foreseen.violated(values) is None]


def slipped(
    words: Vocabulary,
    program: Program,
    plan: str,
    network: Drawn,
    slip: int,
    foreseen: Foreseen,
    clock: Clock | None = None,
) -> bool:
    """Whether a session collapses in which the person's answer at this place is turned round."""
    run = Run(
        program, [":memory:", "try", "--plan", plan], given=words.json.encode() + b"\n", clock=clock
    )
    own = 0
    try:
        while (question := words.asked(line := run.line())) is not None:
            values = question.values
            yes = accepts(words, network, values)
            if foreseen.violated(values) is None:
                yes ^= own == slip
                own += 1
            run.say("yes" if yes else "no")
        return line.startswith("collapsed")
    finally:
        run.close()


@dataclass
class _Trials:
    """The trials of one plan, as far as they went."""

    counts: list[int] = field(default_factory=list)
    sizes: list[int] = field(default_factory=list)
    efforts: list[int] = field(default_factory=list)
    first: list[int] = field(default_factory=list)
    slips: int = 0
    noticed: int = 0

    def add(self, own: list[Values]) -> None:
        """The questions that one trial put to the person."""
        self.counts.append(len(own))
        self.sizes += [len(values) for values in own]
        self.first += [len(values) for values in own[:1]]
        self.efforts.append(sum(READING + len(values) for values in own))


def figures(
    words: Vocabulary, program: Program, plan: str, networks: Sequence[Drawn], clock: Clock
) -> Figures:
    """What a plan would cost, as far as it can be found out in time."""
    foreseen, tried = Foreseen(words.case), _Trials()
    late, beyond = False, None
    for trial, network in enumerate(networks):
        if clock.over:
            late = True
            break
        clock.doing(f"trying {WAYS[plan]}: made-up case {trial + 1} of {len(networks)}")
        try:
            own = own_of(words, played(words, program, plan, network, clock), foreseen)
        except TimeOver as stopped:
            late, beyond = True, sum(is_question(line.split(" ", 1)[0]) for line in stopped.lines)
            break
        tried.add(own)
        if not own or len(words.scopes) > MOST_FOR_SLIPS:
            continue
        try:
            tried.noticed += slipped(
                words,
                program,
                plan,
                network,
                random.Random(trial).randrange(len(own)),
                foreseen,
                clock,
            )
            tried.slips += 1
        except TimeOver:
            late = trial + 1 < len(networks)
            break
    return Figures(
        plan,
        tuple(sorted(tried.counts)),
        statistics.median(tried.sizes or [0]),
        max(tried.first, default=0),
        statistics.median(tried.efforts or [0]),
        Possible(words, plan).most,
        tried.slips,
        tried.noticed,
        late,
        beyond,
    )


def compared(words: Vocabulary, program: Program, clock: Clock) -> list[Figures]:
    """All plans, the one first whose trials cost least time."""
    networks = [drawn(words, trial, trials_of(words)) for trial in range(trials_of(words))]
    return [figures(words, program, plan, networks, clock) for plan in PLANS]


def best(words: Vocabulary, some: list[Figures]) -> Figures:
    """The plan to take: the cheapest of those that notice slips, unless it costs much more than the
    cheapest of all.

    Where words are lifted it is plan `scopes`, since in the others a session may collapse with no
    wrong answer; and where the time was over, since nobody knows what the others cost.
    """
    if words.lifted or any(one.late for one in some):
        return next(one for one in some if one.plan == "scopes")
    cheapest = min(some, key=lambda one: one.effort)
    careful = min(
        (one for one in some if one.notices), key=lambda one: one.effort, default=cheapest
    )
    return careful if careful.effort <= DEAR * cheapest.effort else cheapest


def advised(words: Vocabulary, program: Program, clock: Clock) -> str:
    """The plan that is advised for a case."""
    return "scopes" if words.lifted else best(words, compared(words, program, clock)).plan


# ---------------------------------------------------------------- what a word costs


def prices(case: Case, program: Program, clock: Clock) -> Iterator[Price]:
    """What the words of a case cost where one group is asked about at a time; none of words that
    the case can't be without."""
    able = [word for word in case.words if not word.things]
    for word in able[:MOST_PRICED] if len(case.words) > 1 else ():
        try:
            words = Vocabulary(
                dataclasses.replace(case, words=tuple(one for one in case.words if one is not word))
            )
        except Fault:  # a rule said beforehand needs it, or a group has no other word
            continue
        clock.doing(f"reckoning what `{word.text}` costs")
        try:
            yield Price(word.text, middle(words, program, clock))
        except TimeOver:
            yield Price(word.text, None)


def middle(words: Vocabulary, program: Program, clock: Clock) -> int:
    """Questions of the middle trial in plan `scopes`; `TimeOver` where the time is over."""
    foreseen = Foreseen(words.case)
    counts = []
    for trial in range(trials_of(words)):
        if clock.over:
            raise TimeOver("")
        lines = played(words, program, "scopes", drawn(words, trial, trials_of(words)), clock)
        counts.append(len(own_of(words, lines, foreseen)) if words.case.always else len(lines))
    return sorted(counts)[len(counts) // 2]
