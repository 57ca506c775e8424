"""What `desk check` says before the first question: the made-up owners and how they are played, the
advice, what words cost in questions, counts that could be said, and what no answer can forbid. Each
beside something reckoned in another way."""

from __future__ import annotations

import contextlib
import importlib.util
import io
import itertools
import math
import os
import re
import tempfile
import time
import types
from collections.abc import Iterator

import drawn  # desk's folder is on the path now
import hands
from planners_desk.case import casefile
from planners_desk.commands import check
from planners_desk.hints import offers
from planners_desk.sitting import outlook
from planners_desk.program import talk
from planners_desk.hints import trials
from planners_desk.hints.foreseen import Foreseen
from planners_desk.program.vocabulary import Vocabulary

TALKS = "things: a b c d e f\nvalues: 1 2 3\nask: all\nwords: different, not next to, same\n"
WEEK = (
    "things: day Mon .. Wed x shift early late night\nvalues: Ann Ben Cas\n"
    "ask: same day, night to next day early\nwords: different, never Ann\n"
    "always: different on same day\n"
)
PLANTED = [
    ("sitting/outlook.py", "(inside & ~weakest).bit_count() > 1:", "(inside & ~weakest).bit_count() > 2:"),
    ("sitting/outlook.py", "also = inside & ~weakest & ~(1 << place)", "also = inside & ~weakest"),
    (
        "sitting/outlook.py",
        "values[thing] = words.coding.value_of[digit]",
        "values[thing] = words.coding.value_of[-1 - digit]",
    ),
    (
        "sitting/outlook.py",
        "    for place in range(inside.bit_length()):\n        weakest = max(",
        "    for place in range(inside.bit_length()):\n        weakest = min(",
    ),
    (
        "sitting/outlook.py",
        "known.sort(key=lambda pair: pair[0])",
        "known.sort(key=lambda pair: -pair[0])",
    ),
    (
        "hints/trials.py",
        "tuple(one for one in case.words if one is not word)",
        "tuple(one for one in case.words if one is word)",
    ),
    ("hints/trials.py", "        if clock.over:\n            late = True\n            break\n", ""),
    (
        "hints/trials.py",
        "SHAPES = (scattered, hubs, blocks)",
        "SHAPES = (scattered, scattered, scattered)",
    ),
    ("hints/trials.py", "SHAPES = (scattered, hubs, blocks)", "SHAPES = (scattered, hubs, hubs)"),
    (
        "hints/trials.py",
        "        if fits:\n",
        "        if some:\n            fits = fits or [some[0][1]]\n",
    ),
    (
        "hints/trials.py",
        "return careful if careful.effort <= DEAR * cheapest.effort else cheapest",
        "return careful",
    ),
    (
        "hints/trials.py",
        "return [values for values in asked if foreseen.violated(values) is None]",
        "return list(asked)",
    ),
    (
        "../../python/acquire/process.py",
        '            deadline.tick()\n            if deadline.over:\n                raise TimeOver("")\n'
        "            if came:\n                return\n",
        "            if came:\n                return\n"
        '            deadline.tick()\n            if deadline.over:\n                raise TimeOver("")\n',
    ),
    (
        "../../python/acquire/process.py",
        "        if deadline is not None:\n            deadline.tick()\n",
        "        if deadline is not None and not came:\n            deadline.tick()\n",
    ),
    ("hints/offers.py", "if most + 1 in have or not some", "if not some"),
    ("hints/offers.py", "return min(found, key=", "return max(found, key="),
]


def figures(
    plan: str, effort: float, slips: int, noticed: int, late: bool = False
) -> trials.Figures:
    """Figures of a plan of which the advice depends on these."""
    return trials.Figures(plan, (10,), 2, 2, effort, 20, slips, noticed, late)


def advice() -> list[str]:
    """The advice: the cheapest that notices slips, unless it costs 2.5 times as much; `scopes`
    where words are lifted or time was over."""
    plain, lifted = Vocabulary(casefile.parse(TALKS, "talks")), Vocabulary(
        casefile.parse(WEEK, "week")
    )
    faults = []
    for words, others, wanted in (
        (plain, (figures("quacq", 200, 12, 6), figures("multi", 240, 12, 9)), "quacq"),
        (plain, (figures("quacq", 260, 12, 6), figures("multi", 240, 12, 9)), "multi"),
        (plain, (figures("quacq", 260, 12, 6), figures("multi", 255, 12, 9)), "scopes"),
        (plain, (figures("quacq", 90, 12, 2), figures("multi", 240, 12, 9)), "quacq"),
        (plain, (figures("quacq", 150, 12, 6), figures("multi", 0, 0, 0, True)), "scopes"),
        (lifted, (figures("quacq", 50, 12, 12), figures("multi", 50, 12, 12)), "scopes"),
    ):
        got = trials.best(words, [figures("scopes", 100, 12, 0), *others]).plan
        if got != wanted:
            faults.append(f"of {others} the advice is {got}, and should be {wanted}")
    return faults


def owners() -> list[str]:
    """Each made-up owner allows some plan; hubs have one or two things in all rules, blocks two
    kinds."""
    faults = []
    words = Vocabulary(casefile.parse(TALKS, "talks"))
    for trial in range(12):
        network = trials.drawn(words, trial, 12)
        plans = (dict(enumerate(some)) for some in itertools.product(range(3), repeat=6))
        if not any(trials.accepts(words, network, plan) for plan in plans):
            faults.append(f"owner {trial} allows no plan")
        scopes = list(network.tables)
        few = 1 + (trial + 1 > 6)
        covered = any(
            all(set(scope) & set(some) for scope in scopes)
            for some in itertools.combinations(range(6), few)
        )
        if trial % 3 == 1 and not (scopes and covered):
            faults.append(f"owner {trial} has no hub: {scopes}")
        if trial in (2, 5) and not _in_two_kinds(scopes):
            faults.append(f"owner {trial} has no two kinds: {scopes}")
    mixed = list(trials.drawn(words, 5, 12).tables)
    if len(mixed) < 3 or any(all(thing in scope for scope in mixed) for thing in range(6)):
        faults.append(f"an owner with two kinds of two things has one thing in all rules: {mixed}")
    return faults


def _in_two_kinds(scopes: list[tuple[int, ...]]) -> bool:
    """Whether things can be put into two kinds so that each pair has one of each."""
    return bool(scopes) and any(
        all((one in kind) != (other in kind) for one, other in scopes)
        for size in range(7)
        for kind in itertools.combinations(range(6), size)
    )


def asked_of(program: str, words: Vocabulary, network: trials.Drawn) -> int:
    """How many questions a run in plan `scopes` puts to the person, answered one by one."""
    run = talk.Run(
        talk.Program(program),
        [":memory:", "try", "--plan", "scopes"],
        given=words.json.encode() + b"\n",
    )
    own = 0
    try:
        while talk.is_question((line := run.line()).split(" ")[0]):
            values = words.values_of(line.split()[1:])
            own += not any(rule.violated(values) for rule in words.case.always)
            run.say("yes" if trials.accepts(words, network, values) else "no")
    finally:
        run.close()
    return own


def prices(program: str) -> list[str]:
    """What a word costs: the middle of the same made-up cases in the case written without it,
    answered one by one."""
    faults = []
    for text in (TALKS, WEEK):
        case = casefile.parse(text, "priced")
        for price in trials.prices(case, talk.Program(program), talk.Clock(60)):
            without = re.sub(rf"(words:.*?)(?:, {price.word}\b|{price.word}, )", r"\1", text)
            words = Vocabulary(casefile.parse(without, "without"))
            counts = sorted(
                asked_of(program, words, trials.drawn(words, trial, 12)) for trial in range(12)
            )
            if price.without != counts[6]:
                faults.append(f"without `{price.word}` {price.without}, and {counts[6]} come")
    week = [
        price.word
        for price in trials.prices(
            casefile.parse(WEEK, "week"), talk.Program(program), talk.Clock(60)
        )
    ]
    if week != ["never Ann"]:
        faults.append(f"priced are {week}, though `different` is said beforehand")
    found = trials.figures(
        Vocabulary(casefile.parse(WEEK, "week")),
        talk.Program(program),
        "scopes",
        [trials.drawn(Vocabulary(casefile.parse(WEEK, "week")), trial, 12) for trial in range(3)],
        talk.Clock(60),
    )
    words = Vocabulary(casefile.parse(WEEK, "week"))
    wanted = tuple(
        sorted(asked_of(program, words, trials.drawn(words, trial, 12)) for trial in range(3))
    )
    return faults + (
        []
        if found.questions == wanted
        else [f"of a week {found.questions} questions are reckoned, and {wanted} come"]
    )


def time_over(program: str) -> list[str]:
    """Where no time is left nothing is tried, and `scopes` is advised."""
    words = Vocabulary(casefile.parse(TALKS, "talks"))
    some = trials.compared(words, talk.Program(program), talk.Clock(0.000001))
    faults = (
        []
        if all(one.late and not one.questions for one in some)
        else [f"without time it says {some}"]
    )
    said = " ".join(check.compared(words, outlook.advice(words, some), 100))
    if (
        "Advice: scopes, one group at a time, because the time was over" not in said
        or "not tried: the time was over" not in said
    ):
        faults.append(f"without time it says {said}")
    if [
        price.without
        for price in trials.prices(words.case, talk.Program(program), talk.Clock(0.000001))
    ] != [None] * 3:
        faults.append("without time it knows what words cost")
    return faults


ASKS_ON = """#!/bin/sh
# questions without an end, each as soon as the one before is answered; or all at once, where nobody
# answers
k=0
[ "$2" = play ] && yes=" yes"
while :; do k=$((k + 1)); echo "q$k a=1 b=1$yes"; [ "$yes" ] || read -r answer; done
"""


def deadlines(program: str) -> list[str]:
    """A call and a run that go on and on are ended when their time is over, and somebody who waits
    is told so again and again."""
    words = Vocabulary(casefile.parse(TALKS, "talks"))
    faults = []
    with tempfile.TemporaryDirectory() as folder:
        path = os.path.join(folder, "asks_on")
        with open(path, "w", encoding="utf-8") as file:
            file.write(ASKS_ON)
        os.chmod(path, 0o755)
        it = talk.Program(path)
        for what, tried in (
            ("play", lambda clock: it.call(["x", "play"], b"", clock)),
            (
                "try",
                lambda clock: trials.slipped(
                    words, it, "scopes", trials.Drawn({}), 99999, Foreseen(words.case), clock
                ),
            ),
        ):
            told: list[str] = []
            clock = talk.Clock(1.2, told.append)
            clock.doing("trying it")
            began = time.monotonic()
            try:
                tried(clock)
                faults.append(
                    f"{what} without an end came to one after {time.monotonic() - began:.1f} s"
                )
            except talk.TimeOver as late:
                if what == "play" and not late.lines:
                    faults.append("what had come until the time was over is lost")
            if len(told) < 3 or not told[0].startswith("trying it, at most 2 s more"):
                faults.append(f"who waits for {what} is told {told}")
    return faults


def counts(program: str) -> list[str]:
    """Counts are offered on as many groups as it says, each with one question; none that the case
    says already."""
    faults = []
    for text, wanted in (
        (
            TALKS,
            {
                1: ("all", math.comb(6, 2)),
                2: ("all triples", math.comb(6, 3)),
                3: ("all fours", math.comb(6, 4)),
            },
        ),
        (WEEK, {1: ("same day", 9), 2: ("same day triples", 3), 3: ("all fours", math.comb(9, 4))}),
        (
            TALKS.replace("ask: all", "ask: all triples").replace(
                "same\n", "at most two of three 1\n"
            ),
            {1: ("all", 15), 3: ("all fours", 15)},
        ),
    ):
        got = {
            one.most: (one.phrase, one.groups)
            for one in offers.offers(
                casefile.parse(text, "counts"), talk.Program(program), talk.Clock(0.000001)
            )
        }
        if got != wanted:
            faults.append(f"counts: {got}, and should be {wanted}")
        for one in offers.offers(
            casefile.parse(text, "counts"), talk.Program(program), talk.Clock(0.000001)
        ):
            alone = re.sub(
                r"ask: .*",
                f"ask: {one.phrase}",
                re.sub(r"words: .*", f"words: {one.word}", re.sub(r"always: .*", "", text)),
            )
            words = Vocabulary(casefile.parse(alone, "alone"))
            if asked_of(program, words, trials.drawn(words, 0, 12)) != one.groups:
                faults.append(f"`{one.word}` alone takes other than {one.groups} questions")
    said = " ".join(
        check.cannot_say(
            Vocabulary(casefile.parse(TALKS.replace("same\n", "not both 1\n"), "talks")), 100
        )
    )
    if "Counts above three" not in said or "The counts that it does say: `not both 1`." not in said:
        faults.append(f"a case that counts is said to be one that can't: {said}")
    return faults


def dull(text: str) -> list[str]:
    """What no answer can forbid on two things, and what can't be forbidden alone, by trial of all
    that words say. A table draws the first choice; where nothing draws tables, lines say it."""
    words = Vocabulary(casefile.parse(text, "dull"))
    names = list(words.case.values)
    every = list(itertools.product(range(len(names)), repeat=2))
    refused = [{pair for pair in every if not word.holds(*pair)} for word in words.case.words]
    unions = [
        frozenset().union(*some)
        for size in range(1, len(refused) + 1)
        for some in itertools.combinations(refused, size)
    ]
    free = [pair for pair in every if not any(pair in one for one in refused)]
    said = " ".join(check.cannot_say(words, 100))
    between = " " if importlib.util.find_spec("rich") else ": "
    faults = []
    if free and (
        f"{len(free)} of {len(every)} choices can never be forbidden" not in said
        or f" a{between}{names[free[0][0]]} b{between}{names[free[0][1]]} "
        not in " ".join(said.split())
    ):
        faults.append(f"of {text!r} it doesn't draw {free[0]}, one of {len(free)}: {said}")
    if not free and "never be forbidden" in said:
        faults.append(f"of {text!r} it says that something can't be forbidden")
    for pair in every:
        also = min((len(one) for one in unions if pair in one), default=1) - 1
        if also:
            a, b = (names[value] for value in pair)
            if (
                f"Whatever forbids a {a} and b {b} forbids {also} other "
                f"choice{'s' if also > 1 else ''} too"
                not in said
            ):
                faults.append(
                    f"of {text!r} it doesn't say that {pair} goes with {also} others: {said}"
                )
            break
    else:
        if "Whatever forbids" in said:
            faults.append(f"of {text!r} it says that something can't be forbidden alone")
    return faults


@contextlib.contextmanager
def without_rich() -> Iterator[None]:
    """The library that draws tables isn't found."""
    real = importlib.util.find_spec
    importlib.util.find_spec = lambda name, package=None: (
        None if name == "rich" else real(name, package)
    )
    try:
        yield
    finally:
        importlib.util.find_spec = real


def whole(program: str) -> list[str]:
    """`desk check` as a whole says what it found, the dearest word first."""
    with contextlib.redirect_stdout(io.StringIO()) as printed:
        path = "/nowhere/talks.case"
        real, casefile.read = casefile.read, lambda _: casefile.parse(TALKS, path)
        try:
            check.main(path, types.SimpleNamespace(acquire=program, seconds=600))
        finally:
            casefile.read = real
    said = " ".join(printed.getvalue().split())
    words = Vocabulary(casefile.parse(TALKS, "talks"))
    some = trials.compared(words, talk.Program(program), talk.Clock(600))
    known = sorted(
        trials.prices(words.case, talk.Program(program), talk.Clock(60)),
        key=lambda price: price.without,
    )
    wanted = [f"{one.questions[0]} / {one.questions[6]} / {one.questions[-1]}" for one in some]
    wanted += [
        "12 made-up cases",
        f"without `{known[0].word}` {known[0].without}, without `{known[1].word}`",
        f"in place of {some[0].questions[6]}",
    ]
    wanted += [
        "`words: at most two of them 1`, `ask: all triples`. These are 20 groups",
        "A count that you know costs no question",
    ]
    return [f"check doesn't say `{one}`" for one in wanted if one not in said]


def run(program: str) -> list[str]:
    """The faults that were found."""
    pairs = [
        "different",
        "same",
        "before",
        "different, same",
        "different, before",
        "not both 1",
        "not both 1, not both 2",
        "at least 2 apart, same",
    ]
    texts = [
        f"things: a b\nvalues: {values}\nask: all\nwords: {some}\n"
        for some in pairs
        for values in ("1 2", "1 2 3")
    ]
    texts += [
        "things: a b\nvalues: 1 2\nask: all\nwords: if 1 then 2, not both 1\n",
        "things: a b\nvalues: 1 2 3\nask: all\nwords: no 2 after 1\n",
    ]
    faults = (
        advice()
        + owners()
        + prices(program)
        + time_over(program)
        + deadlines(program)
        + counts(program)
        + whole(program)
    )
    for text in texts:
        faults += dull(text)
    if importlib.util.find_spec("rich"):
        with without_rich():
            faults += [f"without a table: {fault}" for text in texts for fault in dull(text)]
    else:
        hands.passed_over("forecast", "what can't be forbidden is drawn in no table")
    print(
        "forecast: 12 made-up owners, 4 words with their prices, 8 counts, "
        f"{len(texts)} cases with what can't be forbidden"
    )
    return faults[: drawn.ENOUGH or None]
