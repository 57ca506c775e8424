"""The search for a missing word beside trial: at clashes of drawn sessions, whose owner has a word
more than the case, each word of the catalogue is added to the case, and the bounds' own count of
what is possible says whether a clash is left."""

from __future__ import annotations

import random
from types import SimpleNamespace

import drawn  # desk's folder is on the path now
from planners_desk.case import casefile
from planners_desk.sitting import missing
from planners_desk.case.catalogue import Setting
from drawn import Owner, tried
from planners_desk.case.model import PLANS, Fault, Values
from planners_desk.hints.possible import Possible
from planners_desk.sitting.session import is_question
from planners_desk.program.vocabulary import Vocabulary

SESSIONS = 120
FURTHER = ("different", "before", "same", "next to", "all three different", "not after")
MORE = ("different day", "earlier hour", "at least 1 hour apart", "not both Mon")
GRID = """title: Grid
things: a b c d
values: day Mon Tue x hour 1 2 3
ask: {ask}
words: {words}
"""
PLANTED = [
    # an accepted example doesn't keep a word off
    ("sitting/missing.py", " and all(word.holds(*some) for some in seen)", ""),
    # a word has to explain one of the refused examples, and not all of them
    (
        "sitting/missing.py",
        "if all(seen.explains(word, values) for values in seen.refused)",
        "if any(seen.explains(word, values) for values in seen.refused)",
    ),
    # a search that is cut says that no word explains it
    (
        "sitting/missing.py",
        "        return Search(tuple(found), things, False)",
        "        return Search(tuple(found), things, True)",
    ),
    # of things that aren't asked about together nothing is said
    (
        "sitting/missing.py",
        "and not yes and not _together(session.case, values)",
        "and not yes and False",
    ),
]


def texts(draw: random.Random) -> tuple[str, str]:
    """A case, and the same with a word more."""
    if draw.random() < 0.5:
        few = draw.sample(("different", "same day", "before", "not next to"), 2)
        ask = draw.choice(("all", "all triples"))
        case = GRID.format(ask=ask, words=", ".join(few))
        return case, case + f"words: {draw.choice(MORE)}\n"
    case = drawn.case_text(draw)
    return case, case + f"words: {draw.choice(FURTHER)}\n"


def answered(
    program: str, words: Vocabulary, richer: Vocabulary, plan: str, draw: random.Random
) -> Possible:
    """A session of the poorer case that an owner answers who has the richer one's words."""
    owner = Owner(richer, draw, 0.9)
    possible = Possible(words, plan)
    run = tried(program, words, plan)
    while is_question((line := run.line()).split(" ")[0]):
        values = words.values_of(line.split()[1:])
        yes = owner.accepts(values)
        run.say("yes" if yes else "no")
        possible.take(values, yes)
    run.close()
    return possible


def by_trial(words: Vocabulary, answers: list[tuple[Values, bool]]) -> list[str]:
    """The words with which no clash is left, in the order in which they are tried, a few at
    most."""
    case = words.case
    possible = Possible(words, "multi")
    for values, yes in answers:
        possible.take(values, yes)
    clash = [answers[place][0] for place in possible.clash()]
    least = [one for one in clash if not any(other.items() < one.items() for other in clash)]
    found: list[str] = []
    largest = max(words.arities)
    setting = Setting(case.things, case.values, case.value_parts)
    for form in missing.forms(case, setting, least, largest):
        if len(found) == missing.MOST_OFFERED:
            break
        try:
            richer = Vocabulary(casefile.parse(case.text + f"\nwords: {form}\n", case.path))
        except Fault:
            continue
        other = Possible(richer, "multi")
        for values, yes in answers:
            other.take(values, yes)
        if form not in {word.text for word in case.words} and not other.clash():
            found.append(form)
    return found


def sessions(program: str) -> list[str]:
    """Faults of all drawn sessions."""
    faults: list[str] = []
    clashes = named = 0
    for seed in range(SESSIONS * drawn.TIMES):
        draw = random.Random(seed)
        text, more = texts(draw)
        try:
            words, richer = Vocabulary(casefile.parse(text, "it.case")), Vocabulary(
                casefile.parse(more, "it.case")
            )
        except Fault:
            continue
        possible = answered(program, words, richer, PLANS[1 + seed % 2], draw)
        if (
            not possible.clash()
            or words.scopes != richer.scopes
            or words.lifted != richer.lifted
            and words.lifted
        ):
            continue
        search = missing.lacking(SimpleNamespace(case=words.case, possible=possible))
        wanted = by_trial(words, possible.answers)
        clashes, named = clashes + 1, named + bool(wanted)
        if list(search.words) != wanted or not search.whole or search.things:
            faults.append(f"lacking: session {seed}: {wanted} by trial, and desk says {search}")
        if len(faults) > drawn.ENOUGH:
            break
    if clashes < 8 or not 0 < named:
        faults.append(
            f"lacking: only {clashes} sessions clashed, {named} with a word, which tests little"
        )
    print(f"lacking: {clashes} clashes, of which {named} are explained by a word")
    return faults


def several(program: str) -> list[str]:
    """Of two refused examples a word has to explain both: `same` does, `before` and `after` don't."""
    text = "things: a b c d\nvalues: x y z\nask: all\nwords: different\n"
    words = Vocabulary(casefile.parse(text, "several.case"))
    possible = Possible(words, "scopes")
    possible.take({0: 0, 1: 1}, False)
    possible.take({2: 1, 3: 0}, False)
    search = missing.lacking(SimpleNamespace(case=words.case, possible=possible))
    right = list(search.words) == by_trial(words, possible.answers)
    right &= search.words[:1] == ("same",)
    return [] if right and not {"before", "after"} & set(search.words) else [f"lacking: {search}"]


def apart(program: str) -> list[str]:
    """Things that `ask` doesn't put together: that is said, with the line that does. And a search
    that is cut says so."""
    words = Vocabulary(
        casefile.parse("things: a b c\nvalues: x y\nask: a - b\nwords: different\n", "apart.case")
    )
    one = SimpleNamespace(case=words.case, possible=Possible(words, "scopes"))
    one.possible.take({0: 0, 1: 0}, True)
    told = " ".join(missing.told(one, missing.lacking(one, {0: 0, 2: 0}, False)))
    faults = (
        []
        if "doesn't put a and c together" in told
        and "`ask: a - c`" in told
        and "`different`" in told
        else [f"lacking: {told}"]
    )
    before, missing.SECONDS = missing.SECONDS, -1.0
    try:
        cut = " ".join(missing.told(one, missing.lacking(one, {0: 0, 1: 0}, False)))
    finally:
        missing.SECONDS = before
    told_so = "found in two seconds; not all were tried" in cut
    return faults + ([] if told_so else [f"lacking: {cut}"])


def run(program: str) -> list[str]:
    """The faults that were found."""
    return sessions(program) + several(program) + apart(program)
