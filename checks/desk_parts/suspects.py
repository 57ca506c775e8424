"""The suspects after a collapse beside trial of all networks, on small languages: exactly the answers whose turning alone lets
some network agree with all. And at every answer before: that the answers clash is said exactly where no network agrees."""

from __future__ import annotations

import random

import drawn
from drawn import Owner, tried
from planners_desk.case.model import PLANS, Values
from planners_desk.hints.possible import Possible
from planners_desk.sitting.session import is_question

SESSIONS = 250
MOST_NETWORKS = 3000
LISTS = 6           # of any answers, for each case
PLANTED = [
    ("hints/possible.py", "clash if len(clash) == 1 else []", "clash"),
    ("hints/possible.py", "again[scope.things] |= once[scope.things] & gone", "again[scope.things] |= 0 & gone"),
]
Net = dict[tuple[int, ...], int]


def agrees(words: drawn.Vocabulary, network: Net, values: Values, yes: bool) -> bool:
    """Whether a network gives this answer."""
    accepted = all(table >> words.place(scope, values) & 1 for scope, table in network.items() if all(thing in values for thing in scope))
    return accepted == yes


def by_trial(words: drawn.Vocabulary, every: list[Net], answers: list[tuple[Values, bool]]) -> list[int]:
    """The answers whose turning alone lets a network agree, the latest first: those networks that give all others but one."""
    found = set()
    for network in every:
        wrong = [k for k, (values, yes) in enumerate(answers) if not agrees(words, network, values, yes)]
        if len(wrong) == 1:
            found.add(wrong[0])
    return sorted(found, reverse=True)


def session(program: str, words: drawn.Vocabulary, every: list[Net], plan: str, draw: random.Random) -> tuple[list[str], bool, bool]:
    """A session in which an answer or two are turned round: the faults, whether it collapsed, whether the slip is a suspect."""
    owner = Owner(words, draw, 0.8)
    slips = set(draw.sample(range(8), draw.choice([1, 1, 1, 2])))
    possible = Possible(words, plan)
    faults = []
    left = every
    run = tried(program, words, plan)
    count = 0
    while is_question((line := run.line()).split(" ")[0]):
        values = words.values_of(line.split()[1:])
        yes = owner.accepts(values) ^ (count in slips)
        run.say("yes" if yes else "no")
        possible.take(values, yes)
        left = [network for network in left if agrees(words, network, values, yes)]
        if bool(left) == bool(possible.clash()):
            faults.append(f"{words.case.path} {plan}: {len(left)} networks agree, and the clash is {possible.clash()}")
        count += 1
    run.close()
    collapsed = line.startswith("collapsed")
    wanted = by_trial(words, every, possible.answers) if collapsed else []
    if possible.suspects() != wanted:
        faults.append(f"{words.case.path} {plan}: the suspects are {wanted}, and desk says {possible.suspects()}")
    return faults, collapsed, collapsed and len(slips) == 1 and min(slips) in wanted


def any_answers(words: drawn.Vocabulary, every: list[Net], draw: random.Random) -> list[str]:
    """Answers of any kind, as no session has them, that no network gives."""
    possible = Possible(words, "multi")
    plans = list(drawn.in_ranges(words))
    seen = set()
    for _ in range(draw.randint(3, 9)):
        whole = draw.choice(plans)
        values = {thing: whole[thing] for thing in sorted(draw.sample(sorted(whole), draw.randint(1, len(whole))))}
        if str(values) not in seen:
            seen.add(str(values))
            possible.take(values, draw.random() < 0.5)
    if any(all(agrees(words, network, values, yes) for values, yes in possible.answers) for network in every):
        return [f"{words.case.path}: a network agrees, and the clash is {possible.clash()}"] if possible.clash() else []
    wanted = by_trial(words, every, possible.answers)
    return [] if possible.suspects() == wanted else [f"{words.case.path}: of any answers the suspects are {wanted}, and desk says {possible.suspects()}"]


def run(program: str) -> list[str]:
    """Faults of all drawn sessions."""
    faults: list[str] = []
    sessions = collapses = hits = 0
    for seed, _, words in drawn.cases(range(5000, 5000 + SESSIONS * drawn.TIMES)):
        every = drawn.networks(words, MOST_NETWORKS)
        if every is None or len(every) < 3:
            continue
        found, collapsed, hit = session(program, words, every, PLANS[1 + seed % 2], random.Random(seed))
        faults += found
        for turn in range(LISTS):
            faults += any_answers(words, every, random.Random(100 * seed + turn))
        sessions, collapses, hits = sessions + 1, collapses + collapsed, hits + hit
        if len(faults) > drawn.ENOUGH:
            break
    if collapses < 10:
        faults.append(f"only {collapses} of {sessions} sessions collapsed, which tests little")
    print(f"suspects: {sessions} sessions with slips, {collapses} collapsed; of those with one slip it was a suspect in {hits}")
    return faults
