"""Counts and bounds of desk beside the program: candidates beside `created`, and at every question
of drawn sessions the bound beside the questions that came. All arities, ranges, three plans, people
who follow a network and people who toss a coin."""

from __future__ import annotations

import random

import drawn
from drawn import Owner, tried
from planners_desk.case.model import PLANS
from planners_desk.hints.possible import Possible
from planners_desk.sitting.session import is_question
from planners_desk.program.talk import Program

SESSIONS = 240
PLANTED = [
    ("hints/possible.py", "return left, left + len(scope.things) * self._lg + 1", "return left, left - 1 + len(scope.things) * self._lg // 2"),
    ("hints/possible.py", "            return left, left\n", "            return left, left - 1\n"),
    ("hints/possible.py", "        for scope, left, needed in reversed(self._undo.pop()):", "        for scope, left, needed in self._undo.pop()[1:]:"),
    ("hints/possible.py", "                if len(scope.things) == len(values):\n", "                if len(scope.things) <= len(values):\n"),
    # a settled rule is shown as one that is at stake
    ("hints/possible.py", " or (scope.needed and scope.left.bit_count() == 1):\n                continue", ":\n                continue"),
    # words are combined with themselves alone
    ("program/closing.py", "for new in [table] + [table & other for other in found]:", "for new in [table]:"),
]


def created(program: str, words: drawn.Vocabulary) -> list[str]:
    """Whether the program counts the same scopes and candidates."""
    reply = Program(program).call([":memory:", "new"], words.json.encode())
    shown = Possible(words, "scopes").total
    for scope in words.scopes:
        inside = words.inside(scope)
        shown += any(table & inside == inside for table in words.closings[len(scope)].tables)
    wanted = f"created variables {len(words.case.things)} scopes {len(words.scopes)} candidates {shown}"
    return [] if reply.text.strip() == wanted else [f"{words.case.path}: {reply.text.strip()}, and desk counts: {wanted}"]


def at_stake(words: drawn.Vocabulary, possible: Possible, draw: random.Random) -> list[str]:
    """What a yes to some plan would rule out: the rules that it breaks, that some candidate of a
    group says which is still possible, and none of a group on which the rule is settled; counted
    here from the answers."""
    values = {thing: words.coding.value_of[draw.randint(*ends) - 1] for thing, ends in enumerate(words.coding.ranges)}
    wanted = set()
    for scope in words.scopes:
        inside = words.inside(scope)
        refused = [words.place(scope, some) for some, yes in possible.answers if not yes and set(some) == set(scope)]
        accepted = [words.place(scope, some) for some, yes in possible.answers if yes and set(scope) <= set(some)]
        left = {table & inside for table in words.closings[len(scope)].tables if table & inside != inside}
        left = {table for table in left if all(table >> place & 1 for place in accepted) and not any(table >> place & 1 for place in refused)}
        if not refused or len(left) > 1:
            wanted |= {rule.text for rule, table in words.rules_on(scope) if rule.violated(values) and any(one & table == one for one in left)}
    got = {rule.text for rule in possible.at_stake(values, 1000)}
    return [] if got == wanted else [f"{words.case.path}: at stake are {sorted(wanted)}, and desk says {sorted(got)}"]


def session(program: str, words: drawn.Vocabulary, plan: str, draw: random.Random) -> tuple[list[str], int, int]:
    """One session: the faults, how many questions came, and the first bound."""
    owner = Owner(words, draw)
    coin = draw.random() < 0.25
    possible = Possible(words, plan)
    before = [(possible.most, possible.settled, possible.finished)]
    faults = []
    run = tried(program, words, plan)
    while is_question((line := run.line()).split(" ")[0]):
        values = words.values_of(line.split()[1:])
        if words.tokens_of(values) != line.split()[1:]:
            faults.append(f"{words.case.path} {plan}: {line} is read as {values}")
        yes = draw.random() < 0.6 if coin else owner.accepts(values)
        run.say("yes" if yes else "no")
        possible.take(values, yes)
        if draw.random() < 0.1:         # a step back leaves everything as it was
            possible.back()
            if (possible.most, possible.settled, possible.finished) != before[-1]:
                faults.append(f"{words.case.path} {plan}: a step back leaves {possible.most}, {possible.settled}, {possible.finished} "
                              f"and not {before[-1]}")
            possible.take(values, yes)
        before.append((possible.most, possible.settled, possible.finished))
        faults += at_stake(words, possible, draw) if len(before) % 3 == 0 else []
        finished = sum(not possible.open(scope) for scope in words.scopes)
        if not possible.progress.startswith(f"{finished} of {len(words.scopes)} groups finished; at most {possible.most} more question"):
            faults.append(f"{words.case.path} {plan}: it says `{possible.progress}`, and {finished} groups are finished")
    run.close()
    came = len(before) - 1
    faults += [f"{words.case.path} {plan}: before question {k + 1} the bound is {most}, and {came - k} came" for k, (most, *_) in enumerate(before) if most < came - k]
    faults += [f"{words.case.path} {plan}: settled {settled} of {possible.total}" for _, settled, _ in before if not 0 <= settled <= possible.total]
    if line.startswith("converged") and plan == "scopes" and before[-1] != (0, possible.total, len(words.scopes)):
        faults.append(f"{words.case.path} {plan}: converged with {before[-1]} of {possible.total}")
    return faults, came, before[0][0]


def run(program: str) -> list[str]:
    """Faults of all drawn sessions."""
    faults: list[str] = []
    questions = bound = sessions = 0
    for seed, _, words in drawn.cases(range(SESSIONS * drawn.TIMES)):
        faults += created(program, words)
        found, came, most = session(program, words, PLANS[seed % 3], random.Random(1000 + seed))
        faults += found
        questions, bound, sessions = questions + came, bound + most, sessions + 1
        if len(faults) > drawn.ENOUGH:
            break
    print(f"bounds: {sessions} sessions of {questions} questions, at each the bound; at first it was {bound / max(questions, 1):.2f} times what came")
    return faults
