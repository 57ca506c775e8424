#!/usr/bin/env python3
"""The field's usual experiment: a target network answers, and the questions are counted by kind.

usage: examples/experiment/experiment.py [PLAN ..]

Each task is a vocabulary and a target, constraints of that vocabulary. The target accepts a partial assignment where it breaks none
of them; that is all an oracle is. For each task and plan a row says how many constraints the target has and how many were learned,
how many questions were put, how many of these gave each variable a value, and how many values a question shows on the average. What
was learned has to have the target's solutions: each constraint of the target is learned, or follows from those that are.
"""

import itertools
import os
import random
import sys

sys.path.insert(0, os.path.join(os.path.dirname(os.path.abspath(__file__)), "..", "..", "python"))
from acquire import PLANS, Converged, Session, Vocabulary


def relation(name, sign):
    return {"name": name, "arity": 2, "formula": [sign, "$0", "$1"]}


EQUAL, DIFFER = relation("eq", "="), relation("ne", "!=")
NEXT = {"name": "next", "arity": 2, "formula": ["=", ["abs", ["-", "$0", "$1"]], 1]}
RIGHT = {"name": "right", "arity": 2, "formula": ["=", "$0", ["+", "$1", 1]]}
FIRST_THIRD = {"name": "first_third", "arity": 2, "formula": ["and", ["=", "$0", 1], ["=", "$1", 3]]}


def vocabulary(variables, last, relations):
    return Vocabulary({"variables": variables, "domain": [1, last], "relations": relations, "scopes": "all"})


def zebra():
    """Five houses in a row, and in each somebody with a colour, an animal, a drink and a brand."""
    groups = [
        ["english", "spanish", "ukrainian", "norwegian", "japanese"],
        ["red", "green", "ivory", "yellow", "blue"],
        ["dog", "snails", "fox", "horse", "zebra"],
        ["coffee", "tea", "milk", "juice", "water"],
        ["oldgold", "kools", "chesterfield", "luckystrike", "parliament"],
    ]
    target = [f"ne {one} {other}" for group in groups for one, other in itertools.combinations(group, 2)]
    target.remove("ne green ivory")
    target += ["eq english red", "eq spanish dog", "eq green coffee", "eq ukrainian tea", "right green ivory", "eq snails oldgold",
               "eq yellow kools", "first_third norwegian milk", "next fox chesterfield", "next horse kools", "eq juice luckystrike",
               "eq japanese parliament", "next norwegian blue"]
    return vocabulary([name for group in groups for name in group], 5, [EQUAL, DIFFER, NEXT, RIGHT, FIRST_THIRD]), target


def random_pairs(count, last, constraints):
    """So many pairs of variables differ, drawn so that some assignment meets them all."""
    draw = random.Random(constraints)
    names = [f"v{i:02}" for i in range(count)]
    hidden = {name: draw.randint(1, last) for name in names}
    pairs = [pair for pair in itertools.combinations(names, 2) if hidden[pair[0]] != hidden[pair[1]]]
    return vocabulary(names, last, [EQUAL, DIFFER]), [f"ne {one} {other}" for one, other in sorted(draw.sample(pairs, constraints))]


TASKS = {
    "zebra": zebra,
    "random 50, 12 constraints": lambda: random_pairs(50, 10, 12),
    "random 50, 122 constraints": lambda: random_pairs(50, 10, 122),
}


def oracle(constraints):
    """A function that accepts what breaks no constraint. Those on variables that aren't shown say nothing."""
    return lambda shown: all(constraint.holds(shown) is not False for constraint in constraints)


def follows(words, constraint, learned):
    """Whether a constraint is among those that were learned, or follows from them by a search with the fewest values first."""
    if constraint in learned:
        return True
    names = [*constraint.variables]
    while more := {name for it in learned if set(it.variables) & set(names) for name in it.variables} - set(names):
        names += sorted(more)
    on = {name: [it for it in learned if name in it.variables] for name in names}

    def is_met(assignment):
        if len(assignment) == len(names):
            return True
        left = {name: [value for value in words.values(name) if all(it.holds({**assignment, name: value}) is not False for it in on[name])]
                for name in names if name not in assignment}
        name = min(left, key=lambda it: len(left[it]))
        return any(is_met({**assignment, name: value}) for value in left[name])

    rejected = itertools.product(*map(words.values, constraint.variables))
    starts = [dict(zip(constraint.variables, values, strict=True)) for values in rejected if not constraint.predicate(*values)]
    return not any(all(it.holds(start) is not False for it in learned) and is_met(start) for start in starts)


def row(name, words, target, plan):
    """A task learned in a plan, as a row of the table."""
    constraints = [words.constraint(text) for text in target]
    with Session(words, plan=plan) as session:
        ending = session.run(oracle(constraints))
        asked = [answer.question for answer in session.answers]
    assert isinstance(ending, Converged), f"{name}, {plan}: {ending}"
    assert all(follows(words, constraint, set(ending.learned)) for constraint in constraints), f"{name}, {plan}: not the target's solutions"
    complete = sum(question.is_complete for question in asked)
    shown = sum(len(question.shown) for question in asked) / len(asked)
    return f"| {name} | {plan} | {len(target)} | {len(ending.learned)} | {len(asked):,} | {complete:,} | {shown:.1f} |"


def main():
    plans = sys.argv[1:] or ["quacq", "multi"]
    if not set(plans) <= set(PLANS):
        sys.exit(__doc__)
    print("| task | plan | target | learned | questions | complete | values shown |\n|---|---|---|---|---|---|---|")
    for name, make in TASKS.items():
        words, target = make()
        for plan in plans:
            print(row(name, words, target, plan), flush=True)


main()
