#!/usr/bin/env python3
"""How much the order of the variables changes the number of questions.

usage: bench/order.py PROGRAM [--draws N] [--case WORD]

PROGRAM is the built program, as crates/acquire/out/acquire. Each task is learned by `try` in plans `quacq` and `multi` from an owner
who answers by a network: once with its variables as they stand, where those that belong together are neighbours, and N times with
them shuffled, 5 where none are given, by draws of fixed numbers. The network stays the same. A table in Markdown comes: the
questions as it stands, and the least and the most of the shuffled ones. Plan `scopes` asks about scopes one by one, so it isn't tried.
"""

import random
import sys

sys.dont_write_bytecode = True
from full import job_shop, league, shifts
from printed import head, row, words_of
from questions import Task, exams, latin_square, learn, zebra


def cases():
    yield zebra
    yield lambda: latin_square(4)
    yield lambda: shifts(7, 2, 12)
    yield lambda: league(6, 5, "weeks")
    yield lambda: job_shop(10, 5, 40, 3)
    yield lambda: exams(24, 10, 24)


def turned_round(formula):
    """A formula with the first and the second place exchanged."""
    if isinstance(formula, list):
        return [formula[0], *map(turned_round, formula[1:])]
    return {"$0": "$1", "$1": "$0"}.get(formula, formula)


def opposites_of(task):
    """The vocabulary with the opposite of each relation, and the name of each one's opposite: where the variables of a constraint
    change places, its relation is turned round."""
    relations, opposite = list(task.vocabulary["relations"]), {}
    table = {name: frozenset((other, one) for one, other in it) for name, it in task.tables.items()}
    for it in task.vocabulary["relations"]:
        name = next(
            (name for name, it_has in task.tables.items() if it_has == table[it["name"]]), None
        )
        if name is None:
            name = f"{it['name']}_turned"
            relations.append({**it, "name": name, "formula": turned_round(it["formula"])})
            opposite[name] = it["name"]
        opposite[it["name"]] = name
    return {**task.vocabulary, "relations": relations}, opposite


def in_order(task, names):
    """The same task, with the opposites of its relations, and with its variables in this order."""
    vocabulary, opposite = opposites_of(task)
    place = {name: at for at, name in enumerate(names)}
    constraints = []
    for relation, one, other in (text.split(" ") for text in task.constraints):
        if place[one] > place[other]:
            relation, one, other = opposite[relation], other, one
        constraints.append(f"{relation} {one} {other}")
    return Task(task.name, {**vocabulary, "variables": list(names)}, constraints)


def row_of(program, task, plan, draws):
    """The cells of a task and a plan."""
    names = task.vocabulary["variables"]
    orders = [names, *(random.Random(number).sample(names, len(names)) for number in range(draws))]
    learned = [learn(program, in_order(task, order), "--plan", plan) for order in orders]
    first, *others = (len(it.questions) for it in learned)
    endings = sorted({it.last[0].split(" ")[0] for it in learned})
    more = [f"{100 * (count - first) / first:+.0f}" for count in (min(others), max(others))]
    return [
        task.name,
        plan,
        f"{first:,}",
        f"{min(others):,} to {max(others):,}",
        f"{more[0]} to {more[1]} in 100",
        ", ".join(endings),
    ]


def main():
    given = words_of(
        __doc__,
        "bench/order.py PROGRAM [--draws N] [--case WORD]",
        (["--draws"], {"type": int, "default": 5}),
        (["--case"], {"default": ""}),
    )
    head("task", "plan", "as it stands", "shuffled", "more", "ending")
    for make in cases():
        task = make()
        if given.case in task.name:
            for plan in ("quacq", "multi"):
                row(*row_of(given.program, task, plan, given.draws))


if __name__ == "__main__":
    main()
