#!/usr/bin/env python3
"""How many questions there may be, and how many were asked.

usage: bench/bounds.py PROGRAM [WORD ..]

PROGRAM is the built program, as crates/acquire/out/acquire. Each task is learned in each plan by `new` and `play` over a journal
of its own, with the owner's network as the target; with WORDs, only the tasks whose name has one of them. A table in Markdown
comes. For a language of n variables whose longest scope has a, and for k learned constraints, there are at most

    candidates + k * (a * lg n + 1)

questions, lg n being the least number of halvings that leave one of n. The candidates are those that `new` prints, n and a are
read from the vocabulary, and k is the number of constraints that `play` prints. Nobody knows k before, but it is at most the
number of scopes on which the owner has a constraint: the bound with that number stands in the table too. A session with more
questions than a bound, or with another ending than `converged`, is a fault, and the status is 1.
"""

import json
import os
import subprocess
import sys
import tempfile
from typing import NamedTuple

sys.path.insert(0, os.path.dirname(os.path.abspath(__file__)))
from questions import PLANS, example, exams, latin_square

CREATED = ["created", "variables", "scopes", "candidates"]


def tasks():
    yield lambda: example("roster")
    yield lambda: example("timetable")
    yield lambda: latin_square(4)
    yield lambda: exams(100, 20, 100)


def halvings(count):
    """The least k with count at most 2 to the k."""
    return max(count - 1, 0).bit_length()


def longest_scope(vocabulary):
    """How many variables the longest scope has."""
    scopes = vocabulary["scopes"]
    if scopes != "all":
        return max(map(len, scopes), default=0)
    return max(relation["arity"] for relation in vocabulary["relations"])


class Played(NamedTuple):
    """What `new` and `play` said: numbers of variables, scopes and candidates, of the questions, and the learned constraints."""

    variables: int
    scopes: int
    candidates: int
    asked: int
    learned: list


def run(program, journal, words, text):
    return subprocess.run([program, journal, *words], input=text, stdout=subprocess.PIPE, text=True).stdout.splitlines()


def play(program, task, plan):
    """A session that the owner's network answers. Fails where it doesn't converge."""
    with tempfile.TemporaryDirectory() as folder:
        journal = os.path.join(folder, "journal")
        created = run(program, journal, ["new", "--plan", plan], json.dumps(task.vocabulary))
        assert len(created) == 1, f"new: {created}"
        words = created[0].split(" ")
        assert [words[0], *words[1::2]] == CREATED, f"new: {created[0]}"
        target = [constraint.split(" ") for constraint in task.constraints]
        lines = run(program, journal, ["play"], json.dumps(target))
    asked = sum(line.startswith("q") and line.split(" ")[0][1:].isdigit() for line in lines)
    rest = lines[asked:]
    assert rest and rest[0] == f"converged {asked}", f"play: {rest[:1]}"
    return Played(*map(int, words[2::2]), asked, rest[1:])


def bound(task, played, learned):
    """At most so many questions where so many constraints were learned."""
    cost = longest_scope(task.vocabulary) * halvings(played.variables) + 1
    return played.candidates + learned * cost


def row(program, task):
    """The task's line of the table."""
    cells = []
    for plan in PLANS:
        played = play(program, task, plan)
        most = bound(task, played, len(played.learned))
        before = bound(task, played, len(task.network))
        assert played.asked <= most <= before, f"plan {plan}: {played.asked} questions, and the bounds are {most} and {before}"
        cells.append(f"{played.asked:,} of {most:,} ({len(played.learned):,})")
        print(f"{task.name}, plan {plan}: {cells[-1]}", file=sys.stderr, flush=True)
    size = f"{played.variables}, {played.scopes:,}, {played.candidates:,}"
    return f"| {task.name} | {size} | {before:,} ({len(task.network):,}) | {' | '.join(cells)} |"


def main():
    if len(sys.argv) < 2:
        print(__doc__)
        sys.exit(2)
    program, *wanted = sys.argv[1:]
    rows, right = [], True
    for make in tasks():
        task = make()
        if wanted and not any(word in task.name for word in wanted):
            continue
        try:
            rows.append(row(program, task))
        except AssertionError as fault:
            print(f"{task.name}, {fault}")
            right = False
    plans = " | ".join(f"`{plan}`" for plan in PLANS)
    print(f"| task | variables, scopes, candidates | bound (constraints) | {plans} |\n|---|---|---|---|---|---|")
    print("\n".join(rows))
    sys.exit(0 if right else 1)


if __name__ == "__main__":
    main()
