#!/usr/bin/env python3
"""How often a wrong answer is noticed, in each plan, on the tasks of bench/questions.py.

usage: bench/slips.py PROGRAM [WORD ..]

PROGRAM is the built program, as crates/acquire/out/acquire. In each session the owner of a task gives one wrong answer: which one
is drawn from fixed numbers, of as many as a session without a slip has. It is noticed where the session collapses. With WORDs, only
the tasks whose name has one of them are taken. Tables in Markdown come: how many of the sessions were noticed, and how far back
the slip lay in those: how many noes came after it.
"""

import random
import sys
from collections import Counter

from questions import PLANS, learn, tasks

SESSIONS = 30


class Slipping:
    """A task whose owner turns the answer to one question, counted from 1."""

    def __init__(self, task, slip):
        self.vocabulary = task.vocabulary
        self.task = task
        self.slip = slip
        self.asked = 0

    def accepts(self, shown):
        self.asked += 1
        return self.task.accepts(shown) != (self.asked == self.slip)


def noes_after(answers, slip):
    """How many noes came after the slip, which is counted from 1."""
    return answers[slip:].count("no")


def main():
    if len(sys.argv) < 2:
        print(__doc__)
        sys.exit(2)
    program, *wanted = sys.argv[1:]
    rows, back = [], Counter()
    for make in tasks():
        task = make()
        if wanted and not any(word in task.name for word in wanted):
            continue
        cells = []
        for plan in PLANS:
            length = len(learn(program, task, "--plan", plan).questions)
            draw = random.Random(f"{task.name} {plan}")
            noticed = 0
            for _ in range(SESSIONS):
                slip = draw.randint(1, length)
                learned = learn(program, Slipping(task, slip), "--plan", plan)
                if learned.last[0].startswith("collapsed"):
                    noticed += 1
                    back[noes_after(learned.answers, slip)] += 1
            cells.append(str(noticed))
            print(f"{task.name}, plan {plan}: {noticed} of {SESSIONS}", file=sys.stderr, flush=True)
        rows.append(f"| {task.name} | {' | '.join(cells)} |")
    plans = " | ".join(f"`{plan}`" for plan in PLANS)
    print(f"| noticed, of {SESSIONS} | {plans} |\n|---|---|---|---|")
    print("\n".join(rows))
    print("\n| noes after the slip | sessions |\n|---|---|")
    for noes, count in sorted(back.items()):
        print(f"| {noes} | {count} |")


if __name__ == "__main__":
    main()
