#!/usr/bin/env python3
"""How long one waits for a question where tables are full, and how such sessions end, in each plan.

usage: bench/full.py PROGRAM [--seconds N] [--case WORD] [--plan P] [--budget N ..]

PROGRAM is the built program, as crates/acquire/out/acquire. A table is full where as many things as there are values differ, as in
the weeks of a league, in exams that fill their slots and in a Sudoku; beside such tables stand shifts, machines and orders. Each
case is learned by `try` from an owner who answers by a network, in each plan or in the one that is named, and under each budget,
the program's own where none is named. A session is cut off after N seconds of the clock, 60 where none are given.

A table in Markdown comes: the questions; how the session ended, with the number of open constraints, or `cut off`; the longest wait
from an answer to the next line, in seconds of a processor and of the clock, and before which question it was; and the seconds of a
processor and of the clock in all. A wait that was cut off counts as far as it went and has `>` before it. The processor's seconds
are those of all threads of the program. The clock's are of the machine as it is, and the owner, who is this script, takes some.

Nothing is asserted of the times. A printed constraint that isn't the owner's is a fault, and then the status is 1.
"""

import functools
import itertools
import os
import random
import signal
import sys
import threading
import time
from typing import NamedTuple

sys.dont_write_bytecode = True
from printed import table, words_of
from questions import (
    APART,
    DIFFER,
    NEXT,
    PLANS,
    Program,
    Task,
    Vocabulary,
    latin_square,
    processor_of_ended,
    processor_so_far,
)
from questions import read_network, scopes_of, vocabulary
from search import ORDERS, mixed_network, sudoku, with_orders


def alldifferent(names):
    """Each two of these differ."""
    return [f"ne {one} {other}" for one, other in itertools.combinations(names, 2)]


def league(teams, weeks, by="weeks"):
    """In each week each team has a ground of its own, and each team another one each week. The variables stand by weeks, each of
    which has all values, or by teams, which lack some."""
    rows = [[f"w{week}t{team}" for team in range(1, teams + 1)] for week in range(1, weeks + 1)]
    if by == "teams":
        rows = [list(names) for names in zip(*rows)]
    network = [text for names in [*rows, *zip(*rows)] for text in alldifferent(names)]
    return Task(
        f"league of {teams} teams, {weeks} weeks, by {by}",
        vocabulary(sum(rows, []), [1, teams], ORDERS),
        network,
    )


def full_exams(count, slots):
    """Exams of one year, each two of which have students in common: each has a slot of its own."""
    names = [f"exam{i:02}" for i in range(1, count + 1)]
    return Task(
        f"{count} exams in {slots} slots",
        vocabulary(names, [1, slots], [*ORDERS, NEXT, APART]),
        alldifferent(names),
    )


def shifts(days, places, nurses):
    """Three shifts a day with so many places: who works on a day works once, and nobody a night and the next morning."""
    of_shift = [
        [f"d{day}s{shift}p{place}" for place in range(1, places + 1)]
        for day in range(1, days + 1)
        for shift in (1, 2, 3)
    ]
    network = [
        text
        for day in range(days)
        for text in alldifferent(sum(of_shift[3 * day : 3 * day + 3], []))
    ]
    for night, morning in zip(of_shift[2::3], of_shift[3::3]):
        network += [f"ne {one} {other}" for one, other in itertools.product(night, morning)]
    return Task(
        f"shifts of {days} days, {places} places, {nurses} nurses",
        vocabulary(sum(of_shift, []), [1, nurses], ORDERS),
        network,
    )


def job_shop(jobs, machines, slots, number):
    """Each job goes through all machines, in a drawn order, and each machine has one job at a time."""
    draw = random.Random(number)
    of_job = [
        [f"j{job:02}m{machine}" for machine in range(1, machines + 1)] for job in range(1, jobs + 1)
    ]
    rank = {
        name: place for names in of_job for place, name in enumerate(draw.sample(names, machines))
    }
    pairs = [pair for names in of_job for pair in itertools.combinations(names, 2)]
    network = [f"{'lt' if rank[one] < rank[other] else 'gt'} {one} {other}" for one, other in pairs]
    network += [text for names in zip(*of_job) for text in alldifferent(names)]
    return Task(
        f"job shop of {jobs} jobs, {machines} machines",
        vocabulary(sum(of_job, []), [1, slots], ORDERS),
        network,
    )


def cases():
    """How each case is made."""
    yield lambda: with_orders(latin_square(6, ORDERS))
    yield lambda: with_orders(latin_square(8, ORDERS))
    yield sudoku
    yield lambda: league(8, 7, "weeks")
    yield lambda: league(8, 7, "teams")
    yield lambda: full_exams(48, 48)
    yield lambda: shifts(7, 2, 12)
    yield lambda: job_shop(10, 5, 40, 3)
    yield lambda: mixed_network(128, 64, 800, 7)
    yield lambda: mixed_network(128, 64, 1_200, 7)
    yield lambda: mixed_network(128, 64, 1_800, 7)


def accepts(task, shown):
    """Whether the shown values break no constraint of the owner's, all of which are on two variables. It looks at the pairs that are
    shown where these are fewer than the constraints."""
    if len(shown) ** 2 // 2 > len(task.network):
        return task.accepts(shown)
    pairs = (pair for pair in itertools.combinations(shown, 2) if pair in task.network)
    return all((shown[one], shown[other]) in task.network[one, other] for one, other in pairs)


class Wait(NamedTuple):
    """A wait for a line, in seconds of a processor and of the clock, and the number of the question that was due."""

    processor: float
    clock: float
    question: int


class Watched:
    """A session whose owner answers by the task's network, cut off after so many seconds of the clock."""

    def __init__(self, program, task, words, seconds):
        before, self.begun = processor_of_ended(), time.perf_counter()
        self.run = Program(program, stack=None).run([":memory:", "try", *words])
        self.is_cut, self.waits, self.last, self.taken = False, [], [], 0.0
        clock = threading.Timer(seconds, self.cut)
        clock.start()
        self.answer_all(task)
        clock.cancel()
        self.run.close()
        self.processor, self.clock = processor_of_ended() - before, time.perf_counter() - self.begun
        self.waits.append(
            Wait(self.processor - self.taken, self.ended - self.asked, len(self.waits) + 1)
        )

    def cut(self):
        self.is_cut = True
        os.kill(self.run.pid, signal.SIGKILL)

    def answer_all(self, task):
        """Answers until the program ends or is cut off, and notes each wait for a question."""
        self.asked = self.begun
        self.run.write(Vocabulary(task.vocabulary).line)
        while line := self.run.line():
            self.ended = time.perf_counter()
            number, *parts = line.split(" ")
            if self.last or number != f"q{len(self.waits) + 1}":
                self.last.append(line)
                continue
            taken = processor_so_far(self.run.pid) or self.taken
            self.waits.append(
                Wait(taken - self.taken, self.ended - self.asked, len(self.waits) + 1)
            )
            self.taken = taken
            shown = {name: int(value) for name, value in (part.split("=") for part in parts)}
            said = b"yes\n" if accepts(task, shown) else b"no\n"
            self.asked = time.perf_counter()
            self.run.write(said)
        if self.is_cut:
            self.last, self.ended = [], time.perf_counter()


def row_of(program, task, words, seconds):
    """The cells of a session behind its case. Fails where the program isn't right."""
    session = Watched(program, task, words, seconds)
    longest = max(session.waits)
    more = ">" if session.is_cut and longest is session.waits[-1] else ""
    if session.is_cut:
        ending = "cut off"
    else:
        read_network(task, session.last)
        opened = sum(line.startswith("open ") for line in session.last)
        ending = session.last[0].split(" ")[0] + (f", {opened:,} open" if opened else "")
    at = f"{longest.question:,}" if longest.question < len(session.waits) else "the end"
    waited = f"{more}{longest.processor:.2f} ({more}{longest.clock:.2f}), {at}"
    return [
        f"{len(session.waits) - 1:,}",
        ending,
        waited,
        f"{session.processor:.1f} ({session.clock:.0f})",
    ]


def main():
    given = words_of(
        __doc__,
        "bench/full.py PROGRAM [--seconds N] [--case WORD] [--plan P] [--budget N ..]",
        (["--seconds"], {"type": float, "default": 60}),
        (["--case"], {"default": ""}),
        (["--plan"], {"choices": PLANS}),
        (["--budget"], {"action": "append", "default": []}),
    )
    heads = ["case", "variables, scopes, constraints", "plan", "budget", "questions", "ending"]
    heads += ["longest wait, s (by the clock)", "s in all"]

    def cells(task, plan, budget):
        size = f"{len(task.vocabulary['variables'])}, {scopes_of(task):,}, {len(task.network):,}"
        options = ["--plan", plan, *(["--budget", budget] if budget else [])]
        spent = row_of(given.program, task, options, given.seconds)
        return [task.name, size, plan, budget or "100000", *spent]

    rows = (
        (f"{task.name}, plan {plan}", functools.partial(cells, task, plan, budget))
        for task in (make() for make in cases())
        if given.case in task.name
        for plan, budget in itertools.product(
            [given.plan] if given.plan else PLANS, given.budget or [""]
        )
    )
    table(heads, rows)


if __name__ == "__main__":
    main()
