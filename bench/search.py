#!/usr/bin/env python3
"""What learning costs where there are many questions or long searches, and how that of two programs compares.

usage: bench/search.py PROGRAM [OTHER] [--all] [--case WORD]

PROGRAM is the built program, as crates/acquire/out/acquire. Each case is learned by `try` from an owner who answers by a
network. Then the same answers are given once more in one piece, and the processor time of the program alone is taken, its
start included: the least of three where that is below half a second. Then `play` lets the network answer, over a journal on a
file system in memory, where there is one. A table in Markdown comes: the questions, the ending, how many constraints were
learned and how many are open; the time, that for a question, and the longest from one question to the next; where GNU time is
there, the most memory; and the time of `play`. The longest cases come with --all alone; with --case those that have WORD in
their names.

OTHER is a second program, such as an earlier build. It gets the same answers, and further columns have its time, how many times
as long it takes, and whether it prints the same. Where it doesn't, it learns for itself, and how it ends is said there too.

Nothing is asserted of the times. A printed constraint that isn't the owner's is a fault, and so is a text that differs where
the answers come in one piece, or where the network answers; then the status is 1.

All cases are made here and in bench/questions.py, those that are drawn from fixed numbers.
"""

import itertools
import json
import operator
import os
import random
import subprocess
import sys
import tempfile

sys.dont_write_bytecode = True
from journals import Cost
from printed import table, words_of
from questions import AFTER, BEFORE, DIFFER, EQUAL, Task
from questions import (
    drawn_network,
    exams,
    golomb,
    latin_square,
    learn,
    read_network,
    relation,
    scopes_of,
    vocabulary,
    zebra,
)

NO_LATER, NO_EARLIER = relation("le", ["<=", "$0", "$1"]), relation("ge", [">=", "$0", "$1"])
ORDERS = [EQUAL, DIFFER, BEFORE, NO_LATER, AFTER, NO_EARLIER]
SHORT = 0.5


def sudoku():
    """Cells of one row, one column or one box differ."""
    cells = list(itertools.product(range(9), repeat=2))
    name = lambda cell: f"x{cell[0] + 1}{cell[1] + 1}"
    box = lambda cell: (cell[0] // 3, cell[1] // 3)
    meet = lambda one, other: one[0] == other[0] or one[1] == other[1] or box(one) == box(other)
    network = [
        f"ne {name(one)} {name(other)}"
        for one, other in itertools.combinations(cells, 2)
        if meet(one, other)
    ]
    return Task(
        "Sudoku 9 by 9", vocabulary([name(cell) for cell in cells], [1, 9], ORDERS), network
    )


def queens(size):
    """Fields with a queen (1) or without (0): no two on one row, column or diagonal."""
    fields = list(itertools.product(range(1, size + 1), repeat=2))
    name = lambda field: f"x{field[0]}{field[1]}"

    def attack(one, other):
        rows, columns = abs(one[0] - other[0]), abs(one[1] - other[1])
        return rows == 0 or columns == 0 or rows == columns

    network = [
        f"nand {name(one)} {name(other)}"
        for one, other in itertools.combinations(fields, 2)
        if attack(one, other)
    ]
    both = ["+", "$0", "$1"]
    relations = [relation("nand", ["<=", both, 1]), relation("or", [">=", both, 1]), EQUAL, DIFFER]
    return Task(
        f"queens on {size} by {size} fields",
        vocabulary([name(field) for field in fields], [0, 1], relations),
        network,
    )


def mixed_network(count, values, constraints, number):
    """An order relation on each of so many pairs, drawn so that some values meet them all; each pair is asked about."""
    draw = random.Random(number)
    tests = {
        "ne": operator.ne,
        "lt": operator.lt,
        "le": operator.le,
        "gt": operator.gt,
        "ge": operator.ge,
    }
    names = [f"v{i:03}" for i in range(1, count + 1)]
    hidden = {name: draw.randint(1, values) for name in names}
    network = []
    for one, other in sorted(draw.sample(list(itertools.combinations(names, 2)), constraints)):
        met = [name for name, test in tests.items() if test(hidden[one], hidden[other])]
        network.append(f"{draw.choice(met)} {one} {other}")
    return Task(
        f"{count} variables, {constraints} mixed", vocabulary(names, [1, values], ORDERS), network
    )


def bounded_sums(count, scopes, number):
    """Four variables at a time, of 16 values each: their sum is below the most that it could be. So a reply to a telling apart
    comes from the last of 65,536 tuples."""
    draw = random.Random(number)
    names = [f"v{i:02}" for i in range(1, count + 1)]
    drawn = set()
    while len(drawn) < scopes:
        drawn.add(tuple(sorted(draw.sample(names, 4))))
    listed = sorted(drawn)
    relations = [relation("below", ["<", ["+", "$0", "$1", "$2", "$3"], 60], 4)]
    network = [" ".join(["below", *four]) for four in listed]
    return Task(
        f"{count} variables of arity 4",
        vocabulary(names, [0, 15], relations, [list(four) for four in listed]),
        network,
    )


def with_ranges(task):
    """Every second variable lacks the least value of the domain, and every third the greatest."""
    names, (first, last) = task.vocabulary["variables"], task.vocabulary["domain"]
    bounds = [(name, first + (i % 2), last - (i % 3 == 0)) for i, name in enumerate(names)]
    ranges = [[name, least, most] for name, least, most in bounds if (least, most) != (first, last)]
    return Task(f"{task.name} with ranges", {**task.vocabulary, "ranges": ranges}, task.constraints)


def with_orders(task):
    """A task of whose relations are the orders too, by a name that says so."""
    return Task(f"{task.name}, orders", task.vocabulary, task.constraints)


def milliseconds(seconds):
    return f"{seconds * 1000:,.0f}" if seconds >= 0.01 else f"{seconds * 1000:.1f}"


class Case:
    """A task, and the words with which it is learned."""

    def __init__(self, task, *words):
        self.task = task
        self.words = words
        self.name = ", ".join(
            [
                task.name,
                *(f"{option[2:]} {value}" for option, value in zip(words[::2], words[1::2])),
            ]
        )
        self.vocabulary = json.dumps(task.vocabulary, separators=(",", ":"))

    def input_of(self, learned):
        return "".join(f"{line}\n" for line in [self.vocabulary, *learned.answers]).encode()


def cases():
    """How each case is made, and whether it is a long one."""
    yield False, lambda: Case(with_orders(latin_square(4, ORDERS)))
    yield False, lambda: Case(with_orders(latin_square(5, ORDERS)))
    yield False, lambda: Case(sudoku(), "--budget", "500")
    yield False, lambda: Case(zebra())
    yield False, lambda: Case(with_orders(drawn_network(50, 10, 122, 122, ORDERS)))
    yield False, lambda: Case(mixed_network(50, 10, 122, 122))
    yield False, lambda: Case(exams(24, 10, 24))
    yield False, lambda: Case(exams(60, 15, 60))
    yield False, lambda: Case(with_ranges(exams(60, 15, 60)))
    yield False, lambda: Case(exams(60, 15, 60), "--plan", "multi")
    yield False, lambda: Case(golomb(7, 15))
    yield False, lambda: Case(queens(8))
    yield True, lambda: Case(with_orders(drawn_network(128, 10, 300, 300, ORDERS)))
    yield True, lambda: Case(mixed_network(128, 10, 300, 300))
    yield True, lambda: Case(mixed_network(128, 10, 300, 300), "--plan", "multi")
    yield True, lambda: Case(exams(100, 20, 100))
    yield True, lambda: Case(exams(128, 20, 128))
    yield True, lambda: Case(exams(100, 20, 100), "--plan", "scopes")
    yield True, lambda: Case(mixed_network(128, 10, 300, 300), "--plan", "scopes")
    yield True, lambda: Case(bounded_sums(60, 2380, 60), "--plan", "scopes")


def replay(program, case, learned):
    """What the program prints for the same answers in one piece, the least seconds of a processor, and its memory."""
    cost = Cost([program, ":memory:", "try", *case.words], case.input_of(learned), subprocess.PIPE)
    seconds = cost.processor
    if seconds < SHORT:
        more = (
            Cost(
                [program, ":memory:", "try", *case.words],
                case.input_of(learned),
                subprocess.DEVNULL,
            )
            for _ in range(2)
        )
        seconds = min(seconds, *(one.processor for one in more))
    return cost.text, seconds, cost.memory


def played(program, case, learned):
    """The seconds of a processor that `play` takes. Fails where it prints something else than `try` does, with the answers."""
    target = json.dumps(
        [text.split(" ") for text in case.task.constraints], separators=(",", ":")
    ).encode()
    options = list(zip(case.words[::2], case.words[1::2]))
    words_of = lambda name: [word for option in options if option[0] == name for word in option]
    with tempfile.TemporaryDirectory(
        dir="/dev/shm" if os.path.isdir("/dev/shm") else None
    ) as folder:
        journal = os.path.join(folder, "journal")
        made = Cost(
            [program, journal, "new", *words_of("--plan")],
            case.vocabulary.encode(),
            subprocess.DEVNULL,
        )
        assert made.status == 0, "new is refused"
        cost = Cost([program, journal, "play", *words_of("--budget")], target, subprocess.PIPE)
    questions = learned.text().splitlines()[: len(learned.answers)]
    lines = [
        *(f"{question} {answer}" for question, answer in zip(questions, learned.answers)),
        *learned.last,
    ]
    assert cost.text == "".join(f"{line}\n" for line in lines), "play prints something else"
    return cost.processor


def compare_with(other, case, learned, seconds):
    """The cells of the other program."""
    text, spent, _ = replay(other, case, learned)
    if text == learned.text():
        return [milliseconds(spent), f"{spent / seconds:.1f}", "yes"]
    own = learn(other, case.task, *case.words)
    _, spent, _ = replay(other, case, own)
    return [milliseconds(spent), f"{spent / seconds:.1f}", f"no, {own.last[0]}"]


def row_of(program, other, case):
    """The cells of a case. Fails where the program isn't right."""
    learned = learn(program, case.task, *case.words)
    printed, _ = read_network(case.task, learned.last)
    text, seconds, memory = replay(program, case, learned)
    assert text == learned.text(), "it prints something else where the answers come in one piece"
    opened = sum(line.startswith("open ") for line in learned.last)
    count = len(learned.questions)
    ending = learned.last[0].split(" ")[0]
    longest = learned.longest()
    waited = "?" if longest is None else milliseconds(longest)
    cells = [
        case.name,
        f"{len(case.task.vocabulary['variables'])}, {scopes_of(case.task):,}, {len(case.task.network):,}",
        f"{count:,}",
        ending,
        f"{len(printed):,}",
        f"{opened:,}",
        milliseconds(seconds),
        f"{seconds / max(1, count) * 1e6:,.0f}",
        waited,
        memory,
        milliseconds(played(program, case, learned)),
    ]
    return cells + (compare_with(other, case, learned, seconds) if other else [])


def main():
    given = words_of(
        __doc__,
        "bench/search.py PROGRAM [OTHER] [--all] [--case WORD]",
        (["other"], {"nargs": "?"}),
        (["--all"], {"action": "store_true"}),
        (["--case"], {"default": ""}),
    )
    other = given.other and os.path.realpath(given.other)
    heads = ["case", "variables, scopes, constraints", "questions", "ending", "learned", "open"]
    heads += ["ms", "us a question", "longest wait, ms", "memory", "ms of play"]
    heads += ["ms of the other", "times as long", "the same text"] if other else []
    made = (make() for is_long, make in cases() if not is_long or given.all or given.case)
    rows = (
        (case.name, lambda case=case: row_of(given.program, other, case))
        for case in made
        if given.case in case.name
    )
    table(heads, rows)


if __name__ == "__main__":
    main()
