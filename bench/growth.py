#!/usr/bin/env python3
"""How the time of a question grows with the number of variables.

usage: bench/growth.py PROGRAM [--most N] [--family WORD]

PROGRAM is the built program, as crates/acquire/out/acquire. Each family is one kind of task at 16, 32, 64, 96 and 128 variables, or up to
N of them, learned by `try` in plan `quacq` under the default budget from an owner who answers by a network. Then the same answers are given
once more in one piece, and the least processor time of some runs counts, the start included. A table in Markdown comes: the questions,
the ending, the time, that for a question, and the longest from one question to the next. Only families with WORD in their names come where
one is named.

Nothing is asserted of the times. A printed constraint that isn't the owner's is a fault, and so is a text that differs where the answers
come in one piece; then the status is 1.
"""

import sys

sys.dont_write_bytecode = True
from printed import table, words_of
from questions import drawn_network, exams, learn, read_network
from search import ORDERS, Case, milliseconds, mixed_network, replay

SIZES = [16, 32, 64, 96, 128]

# The constraints of a drawn network grow as its variables do; those of the exams as their pairs.
FAMILIES = {
    "ne, 2.4 constraints a variable": lambda n: drawn_network(n, 10, 12 * n // 5, n),
    "mixed, six orders, 2.4 constraints a variable": lambda n: mixed_network(n, 10, 12 * n // 5, n),
    "mixed, six orders, 64 values": lambda n: mixed_network(n, 64, 12 * n // 5, n),
    "exams, a quarter of the pairs": lambda n: exams(n, 20, n),
    "ne, beside all six orders": lambda n: drawn_network(n, 10, 12 * n // 5, n, ORDERS),
}


def row_of(program, name, size, task):
    case = Case(task)
    learned = learn(program, task)
    read_network(task, learned.last)
    text, seconds, _ = replay(program, case, learned)
    assert text == learned.text(), "it prints something else where the answers come in one piece"
    count, longest = len(learned.questions), learned.longest()
    return [
        name,
        f"{size}",
        f"{len(task.network):,}",
        f"{count:,}",
        learned.last[0].split(" ")[0],
        milliseconds(seconds),
        f"{seconds / max(1, count) * 1e6:,.0f}",
        "?" if longest is None else milliseconds(longest),
    ]


def main():
    given = words_of(
        __doc__,
        "bench/growth.py PROGRAM [--most N] [--family WORD]",
        (["--most"], {"type": int, "default": SIZES[-1]}),
        (["--family"], {"default": ""}),
    )
    heads = ["family", "variables", "constraints", "questions", "ending"]
    heads += ["ms", "us a question", "longest wait, ms"]
    rows = (
        (
            f"{name}, {size} variables",
            lambda name=name, size=size: row_of(given.program, name, size, FAMILIES[name](size)),
        )
        for name in FAMILIES
        if given.family in name
        for size in SIZES
        if size <= given.most
    )
    table(heads, rows)


if __name__ == "__main__":
    main()
