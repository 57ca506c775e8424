#!/usr/bin/env python3
"""How long one waits for a question, by the clock.

usage: bench/waits.py PROGRAM [--case WORD] [--plan P] [--budget N] [FILE ..]

PROGRAM is the built program, as crates/acquire/out/acquire. Three cases of bench/search.py are learned by `try` from an owner who
answers by a network, or with --case those that have WORD in their names. Then the same answers are given once more over pipes, the
next one when a question has come, and the clock tells how long each line was waited for: the first from the start of the program,
the others from the answer before. A FILE is an input of `try`, given in place of the cases under these words: the vocabulary on its
first line, and an answer on each other one.

A table in Markdown comes: the questions; the median, the longest of 99 in 100 and the longest wait, in microseconds; the median of
those for a question that shows all variables; and the wait for the first and for the last line. Each is the least of three runs.

The times are those of the program, two pipes, the system and this script, on a machine that may do other things: a fifth of them may
be this script's.
"""

import json
import os
import statistics
import sys
import time

sys.dont_write_bytecode = True
from printed import head, row, words_of
from questions import Program, learn
from search import cases

USUAL = ["zebra", "60 exams", "128 variables, 300 ne, orders"]
RUNS = 3


class Waits:
    """The waits of a session of `try`, in seconds: for each question and for what comes behind the last answer."""

    def __init__(self, program, words, vocabulary, answers):
        variables = len(json.loads(vocabulary)["variables"])
        self.all, self.complete, self.lines = [], [], []
        begun = time.perf_counter()
        run = Program(program, stack=None).run([":memory:", "try", *words])
        for line in [vocabulary, *answers]:
            run.write(line + b"\n")
            question = run.line()
            waited = time.perf_counter() - begun
            assert question, "the program has ended before the answers have"
            self.lines.append(question)
            self.all.append(waited)
            if question.count("=") == variables:
                self.complete.append(waited)
            begun = time.perf_counter()
        self.lines += run.rest()
        assert run.close() == 0, "the program refuses these answers"


def microseconds(seconds):
    return f"{seconds * 1e6:,.0f}"


def row_of(name, program, words, vocabulary, answers):
    """The cells of a session, each the least of some runs."""
    runs = [Waits(program, words, vocabulary, answers) for _ in range(RUNS)]
    assert all(run.lines == runs[0].lines for run in runs), "two runs print different texts"
    least = lambda of: microseconds(min(map(of, runs)))
    most_of = lambda waits: sorted(waits)[len(waits) * 99 // 100]
    return [
        name,
        f"{len(answers):,} ({len(runs[0].complete):,})",
        least(lambda run: statistics.median(run.all)),
        least(lambda run: most_of(run.all)),
        least(lambda run: max(run.all[1:])),
        least(lambda run: statistics.median(run.complete)) if runs[0].complete else "none",
        least(lambda run: run.all[0]),
        least(lambda run: run.all[-1]),
    ]


def sessions(program, given):
    """A name, words, a vocabulary and its answers for each row."""
    options = [
        word
        for option in ("plan", "budget")
        if getattr(given, option)
        for word in (f"--{option}", getattr(given, option))
    ]
    for path in given.files:
        with open(path, "rb") as file:
            vocabulary, *answers = file.read().splitlines()
        yield os.path.basename(path), options, vocabulary, answers
    if given.files:
        return
    for _, make in cases():
        case = make()
        if given.case in case.name if given.case else case.name in USUAL:
            learned = learn(program, case.task, *case.words)
            yield case.name, case.words, case.vocabulary.encode(), [
                answer.encode() for answer in learned.answers
            ]


def main():
    given = words_of(
        __doc__,
        "bench/waits.py PROGRAM [--case WORD] [--plan P] [--budget N] [FILE ..]",
        (["files"], {"nargs": "*"}),
        (["--case"], {"default": ""}),
        (["--plan"], {"default": ""}),
        (["--budget"], {"default": ""}),
    )
    head(
        "case",
        "questions (complete)",
        "median, us",
        "99 in 100 below",
        "longest",
        "median of complete",
        "first",
        "last",
    )
    for name, options, vocabulary, answers in sessions(given.program, given):
        row(*row_of(name, given.program, options, vocabulary, answers))


if __name__ == "__main__":
    main()
