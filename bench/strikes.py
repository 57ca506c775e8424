#!/usr/bin/env python3
"""What an answer costs by the number of variables in its question, and what the opening of a journal of many answers.

usage: bench/strikes.py PROGRAM [OTHER]

PROGRAM is the built program, as crates/acquire/out/acquire. OTHER is a second one, such as an earlier build, and gets the same
answers.

First comes a session of plan quacq with 128 variables, all pairs of them and seven relations, whose owner answers by a network. For
each number of variables that a question shows, the seconds of a processor are taken from a yes to the next question, if that is a
part of the same example, so that nothing is searched between the two: the median, less that of a line that is no answer. Beside
the candidates that a yes strikes, it has the next part found.

Then come journals, made here by the form in docs/formats.md: the seconds of a processor that `run` takes without an answer, less
those over a journal without any. The first answers of a session end within an example, and so nothing is searched. In the journals
of complete questions each variable is raised in turn, on a language of 64 relations, and each answer is yes.

Nothing is asserted of the times. A journal that opens with other answers is a fault, and then the status is 1.
"""

import itertools
import json
import os
import statistics
import subprocess
import sys
import tempfile

sys.dont_write_bytecode = True
import journals
from journals import MAGIC, Cost, VALUES
from questions import Program, drawn_network, exams, learn, processor_so_far
from search import ORDERS, Case, milliseconds

PLAN_BYTES = {"scopes": 1, "quacq": 2, "multi": 3}
SIZES = [2, 4, 16, 64]
TIMES = 3
# The other program is asked for so many questions. Where its searches are longer, it may be slow to end.
FIRST = 3_000


def record_of(names, least, shown, yes):
    pairs = itertools.chain(*((names.index(name), value - least) for name, value in shown.items()))
    payload = bytes([yes, len(shown), *pairs])
    return b"\1A" + len(payload).to_bytes(4, "big") + payload


def write(path, plan, vocabulary, records):
    payload = bytes([PLAN_BYTES[plan]]) + vocabulary
    with open(path, "wb") as file:
        file.write(MAGIC + b"\1S" + len(payload).to_bytes(4, "big") + payload)
        file.writelines(records)
        file.write(b"\0")


def no_answer(program, case):
    """The seconds of a processor for a line that is no answer, and what is printed then."""
    run = Program(program, stack=None).run([":memory:", "try", *case.words])
    run.write(f"{case.vocabulary}\n".encode())
    taken = []
    for _ in range(500):
        run.write(b"maybe\n")
        run.line()
        taken.append(processor_so_far(run.pid))
    run.rest()
    run.close()
    return None if None in taken else statistics.median(later - earlier for earlier, later in itertools.pairwise(taken[1:]))


def after_a_yes(program, case, learned):
    """For each number of variables: how many questions, and the median of the seconds of a processor from a yes to the next."""
    beside = no_answer(program, case)
    if learned.taken is None or beside is None:
        return {}
    spent, whole = {}, len(case.task.vocabulary["variables"])
    for k, (shown, answer) in enumerate(zip(learned.questions[:-1], learned.answers)):
        if answer == "yes" and max(len(shown), len(learned.questions[k + 1])) < whole:
            spent.setdefault(len(shown), []).append(learned.taken[k + 1] - learned.taken[k])
    return {size: (len(all_of_them), statistics.median(all_of_them) - beside) for size, all_of_them in spent.items()}


def parts_answered(programs):
    case = Case(drawn_network(128, 10, 300, 300, ORDERS))
    learned = [learn(program, case.task, *case.words, most=most) for program, most in zip(programs, [None, FIRST])]
    rows = [after_a_yes(program, case, one) for program, one in zip(programs, learned)]
    for size in SIZES:
        cells = [f"{row[size][1] * 1e6:,.1f} us ({row[size][0]})" if size in row else "?" for row in rows]
        print(f"a yes to {size} of 128 variables: {', '.join(cells)}", flush=True)
    return case, learned[0]


def first_answers(case, learned, most):
    """The records of the first answers, as many as there may be so that the session is within an example."""
    names, least = case.task.vocabulary["variables"], case.task.vocabulary["domain"][0]
    whole = len(names)
    count = next((k for k in range(min(most, len(learned.questions) - 1), 0, -1) if len(learned.questions[k]) < whole), 0)
    pairs = zip(learned.questions[:count], learned.answers[:count])
    return [record_of(names, least, shown, answer == "yes") for shown, answer in pairs]


def complete_questions():
    """Each variable is raised from the least value to the greatest in turn, all of them by one before the next."""
    names = [f"v{i}" for i in range(journals.VARIABLES)]
    values = [0] * len(names)
    for level, raised in itertools.product(range(1, VALUES), range(len(names))):
        values[raised] = level
        yield record_of(names, 0, dict(zip(names, values)), True)


def opening(program, path, plan, vocabulary, records):
    """The least seconds of a processor for a journal of these records more than for one of none, its memory, and how many answers
    are there."""
    least = []
    for some in ([], records):
        write(path, plan, vocabulary, some)
        costs = [Cost([program, path, "run"], b"", subprocess.PIPE) for _ in range(TIMES)]
        least.append(min(cost.processor for cost in costs))
    return least[1] - least[0], costs[-1].memory, costs[-1].text.rstrip("\n").rsplit(" ", 1)[-1]


def main():
    if len(sys.argv) not in (2, 3):
        print(__doc__)
        sys.exit(2)
    programs = [os.path.realpath(path) for path in sys.argv[1:]]
    pairs_differ, learned = parts_answered(programs)
    exam = Case(exams(100, 20, 100))
    more = learn(programs[0], exam.task)
    text = lambda case: json.dumps(case.task.vocabulary, separators=(",", ":")).encode()
    pairs = lambda most: list(itertools.islice(journals.answers(), most))
    right = True
    with tempfile.TemporaryDirectory() as folder:
        path = os.path.join(folder, "journal")
        for name, plan, vocabulary, records in [
            (pairs_differ.name, "quacq", text(pairs_differ), first_answers(pairs_differ, learned, 1_000)),
            (pairs_differ.name, "quacq", text(pairs_differ), first_answers(pairs_differ, learned, 5_000)),
            (exam.name, "quacq", text(exam), first_answers(exam, more, 1_000)),
            (exam.name, "quacq", text(exam), first_answers(exam, more, 10_000)),
            ("64 relations, pairs", "scopes", journals.vocabulary(), pairs(1_000)),
            ("64 relations, pairs", "scopes", journals.vocabulary(), pairs(10_000)),
            ("64 relations, complete questions", "quacq", journals.vocabulary(), list(complete_questions())),
        ]:
            cells = []
            for program in programs:
                seconds, memory, count = opening(program, path, plan, vocabulary, records)
                cells.append(f"{milliseconds(seconds)} ms, {seconds / len(records) * 1e6:,.1f} us an answer, {memory}")
                if count != str(len(records)):
                    print(f"{name}: the journal has {len(records)} answers, and {program} ends with {count}")
                    right = False
            print(f"{len(records):,} answers, {name}, plan {plan}: {'; '.join(cells)}", flush=True)
    sys.exit(0 if right else 1)


if __name__ == "__main__":
    main()
