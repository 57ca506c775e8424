#!/usr/bin/env python3
"""What an answer, a strike, the opening of a journal and the reading of a vocabulary cost in two programs, side by side.

usage: bench/against.py PROGRAM OTHER [--case WORD].. [--only PARTS] [--strikes STRIKES OTHER_STRIKES]

PROGRAM and OTHER are built programs, as crates/acquire/out/acquire and one of an earlier build. The cases are those of
bench/search.py and some more. Each is learned with PROGRAM by `try` from an owner who answers by a network. Then both get the same
answers in one piece, in turn, and the least seconds of a processor count, the start of the program included. Where OTHER prints
something else than PROGRAM with these answers, it learns from the same owner for itself, and its row says so.

Then come the vocabularies of bench/vocabularies.py that have more than 3 MB, from a file, and journals as in bench/strikes.py.

STRIKES and OTHER_STRIKES are programs that read a vocabulary and strike by one question over and over: the words say how many variables
it shows, and how often. So the time of one strike is the difference of two runs, divided by their number of strikes.

PARTS are some of cases, vocabularies, journals and strikes, with commas between them. With WORDs, only the cases and
vocabularies come that have one of them in their names. Some cases take an earlier program many minutes. Nothing is asserted of the times.
"""

import argparse
import itertools
import os
import subprocess
import sys
import tempfile

sys.dont_write_bytecode = True
import journals
import strikes
import vocabularies
from journals import Cost
from printed import head, row
from questions import Task, drawn_network, exams, latin_square, learn
from search import ORDERS, Case, bounded_sums, cases, milliseconds

TIMES = 3
SHORT = 0.5


class Refuser(Task):
    """An owner who says no to everything."""

    def accepts(self, shown):
        return False


def all_refused():
    """Each scope of four variables has its constraint, and each answer is no."""
    made = bounded_sums(60, 2380, 60)
    return Case(Refuser(f"{made.name}, all no", made.vocabulary, made.constraints), "--plan", "scopes")


def more_cases():
    for _, make in cases():
        yield make()
    yield Case(exams(60, 15, 60), "--budget", "1000")
    yield Case(latin_square(8, ORDERS))
    yield all_refused()


def in_turn(runs, times=TIMES):
    """The cost of each of these runs, each made so many times, in turn; the least seconds of a processor count."""
    costs = [run() for run in runs]
    if max(cost.processor for cost in costs) < SHORT:
        times *= 2
    for _ in range(times - 1):
        for number, run in enumerate(runs):
            if costs[number].processor < 20:
                again = run()
                if again.processor < costs[number].processor:
                    costs[number] = again
    return costs


def replay_of(program, case, answers):
    given = case.input_of(answers)
    return lambda: Cost([program, ":memory:", "try", *case.words], given, subprocess.PIPE)


def row_of(programs, case):
    learned = learn(programs[0], case.task, *case.words)
    text = learned.text()
    runs = [replay_of(program, case, learned) for program in programs]
    other = runs[1]()
    count, last, same = len(learned.questions), learned.last[0], "the same"
    if other.text != text:
        own = learn(programs[1], case.task, *case.words)
        runs[1] = replay_of(programs[1], case, own)
        same = f"{len(own.questions):,} questions, {own.last[0]}"
    costs = in_turn(runs)
    seconds = [cost.processor for cost in costs]
    assert costs[0].text == text, "it prints something else where the answers come in one piece"
    row(case.name, f"{count:,}", last, *(milliseconds(one) for one in seconds), f"{seconds[1] / seconds[0]:.1f}", same, *(cost.memory for cost in costs))


def vocabulary_row(programs, what, bytes_in):
    with tempfile.NamedTemporaryFile() as file:
        file.write(bytes_in + b"\n")
        file.flush()

        def run_of(program):
            def run():
                with open(file.name, "rb") as given:
                    return Cost([program, ":memory:", "try", "--plan", "scopes"], given, subprocess.PIPE)

            return run

        costs = in_turn([run_of(program) for program in programs])
    lines = [cost.text.split("\n", 1)[0][:50] for cost in costs]
    seconds = [cost.processor for cost in costs]
    says = lines[0] if lines[0] == lines[1] else f"{lines[0]} / {lines[1]}"
    row(what, f"{len(bytes_in):,}", says, *(milliseconds(one) for one in seconds), f"{seconds[1] / seconds[0]:.1f}", *(cost.memory for cost in costs))


def journal_row(programs, path, name, plan, vocabulary, records):
    strikes.write(path, plan, vocabulary, records)
    costs = in_turn([lambda program=program: Cost([program, path, "run"], b"", subprocess.PIPE) for program in programs])
    with tempfile.TemporaryDirectory() as folder:
        none = os.path.join(folder, "journal")
        strikes.write(none, plan, vocabulary, [])
        empty = in_turn([lambda program=program: Cost([program, none, "run"], b"", subprocess.PIPE) for program in programs])
    ends = [cost.text.rstrip("\n").rsplit("\n", 1)[-1][-60:] for cost in costs]
    whole = [cost.processor for cost in costs]
    alone = [cost.processor - start.processor for cost, start in zip(costs, empty)]
    says = ends[0] if ends[0] == ends[1] else " / ".join(ends)
    ratio = f"{alone[1] / alone[0]:.1f}" if alone[0] > 0.0005 else "-"
    row(f"{name}, plan {plan}", f"{len(records):,}", says, *(milliseconds(one) for one in whole), *(milliseconds(max(0, one)) for one in alone), ratio, *(cost.memory for cost in costs))


def strike_row(programs, vocabulary, name, shown):
    """One strike by a question that shows so many variables."""
    seconds = []
    for program in programs:
        times = 100
        run = lambda times: min(Cost([program, str(shown), str(times)], vocabulary, subprocess.PIPE).processor for _ in range(TIMES))
        start = run(0)
        while (spent := run(times) - start) < 0.5 and times < 3_000_000:
            times *= 4
        seconds.append(spent / times)
    row(name, shown, *(f"{one * 1e6:,.2f}" for one in seconds), f"{seconds[1] / seconds[0]:.1f}")


def text_of(case):
    return case.vocabulary.encode()


def main():
    words = argparse.ArgumentParser(usage=__doc__.split("\n")[2][7:])
    words.add_argument("program")
    words.add_argument("other")
    words.add_argument("--case", action="append")
    words.add_argument("--strikes", nargs=2)
    words.add_argument("--only", default="cases,vocabularies,journals,strikes")
    if len(sys.argv) < 3:
        print(__doc__)
        sys.exit(2)
    given = words.parse_args()
    programs = [os.path.realpath(path) for path in (given.program, given.other)]
    parts = given.only.split(",")
    is_wanted = lambda name: given.case is None or any(word in name for word in given.case)
    if "cases" in parts:
        head("case", "questions", "ending", "ms", "ms of the other", "times as long", "what the other prints", "memory", "memory of the other")
        for case in more_cases():
            if is_wanted(case.name):
                try:
                    row_of(programs, case)
                except (AssertionError, OSError, ValueError) as fault:
                    print(f"{case.name}: {fault!r}", flush=True)
        print()
    if "vocabularies" in parts:
        head("vocabulary", "bytes", "it says", "ms", "ms of the other", "times as long", "memory", "memory of the other")
        for what, bytes_in, _ in vocabularies.inputs():
            if len(bytes_in) > 3_000_000 and is_wanted(what):
                vocabulary_row(programs, what, bytes_in)
        print()
    if "journals" in parts:
        head("journal", "answers", "it ends with", "ms", "ms of the other", "ms less the start", "of the other", "times as long", "memory", "memory of the other")
        pairs = lambda most: list(itertools.islice(journals.answers(), most))
        case = Case(drawn_network(128, 10, 300, 300, ORDERS))
        learned = learn(programs[0], case.task, *case.words, most=6_000)
        with tempfile.TemporaryDirectory() as folder:
            path = os.path.join(folder, "journal")
            for name, plan, vocabulary, records in [
                ("8,128 scopes, 64 relations, tuples", "scopes", journals.vocabulary(), pairs(1_000)),
                ("8,128 scopes, 64 relations, tuples", "scopes", journals.vocabulary(), pairs(10_000)),
                ("8,128 scopes, 64 relations, complete questions", "quacq", journals.vocabulary(), list(strikes.complete_questions())),
                (case.name, "quacq", text_of(case), strikes.first_answers(case, learned, 1_000)),
                (case.name, "quacq", text_of(case), strikes.first_answers(case, learned, 5_000)),
            ]:
                journal_row(programs, path, name, plan, vocabulary, records)
        print()
    if "strikes" in parts and given.strikes:
        strikers = [os.path.realpath(path) for path in given.strikes]
        head("language", "variables in the question", "us a strike", "of the other", "times as long")
        seven = text_of(Case(drawn_network(128, 10, 300, 300, ORDERS)))
        for name, vocabulary in [("8,128 scopes, 7 relations", seven), ("8,128 scopes, 64 relations", journals.vocabulary())]:
            for shown in (2, 16, 128):
                strike_row(strikers, vocabulary, name, shown)


if __name__ == "__main__":
    main()
