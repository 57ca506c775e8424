#!/usr/bin/env python3
"""How many questions each plan asks, on tasks whose owner answers by a network.

usage: bench/questions.py PROGRAM [WORD ..]

PROGRAM is the built program, as crates/acquire/out/acquire. Each task is learned in each plan; with WORDs, only the tasks whose
name has one of them. Answers go through a pipe. Two tables in Markdown come: the questions, and how many of these show at most
three variables; and the processor time of the program for a question, in milliseconds. An ending other than `converged` is
named.

What is printed at the end is compared with the owner's network. Each printed constraint has to be the owner's on that scope. Each
one of the owner's that isn't printed has to follow from those that are, which a search here shows: it looks for values that meet
all printed constraints and not this one. Where that search is cut off, or `open` lines leave the constraint open, the number of
these stands behind the table. Else it is a fault, and the status is 1.

The examples' owners are those of examples/; all other tasks are made here, those that are drawn from fixed numbers.
"""

import functools
import itertools
import json
import os
import random
import resource
import sys
import time
from operator import and_, itemgetter
from typing import NamedTuple

TOP = os.path.join(os.path.dirname(os.path.abspath(__file__)), "..")
sys.path.insert(0, os.path.join(TOP, "python"))
import small_stacks  # (for what it sets)
from acquire import Program, Vocabulary

PLANS = ["scopes", "quacq", "multi"]
MOST_STEPS = 20_000


def python_of(formula):
    """A formula as an expression of Python over the tuple t."""
    if isinstance(formula, int):
        return str(formula)
    if isinstance(formula, str):
        return f"t[{formula[1:]}]"
    operator, *parts = formula
    texts = [python_of(part) for part in parts]
    if operator in ("abs", "min", "max"):
        return f"{operator}({', '.join(texts)})"
    if operator == "not":
        return f"(not {texts[0]})"
    sign = {"=": "=="}.get(operator, operator)
    return "(" + f" {sign} ".join(texts) + ")"


def values_at(scope):
    """What takes the values of a scope out of those of all variables, as a tuple."""
    return itemgetter(*scope) if len(scope) > 1 else lambda whole: (whole[scope[0]],)


class Task:
    """A vocabulary, and the owner's network: the accepted tuples of each scope that has a constraint."""

    def __init__(self, name, vocabulary, constraints):
        self.name = name
        self.vocabulary = vocabulary
        first, last = vocabulary["domain"]
        self.values = range(first, last + 1)
        self.tables = {}
        for relation in vocabulary["relations"]:
            test = eval(f"lambda t: {python_of(relation['formula'])}")
            tuples = itertools.product(self.values, repeat=relation["arity"])
            self.tables[relation["name"]] = frozenset(t for t in tuples if test(t))
        self.constraints = list(constraints)
        self.network = dict(self.constraint_of(text) for text in self.constraints)
        # What a scope of the network may not have. Tuples with a variable that isn't shown aren't among these.
        self.unknown = dict.fromkeys(vocabulary["variables"])
        others = functools.cache(lambda table, size: frozenset(itertools.product(self.values, repeat=size)) - table)
        self.rejected = [(values_at(scope), others(table, len(scope))) for scope, table in self.network.items()]

    def constraint_of(self, text):
        """The scope and the accepted tuples of a constraint as the program prints it."""
        names, *scope = text.split(" ")
        # One relation alone stands for its own tuples, and isn't copied for each scope.
        return tuple(scope), functools.reduce(and_, (self.tables[name] for name in names.split("&")))

    def accepts(self, shown):
        whole = {**self.unknown, **shown}
        return not any(values_of(whole) in tuples for values_of, tuples in self.rejected)


class Cut(Exception):
    """A search has taken too many steps."""


def has_solution(variables, values, constraints):
    """Whether some values meet all constraints, by a search with the fewest values first that looks one variable ahead."""
    on = {v: [(scope, table) for scope, table in constraints if v in scope] for v in variables}
    steps = 0

    def narrow(given, left, changed):
        """What is left to the other variables of constraints that have but one without a value. None where nothing is."""
        left = dict(left)
        for scope, table in on[changed]:
            free = [v for v in scope if v not in given]
            if not free and tuple(given[v] for v in scope) not in table:
                return None
            if len(free) == 1:
                fits = lambda x: tuple(given.get(v, x) for v in scope) in table
                left[free[0]] = [x for x in left[free[0]] if fits(x)]
                if not left[free[0]]:
                    return None
        return left

    def search(given, left):
        nonlocal steps
        if len(given) == len(variables):
            return True
        steps += 1
        if steps > MOST_STEPS:
            raise Cut
        chosen = min((v for v in variables if v not in given), key=lambda v: (len(left[v]), -len(on[v])))
        for value in left[chosen]:
            more = {**given, chosen: value}
            narrowed = narrow(more, left, chosen)
            if narrowed is not None and search(more, narrowed):
                return True
        return False

    return search({}, {v: list(values) for v in variables})


class Learned(NamedTuple):
    """A session of `try`: the questions, as the variables and values that they show, the answers, and the lines behind them;
    seconds of a processor in all, and how many had passed at each question, if the system tells that."""

    questions: list
    answers: list
    last: list
    seconds: float
    taken: list | None

    def text(self):
        lines = (
            " ".join([f"q{number}", *(f"{name}={value}" for name, value in shown.items())])
            for number, shown in enumerate(self.questions, 1)
        )
        return "".join(f"{line}\n" for line in [*lines, *self.last])

    def longest(self):
        """The most seconds of a processor from one question to the next. None where the system doesn't tell."""
        if self.taken is None:
            return None
        return max(later - earlier for earlier, later in itertools.pairwise([0.0, *self.taken, self.seconds]))


def processor_so_far(process):
    """How many seconds of a processor a running process has taken, with its threads. None where the system doesn't tell."""
    # Linux's number of another process's clock, as clock_getcpuclockid makes it. Files of /proc leave out threads that have ended, or
    # count by ticks.
    try:
        return time.clock_gettime(~process << 3 | 2)
    except OSError:
        return None


def processor_of_ended():
    """How many seconds of a processor the processes have taken that have ended."""
    usage = resource.getrusage(resource.RUSAGE_CHILDREN)
    return usage.ru_utime + usage.ru_stime


def learn(program, task, *words, most=None):
    """A session of `try` with these words, whose owner answers by the task's network, and stops after so many answers."""
    before = processor_of_ended()
    run = Program(program, stack=None).run([":memory:", "try", *words])
    run.write(Vocabulary(task.vocabulary).line)
    questions, answers, last, taken = [], [], [], []
    while line := run.line():
        number, *parts = line.split(" ")
        if last or number != f"q{len(questions) + 1}":
            last.append(line)
            continue
        taken.append(processor_so_far(run.pid))
        if len(answers) == most:
            run.write(b"stop\n")
            continue
        shown = {name: int(value) for name, value in (part.split("=") for part in parts)}
        questions.append(shown)
        answers.append("yes" if task.accepts(shown) else "no")
        run.write(f"{answers[-1]}\n".encode())
    run.close()
    return Learned(questions, answers, last, processor_of_ended() - before, None if None in taken else taken)


def read_network(task, last):
    """The printed constraints, and the scopes of the open ones. Fails where a printed one isn't the owner's."""
    printed = dict(task.constraint_of(line) for line in last[1:] if not line.startswith("open "))
    opened = {task.constraint_of(line[5:])[0] for line in last[1:] if line.startswith("open ")}
    for scope, table in printed.items():
        assert task.network.get(scope) == table, f"{scope}: not the owner's constraint"
    return printed, opened


def compare(task, last):
    """How many constraints were printed, and how many of the owner's were neither printed nor seen to follow. Fails where one
    that isn't open doesn't follow."""
    printed, opened = read_network(task, last)
    unseen = 0
    for scope, table in task.network.items():
        if scope in printed:
            continue
        others = frozenset(itertools.product(task.values, repeat=len(scope))) - table
        try:
            missed = has_solution(task.vocabulary["variables"], task.values, [*printed.items(), (scope, others)])
        except Cut:
            unseen += 1
            continue
        if missed and scope in opened:
            unseen += 1
        elif missed:
            raise AssertionError(f"{scope}: the owner's constraint is neither printed nor implied")
    return len(printed), unseen


def relation(name, formula, arity=2):
    return {"name": name, "arity": arity, "formula": formula}


EQUAL, DIFFER = relation("eq", ["=", "$0", "$1"]), relation("ne", ["!=", "$0", "$1"])
BEFORE, AFTER = relation("lt", ["<", "$0", "$1"]), relation("gt", [">", "$0", "$1"])
NEXT = relation("next", ["=", ["abs", ["-", "$0", "$1"]], 1])
APART = relation("apart", [">=", ["abs", ["-", "$0", "$1"]], 2])


def vocabulary(variables, domain, relations, scopes="all"):
    return {"variables": variables, "domain": domain, "relations": relations, "scopes": scopes}


def example(name):
    """One of examples/, whose owner is the one of the stored answers."""
    folder = os.path.join(TOP, "examples", name)
    with open(os.path.join(folder, "vocabulary.json")) as file:
        words = json.load(file)
    with open(os.path.join(folder, "printed")) as file:
        lines = file.read().splitlines()
    ending = next(i for i, line in enumerate(lines) if line.startswith("converged "))
    return Task(name, words, lines[ending + 1 :])


def latin_square(size, relations=(EQUAL, DIFFER)):
    """Cells of one row or one column differ."""
    cells = [f"x{row}{column}" for row in range(1, size + 1) for column in range(1, size + 1)]
    pairs = itertools.combinations(cells, 2)
    network = [f"ne {one} {other}" for one, other in pairs if one[1] == other[1] or one[2] == other[2]]
    return Task(f"Latin square {size} by {size}", vocabulary(cells, [1, size], relations), network)


def exams(count, slots, number):
    """Exams in slots of a week: some have students in common, some of these need a slot between them, some have an order."""
    draw = random.Random(number)
    names = [f"exam{i:02}" for i in range(1, count + 1)]
    hidden = {name: draw.randint(1, slots) for name in names}
    network = []
    for one, other in itertools.combinations(names, 2):
        apart = abs(hidden[one] - hidden[other])
        drawn = draw.random()
        if drawn < 0.04 and hidden[one] < hidden[other]:
            network.append(f"lt {one} {other}")
        elif drawn < 0.08 and apart >= 2:
            network.append(f"apart {one} {other}")
        elif drawn < 0.25 and apart >= 1:
            network.append(f"ne {one} {other}")
    return Task(f"{count} exams", vocabulary(names, [1, slots], [DIFFER, APART, BEFORE]), network)


def zebra():
    """Five houses in a row. What is said of one house alone stands in one relation on two variables, since no scope may lie in
    another one: the Norwegian lives in the first house and milk is drunk in the third."""
    groups = [
        ["english", "spanish", "ukrainian", "norwegian", "japanese"],
        ["red", "green", "ivory", "yellow", "blue"],
        ["dog", "snails", "fox", "horse", "zebra"],
        ["coffee", "tea", "milk", "juice", "water"],
        ["oldgold", "kools", "chesterfield", "luckystrike", "parliament"],
    ]
    network = [f"ne {one} {other}" for group in groups for one, other in itertools.combinations(group, 2)]
    network.remove("ne green ivory")
    network += [
        "eq english red",
        "eq spanish dog",
        "eq green coffee",
        "eq ukrainian tea",
        "right green ivory",
        "eq snails oldgold",
        "eq yellow kools",
        "first_third norwegian milk",
        "next fox chesterfield",
        "next horse kools",
        "eq juice luckystrike",
        "eq japanese parliament",
        "next norwegian blue",
    ]
    right = relation("right", ["=", "$0", ["+", "$1", 1]])
    first_third = relation("first_third", ["and", ["=", "$0", 1], ["=", "$1", 3]])
    relations = [EQUAL, DIFFER, NEXT, right, first_third]
    return Task("zebra", vocabulary([v for group in groups for v in group], [1, 5], relations), network)


def drawn_network(count, values, constraints, number, relations=(EQUAL, DIFFER)):
    """So many pairs differ, drawn so that some values meet them all; each pair is asked about."""
    draw = random.Random(number)
    names = [f"v{i:02}" for i in range(1, count + 1)]
    hidden = {name: draw.randint(1, values) for name in names}
    pairs = [pair for pair in itertools.combinations(names, 2) if hidden[pair[0]] != hidden[pair[1]]]
    network = [f"ne {one} {other}" for one, other in sorted(draw.sample(pairs, constraints))]
    return Task(f"{count} variables, {constraints} ne", vocabulary(names, [1, values], relations), network)


def golomb(marks, last):
    """Marks on a ruler, rising, with no distance twice. All is said of four marks at a time. Up to 11 there is none of six."""
    pairs = list(itertools.combinations(range(4), 2))
    distance = lambda pair: ["-", f"${pair[1]}", f"${pair[0]}"]
    rising = ["and", *(["<", f"${i}", f"${i + 1}"] for i in range(3))]
    shared = lambda one, other: set(one) & set(other)
    differ = lambda some: ["and", *(["!=", distance(one), distance(other)] for one, other in some)]
    both = list(itertools.combinations(pairs, 2))
    relations = [
        relation("rising", rising, 4),
        relation("beside", differ([pair for pair in both if shared(*pair)]), 4),
        relation("away", differ([pair for pair in both if not shared(*pair)]), 4),
    ]
    names = [f"m{i}" for i in range(1, marks + 1)]
    network = [" ".join(["rising&beside&away", *four]) for four in itertools.combinations(names, 4)]
    return Task(f"Golomb ruler of {marks} marks", vocabulary(names, [0, last], relations), network)


def tasks():
    yield lambda: example("roster")
    yield lambda: example("timetable")
    yield lambda: example("product")
    yield lambda: latin_square(4)
    yield lambda: exams(24, 10, 24)
    yield lambda: zebra()
    yield lambda: drawn_network(50, 10, 20, 20)
    yield lambda: drawn_network(50, 10, 122, 122)
    yield lambda: golomb(5, 11)
    yield lambda: golomb(6, 11)


def scopes_of(task):
    if task.vocabulary["scopes"] != "all":
        return len(task.vocabulary["scopes"])
    arity = task.vocabulary["relations"][0]["arity"]
    return sum(1 for _ in itertools.combinations(task.vocabulary["variables"], arity))


def main():
    if len(sys.argv) < 2:
        print(__doc__)
        sys.exit(2)
    program, *wanted = sys.argv[1:]
    rows, times, unseen, right = [], [], [], True
    for make in tasks():
        task = make()
        if wanted and not any(word in task.name for word in wanted):
            continue
        cells, spent = [], []
        for plan in PLANS:
            questions, _, last, seconds, _ = learn(program, task, "--plan", plan)
            small = sum(len(shown) <= 3 for shown in questions)
            ending = last[0].split(" ")[0]
            try:
                printed, missed = compare(task, last)
            except AssertionError as fault:
                print(f"{task.name}, plan {plan}: {fault}")
                right = False
                continue
            if missed:
                unseen.append(f"{task.name}, plan {plan}: {missed} of the owner's constraints are open or weren't seen to follow")
            said = "" if ending == "converged" else f", {ending}"
            cells.append(f"{len(questions):,} ({small:,}){said}")
            spent.append(f"{seconds / max(1, len(questions)) * 1000:.2g}")
            print(f"{task.name}, plan {plan}: {last[0]}, {printed} of {len(task.network)} printed, {seconds:.2f} s", file=sys.stderr, flush=True)
        size = f"{len(task.vocabulary['variables'])}, {scopes_of(task):,}, {len(task.network)}"
        rows.append(f"| {task.name} | {size} | {' | '.join(cells)} |")
        times.append(f"| {task.name} | {' | '.join(spent)} |")
    plans = " | ".join(f"`{plan}`" for plan in PLANS)
    print(f"| task | variables, scopes, constraints | {plans} |\n|---|---|---|---|---|")
    print("\n".join(rows))
    print(f"\n| ms a question | {plans} |\n|---|---|---|---|")
    print("\n".join(times))
    for line in unseen:
        print(f"\n{line}")
    sys.exit(0 if right else 1)


if __name__ == "__main__":
    main()
