#!/usr/bin/env python3
"""The command `demo` of the built program, beside the language and the target of its number and a plain loop.

usage: checks/demos.py PROGRAM [NUMBERS]

For each number the draws are done here, as docs/formats.md says, with integers that don't wrap. A plain loop of questions, that
of checks/walks.py, is answered by acceptance: what `demo` prints has to be its number of answers and of learned candidates.
Then the same vocabulary and target go as JSON through `new` and `play`, which have to ask the loop's questions and to print its
network. What the loop learned has to accept exactly what the target accepts. The input of `demo` isn't read, so it is closed.
"""

import json
import os
import subprocess
import sys
import tempfile

sys.dont_write_bytecode = True
from owners import accepts, violates
from walks import Learning

VALUES = (1, 2, 3)
NAMES = [f"v{i}" for i in range(1, 11)]
SCOPES = [(v, w) for v in range(10) for w in range(v + 1, 10)]
PAIRS = [(x, y) for x in VALUES for y in VALUES]
GIVEN = {
    "le": frozenset(p for p in PAIRS if p[0] <= p[1]),
    "ge": frozenset(p for p in PAIRS if p[0] >= p[1]),
    "ne": frozenset(p for p in PAIRS if p[0] != p[1]),
}
# the order of docs/formats.md: a relation that contains another one comes first
RELATIONS = ["le", "ge", "le&ge", "ne", "le&ne", "ge&ne", "le&ge&ne"]
TABLES = [frozenset.intersection(*(GIVEN[part] for part in name.split("&"))) for name in RELATIONS]
VOCABULARY = json.dumps(
    {
        "variables": NAMES,
        "domain": [1, 3],
        "relations": [{"name": name, "arity": 2, "tuples": sorted(table)} for name, table in GIVEN.items()],
        "scopes": "all",
    }
)
# further numbers, beside those from 0 on: the largest, and some between
LARGE = [2**32 - 1, 2**31, 123456789, 4000000000]


def drawn(number):
    """The upper half of each state of the generator."""
    state = number
    while True:
        state = (state * 6364136223846793005 + 1442695040888963407) % 2**64
        yield state // 2**32


def target_of(number):
    """The relation's number for each scope that the target has one on."""
    draws = drawn(number)
    hidden = [VALUES[next(draws) % 3] for _ in NAMES]
    relations = {scope: next(draws) % 7 for scope in SCOPES}
    return {s: r for s, r in relations.items() if (hidden[s[0]], hidden[s[1]]) in TABLES[r]}


class Loop(Learning):
    """The plain loop. What is struck is struck once, and a value is tried against the constraints that it completes."""

    def __init__(self):
        self.names, self.values = NAMES, VALUES
        self.candidates = [(scope, table) for scope in SCOPES for table in TABLES]
        self.kept = list(self.candidates)
        super().__init__(self, "quacq")

    def possible(self):
        done = {scope for scope, _ in self.network}
        return [c for c in self.kept if c[0] not in done]

    def put(self, shown):
        yes = yield from super().put(shown)
        if yes:
            self.kept = [c for c in self.kept if not violates(c, shown)]
        return yes

    def example(self):
        for candidate in self.possible():
            if candidate not in self.implied:
                shown = self.solution(candidate)
                if shown:
                    return shown
                self.implied.add(candidate)
        return None

    def solution(self, candidate):
        order = [*candidate[0], *(v for v in range(10) if v not in candidate[0])]
        against = (candidate[0], frozenset(PAIRS) - candidate[1])
        last = lambda c: max(order.index(v) for v in c[0])
        by_last = [[c for c in [*self.network, against] if last(c) == i] for i in range(10)]

        def below(shown):
            if len(shown) == 10:
                return shown
            at = len(shown)
            longer = ({**shown, order[at]: value} for value in VALUES)
            return next((found for more in longer if accepts(by_last[at], more) if (found := below(more))), None)

        return below({})


def run_loop(target):
    """The questions with their answers, and the learned network."""
    loop = Loop()
    questions = loop.questions()
    due = next(questions)
    while True:
        try:
            due = questions.send(accepts(target, due))
        except StopIteration as end:
            assert end.value == "converged", f"the plain loop has {end.value}"
            return loop.answers, loop.network


def look(program, words, given=""):
    run = subprocess.run([program, *words], input=given, stdout=subprocess.PIPE, text=True, timeout=300)
    return run.stdout, run.returncode


def look_unread(program, words):
    run = subprocess.run([program, *words], stdin=None, stdout=subprocess.PIPE, text=True, timeout=300, preexec_fn=lambda: os.close(0))
    return run.stdout, run.returncode


def question_line(k, shown, yes):
    values = " ".join(f"{NAMES[v]}={shown[v]}" for v in sorted(shown))
    return f"q{k} {values} {'yes' if yes else 'no'}\n"


def learned_line(candidate):
    scope, table = candidate
    return f"{RELATIONS[TABLES.index(table)]} {NAMES[scope[0]]} {NAMES[scope[1]]}\n"


def has_same_solutions(one, other):
    """Whether each constraint of either network follows from the other one."""

    def follows(candidate, network):
        loop = Loop()
        loop.network = network
        return loop.solution(candidate) is None

    return all(follows(c, one) for c in other) and all(follows(c, other) for c in one)


def number_is_met(program, number, folder):
    drawn_on = target_of(number)
    target = [(scope, TABLES[r]) for scope, r in drawn_on.items()]
    answers, network = run_loop(target)
    first = f"demo {number} variables 10 scopes 45 candidates 315\n"
    wanted = f"{first}converged {len(answers)}\nlearned {len(network)}\n"
    said = look_unread(program, [":memory:", "demo", "--number", str(number)])
    assert said == (wanted, 0), f"it prints {said} in place of {wanted!r}"
    assert has_same_solutions(network, target), "what was learned isn't the target"
    journal = os.path.join(folder, f"{number}.journal")
    assert look(program, [journal, "new"], VOCABULARY)[1] == 0
    given = json.dumps([[RELATIONS[r], *(NAMES[v] for v in scope)] for scope, r in drawn_on.items()])
    played = "".join(question_line(i + 1, shown, yes) for i, (shown, yes) in enumerate(answers))
    played += f"converged {len(answers)}\n" + "".join(learned_line(c) for c in network)
    said = look(program, [journal, "play"], given)
    assert said == (played, 0), f"`play` prints {said} in place of {played!r}"
    os.remove(journal)
    return len(answers)


def main():
    if len(sys.argv) not in (2, 3):
        print(__doc__)
        sys.exit(2)
    program = os.path.realpath(sys.argv[1])
    count = int(sys.argv[2]) if len(sys.argv) > 2 else 300
    asked = []
    with tempfile.TemporaryDirectory() as folder:
        for number in [*range(count), *LARGE]:
            try:
                asked.append(number_is_met(program, number, folder))
            except Exception as fault:
                print(f"demos: number {number}: {fault!r}")
                sys.exit(1)
    print(f"demos: {len(asked)} numbers, as the plain loop, with {min(asked)} to {max(asked)} answers")


if __name__ == "__main__":
    main()
