#!/usr/bin/env python3
"""Sessions with the built program, question by question over a pipe, beside a plain enumeration.

usage: checks/owners.py PROGRAM [SESSIONS]

Each session draws a small language, a plan, a budget and an owner: one who answers by a network, or by the toss of a coin.
What the program says at the end is compared with all networks of candidates, one or none on each scope, in code that shares
nothing with the program: after `converged` the printed network gives every answer, and each network that does has its
solutions; after `collapsed` none does; after `undecided` the open candidates are possible, in candidate order, and every
other possible one follows from the printed network. The seed is the number of the session, so a failure comes again.
"""

import itertools
import json
import math
import os
import random
import sys

sys.path.insert(0, os.path.join(os.path.dirname(os.path.abspath(__file__)), "..", "python"))
from acquire import Program

OPERATORS = {
    "+": lambda x: sum(x),
    "-": lambda x: x[0] - sum(x[1:]),
    "*": lambda x: math.prod(x),
    "abs": lambda x: abs(x[0]),
    "=": lambda x: x[0] == x[1],
    "!=": lambda x: x[0] != x[1],
    "<": lambda x: x[0] < x[1],
    "<=": lambda x: x[0] <= x[1],
    ">": lambda x: x[0] > x[1],
    ">=": lambda x: x[0] >= x[1],
    "and": all,
    "or": any,
    "not": lambda x: not x[0],
}
MOST_NETWORKS = 700


def worth(formula, values):
    if isinstance(formula, int):
        return formula
    if isinstance(formula, str):
        return values[int(formula[1:])]
    return OPERATORS[formula[0]]([worth(part, values) for part in formula[1:]])


def draw_term(draw, arity, depth):
    if depth == 0 or draw.random() < 0.4:
        return draw.choice([f"${draw.randrange(arity)}", draw.randint(-3, 5)])
    operator = draw.choice(["+", "-", "*", "abs"])
    parts = 1 if operator == "abs" else 2
    return [operator] + [draw_term(draw, arity, depth - 1) for _ in range(parts)]


def draw_truth(draw, arity, depth):
    if depth == 0 or draw.random() < 0.6:
        operator = draw.choice(["=", "!=", "<", "<=", ">", ">="])
        return [operator, draw_term(draw, arity, 1), draw_term(draw, arity, 1)]
    operator = draw.choice(["and", "or", "not"])
    parts = 1 if operator == "not" else 2
    return [operator] + [draw_truth(draw, arity, depth - 1) for _ in range(parts)]


def draw_range(draw, values):
    """Some neighbouring values."""
    first = draw.randrange(len(values))
    return values[first : draw.randint(first, len(values) - 1) + 1]


class Language:
    """A vocabulary, with its relations as sets of tuples, and its candidates in order.

    A relation on a scope is the set of its tuples within the ranges of the scope's variables: no other tuple is ever asked.
    """

    def __init__(self, draw, most_variables=4, most_values=3):
        count = draw.randint(1, most_variables)
        least = draw.randint(-2, 1)
        self.values = list(range(least, least + draw.randint(1, most_values)))
        self.names = [f"v{i}" for i in range(count)]
        self.ranges = [self.values] * count
        if draw.random() < 0.5:
            self.ranges = [draw_range(draw, self.values) if draw.random() < 0.6 else self.values for _ in self.names]
        self.tables = {}
        relations = []
        for i in range(draw.randint(1, 3)):
            arity = draw.randint(1, min(3, count))
            tuples = list(itertools.product(self.values, repeat=arity))
            relation = {"name": f"r{i}", "arity": arity}
            if draw.random() < 0.3:
                held = [t for t in tuples if draw.random() < 0.6]
                relation["tuples"] = held
            else:
                relation["formula"] = draw_truth(draw, arity, 2)
                held = [t for t in tuples if worth(relation["formula"], t)]
            relations.append(relation)
            self.tables[f"r{i}"] = (arity, frozenset(held))
        arities = sorted({arity for arity, _ in self.tables.values()})
        every = [s for a in arities for s in itertools.combinations(range(count), a)]
        if len(arities) == 1 and draw.random() < 0.5:
            self.scopes, given = every, "all"
        else:
            self.scopes = []
            for scope in draw.sample(every, len(every)):
                if len(self.scopes) < 4 and not any(set(scope) <= set(s) or set(s) <= set(scope) for s in self.scopes):
                    self.scopes.append(scope)
            given = [[self.names[v] for v in scope] for scope in self.scopes]
        whole = {"variables": self.names, "domain": [self.values[0], self.values[-1]], "relations": relations, "scopes": given}
        narrow = [[name, own[0], own[-1]] for name, own in zip(self.names, self.ranges) if own != self.values]
        if narrow:
            # an entry for a variable with all values says nothing, and their order is free
            more = [[name, own[0], own[-1]] for name, own in zip(self.names, self.ranges) if own == self.values and draw.random() < 0.2]
            whole["ranges"] = draw.sample(narrow + more, len(narrow) + len(more))
        self.text = json.dumps(whole)
        self.closed = {scope: self.closing(scope) for scope in self.scopes}
        self.candidates = [(scope, table) for scope in self.scopes for table in self.closed[scope]]
        self.wholes = list(itertools.product(*self.ranges))

    def tuples(self, scope):
        """Those within the ranges of a scope's variables."""
        return list(itertools.product(*(self.ranges[v] for v in scope)))

    def on(self, scope):
        """The relations on a scope, by name."""
        within = frozenset(self.tuples(scope))
        return {name: table & within for name, (arity, table) in self.tables.items() if arity == len(scope)}

    def closing(self, scope):
        """All intersections of the relations on a scope, a relation that contains another one first."""
        tables = list(self.on(scope).values())
        found = {
            frozenset.intersection(*some)
            for size in range(1, len(tables) + 1)
            for some in itertools.combinations(tables, size)
        }
        tuples = self.tuples(scope)
        return sorted(found, key=lambda table: [t in table for t in tuples], reverse=True)

    def networks(self):
        """All networks: one candidate or none on each scope."""
        choices = [[None, *((scope, table) for table in self.closed[scope])] for scope in self.scopes]
        for network in itertools.product(*choices):
            yield [candidate for candidate in network if candidate]

    def network_count(self):
        return math.prod(len(self.closed[scope]) + 1 for scope in self.scopes)

    def solutions(self, network):
        return [whole for whole in self.wholes if accepts(network, dict(enumerate(whole)))]

    def candidate_of(self, text):
        """The candidate of this text. Its name lists all relations that contain it."""
        name, *variables = text.split(" ")
        scope = tuple(self.names.index(v) for v in variables)
        given = self.on(scope)
        table = frozenset.intersection(*(given[one] for one in name.split("&")))
        full = "&".join(r for r, t in given.items() if table <= t)
        assert name == full, f"{name} for {full}"
        return scope, table


def violates(candidate, shown):
    scope, table = candidate
    return all(v in shown for v in scope) and tuple(shown[v] for v in scope) not in table


def accepts(network, shown):
    return not any(violates(candidate, shown) for candidate in network)


def play(program, lang, words, owner):
    """The questions with their answers, the lines behind them, and the exit status."""
    answers, last = [], []
    run = Program(program).run([":memory:", "try", *words])
    run.write(lang.text.encode() + b"\n")
    while line := run.line():
        number, *parts = line.split(" ")
        if number != f"q{len(answers) + 1}":
            last.append(line)
            continue
        shown = {lang.names.index(name): int(value) for name, value in (part.split("=") for part in parts)}
        answers.append((shown, owner(shown)))
        run.write(b"yes\n" if answers[-1][1] else b"no\n")
    return answers, last, run.close()


def check(lang, plan, answers, last, status):
    """What the ending says is so."""
    ending, count = last[0].split(" ")
    assert int(count) == len(answers), "the count isn't that of the answers"
    assert all(value in lang.ranges[v] for shown, _ in answers for v, value in shown.items()), "a question leaves the ranges"
    assert status == {"converged": 0, "collapsed": 4, "undecided": 5}[ending], f"status {status}"
    agreeing = [m for m in lang.networks() if all(accepts(m, shown) == yes for shown, yes in answers)]
    if ending == "collapsed":
        assert plan != "scopes" and len(last) == 1 and not agreeing, "some network agrees"
        return
    learned = [lang.candidate_of(line) for line in last[1:] if not line.startswith("open ")]
    solutions = lang.solutions(learned)
    if ending == "converged":
        assert all(accepts(learned, shown) == yes for shown, yes in answers), "the network doesn't agree"
        assert all(lang.solutions(m) == solutions for m in agreeing), "another network has other solutions"
        return
    opened = [lang.candidate_of(line[5:]) for line in last[1:] if line.startswith("open ")]
    done = {scope for scope, _ in learned}
    struck = lambda c: any(yes and violates(c, shown) for shown, yes in answers)
    possible = [c for c in lang.candidates if c[0] not in done and not struck(c)]
    assert plan != "scopes" and opened, "nothing is open"
    assert opened == [c for c in possible if c in opened], "a candidate is open that isn't possible, or out of order"
    for scope, table in possible:
        follows = all(tuple(whole[v] for v in scope) in table for whole in solutions)
        assert follows or (scope, table) in opened, "a possible candidate doesn't follow and isn't open"


def session(program, number):
    draw = random.Random(number)
    lang = Language(draw)
    while lang.network_count() > MOST_NETWORKS:
        lang = Language(draw)
    target = draw.choice(list(lang.networks()))
    owner = (lambda shown: accepts(target, shown)) if draw.random() < 0.5 else (lambda shown: draw.random() < 0.5)
    plan = draw.choice(["quacq", "multi", "scopes"])
    budget = draw.choice([1, 2, 4, 8, 100000, 100000])
    answers, last, status = play(program, lang, ["--plan", plan, "--budget", str(budget)], owner)
    check(lang, plan, answers, last, status)
    return last[0].split(" ")[0]


def main():
    if len(sys.argv) < 2:
        print(__doc__)
        sys.exit(2)
    program = sys.argv[1]
    sessions = int(sys.argv[2]) if len(sys.argv) > 2 else 2000
    endings = {}
    for number in range(sessions):
        try:
            ending = session(program, number)
        except Exception as fault:
            print(f"owners: session {number}: {fault!r}")
            sys.exit(1)
        endings[ending] = endings.get(ending, 0) + 1
    said = ", ".join(f"{count} {ending}" for ending, count in sorted(endings.items()))
    if len(endings) < 3:
        print(f"owners: not each ending came: {said}")
        sys.exit(1)
    print(f"owners: {sessions} sessions, each ending as the answers say: {said}")


if __name__ == "__main__":
    main()
