#!/usr/bin/env python3
"""Each question that the built program asks, beside the one that plain recursions give.

usage: checks/walks.py PROGRAM [SESSIONS]

Each session draws a language, a plan and an owner, as checks/owners.py does, with more variables and values. Where nothing is
open, the next question comes of a plain walk: depth first over the values of the candidate's variables and then of the others,
values rising, going back only where the network is violated or the candidate is satisfied. There is no budget and no
propagation, so the program's searches, which end under theirs, have to find the same. The questions between come of plain
recursions over the answers. The program's questions, its ending and its network have to be these. The seed is the number of
the session, so a failure comes again.
"""

import random
import sys

sys.dont_write_bytecode = True
from owners import Language, accepts, play, violates

FEWEST_CANDIDATES = 12


def satisfies(candidate, shown):
    scope, table = candidate
    return all(v in shown for v in scope) and tuple(shown[v] for v in scope) in table


def solution(lang, network, candidate):
    """The first complete assignment that the network accepts and that violates the candidate, or none."""
    scope = candidate[0]
    order = [*scope, *(v for v in range(len(lang.names)) if v not in scope)]

    def below(shown):
        if not accepts(network, shown) or satisfies(candidate, shown):
            return None
        if len(shown) == len(order):
            return shown
        v = order[len(shown)]
        longer = (below({**shown, v: value}) for value in lang.ranges[v])
        return next((found for found in longer if found), None)

    return below({})


class Learning:
    """A session as a generator: it gives each question, and is sent the answer to it."""

    def __init__(self, lang, plan):
        self.lang, self.plan = lang, plan
        self.network, self.answers, self.implied = [], [], set()

    def possible(self):
        done = {scope for scope, _ in self.network}
        struck = lambda c: any(yes and violates(c, shown) for shown, yes in self.answers)
        return [c for c in self.lang.candidates if c[0] not in done and not struck(c)]

    def example(self):
        """The first solution against a possible candidate. Where there is none, there is none later, when more is learned."""
        for candidate in self.possible():
            if candidate not in self.implied:
                shown = solution(self.lang, self.network, candidate)
                if shown:
                    return shown
                self.implied.add(candidate)
        return None

    def put(self, shown):
        yes = yield shown
        self.answers.append((shown, yes))
        return yes

    def put_part(self, example, part):
        """The answer about a part of an example: yes where no possible candidate is violated, and else the owner's."""
        shown = {v: example[v] for v in part}
        if not any(violates(c, shown) for c in self.possible()):
            return True
        return (yield from self.put(shown))

    def halved(self, example, base, part, is_asked):
        """The members of the part that are found to matter beside the base."""
        if is_asked and not (yield from self.put_part(example, base)):
            return set()
        if len(part) == 1:
            return part
        members = sorted(part)
        middle = (len(members) + 1) // 2
        first, second = set(members[:middle]), set(members[middle:])
        found = yield from self.halved(example, base | first, second, True)
        return found | (yield from self.halved(example, base | found, first, bool(found)))

    def told_apart(self, scope, tables):
        """Of the tables the one that is left when all that differ are told apart."""
        while len(tables) > 1:
            some, every = frozenset.union(*tables), frozenset.intersection(*tables)
            if some == every:
                break
            asked = min(some - every)
            yes = yield from self.put(dict(zip(scope, asked)))
            tables = [table for table in tables if (asked in table) == yes]
        return tables[-1]

    def learned_from(self, example, part):
        """Learns from the no to a part of an example. Says whether a candidate can be the cause."""
        scope = tuple(sorted((yield from self.halved(example, set(), part, False))))
        tables = [table for s, table in self.possible() if s == scope and violates((s, table), example)]
        if not tables:
            return False
        self.network.append((scope, (yield from self.told_apart(scope, tables))))
        return True

    def walked(self, example):
        """Goes through the parts of an example, from the whole on. Says whether candidates can be the cause of each no."""
        stack = [set(example)]
        while stack:
            part = stack.pop()
            known = next((c for c in self.network if violates(c, example) and set(c[0]) <= part), None)
            if known:
                stack.extend(part - {v} for v in reversed(known[0]))
            elif not (yield from self.put_part(example, part)):
                if not (yield from self.learned_from(example, part)):
                    return False
                stack.append(part)
        return True

    def by_scopes(self):
        """Tells apart what is possible on each scope, and a relation of all tuples, which isn't learned."""
        for scope in self.lang.scopes:
            whole = frozenset(self.lang.tuples(scope))
            table = yield from self.told_apart(scope, [*(table for s, table in self.possible() if s == scope), whole])
            if table != whole:
                self.network.append((scope, table))
        return "converged"

    def questions(self):
        if self.plan == "scopes":
            return (yield from self.by_scopes())
        while example := self.example():
            if self.plan == "multi":
                goes_on = yield from self.walked(example)
            else:
                goes_on = (yield from self.put(example)) or (yield from self.learned_from(example, set(example)))
            if not goes_on:
                return "collapsed"
        return "converged"


def session(program, number):
    draw = random.Random(number)
    lang = Language(draw, 6, 4)
    while len(lang.candidates) < FEWEST_CANDIDATES:
        lang = Language(draw, 6, 4)
    drawn = [(scope, draw.choice([None, *lang.closed[scope]])) for scope in lang.scopes]
    target = [candidate for candidate in drawn if candidate[1] is not None]
    owner = (lambda shown: accepts(target, shown)) if draw.random() < 0.7 else (lambda shown: draw.random() < 0.5)
    plan = draw.choice(["quacq", "multi", "scopes"])
    learning = Learning(lang, plan)
    questions = learning.questions()
    due = ending = None

    def go_on(reply):
        nonlocal due, ending
        try:
            due = questions.send(reply)
        except StopIteration as end:
            due, ending = None, end.value

    def answer(shown):
        assert shown == due, f"it asks {shown} in place of {due}"
        yes = owner(shown)
        go_on(yes)
        return yes

    go_on(None)
    answers, last, _ = play(program, lang, ["--plan", plan], answer)
    assert last[0] == f"{ending} {len(answers)}", f"it ends with {last[0]} in place of {ending}, with {due} due"
    assert ending == "collapsed" or [lang.candidate_of(line) for line in last[1:]] == learning.network, "another network"
    return plan, len(answers)


def main():
    if len(sys.argv) < 2:
        print(__doc__)
        sys.exit(2)
    program = sys.argv[1]
    sessions = int(sys.argv[2]) if len(sys.argv) > 2 else 400
    asked = {}
    for number in range(sessions):
        try:
            plan, questions = session(program, number)
        except Exception as fault:
            print(f"walks: session {number}: {fault!r}")
            sys.exit(1)
        asked[plan] = asked.get(plan, 0) + questions
    if len(asked) < 3 or not all(asked.values()):
        print(f"walks: not each plan asked: {asked}")
        sys.exit(1)
    said = ", ".join(f"{count} in {plan}" for plan, count in sorted(asked.items()))
    print(f"walks: {sessions} sessions, each question that of the plain walk: {said}")


if __name__ == "__main__":
    main()
