"""Plans from a SAT solver beside plain trial of all values, with each solver that is installed, and with one that lies.

Of small sessions all plans are listed by trial. A plan that desk shows has to be one of them, and as far from those before as
any is. A plan that breaks one rule alone has to do so, and where desk finds none there is none.
"""

from __future__ import annotations

import itertools
import os
import random
import shutil
import stat
import tempfile
import time
from collections.abc import Callable

import hands        # desk's folder is on the path now
from planners_desk.case import casefile
from planners_desk.case import model
from planners_desk.report import page
from planners_desk.sitting import judging
from planners_desk.hints import sentences
from planners_desk.sitting import session
from planners_desk.hints import solver
from planners_desk.program import talk

SESSIONS = 8
SMALL = """title: Small
things: day Mon Tue x shift early late night
values: Ann Ben Cas
ask: same day, night to next day early
words: different, never Ann, one of them Cas
"""
TRIO = """title: Trio
things: a b c d
values: x y z
ask: a-b-c, b-c-d
words: all three different, not all three the same, at most one of three x
"""
# what is known and isn't asked about, as a line of a case and as a test of a plan by names
KNOWN = {
    SMALL: ("known: at most one of them Cas on same day, exactly 2 of them Ben, at least 1 of them Ann on Tue\n",
            lambda plan: all(sum(plan[f"{day} {shift}"] == "Cas" for shift in ("early", "late", "night")) <= 1 for day in ("Mon", "Tue"))
            and list(plan.values()).count("Ben") == 2 and "Ann" in [plan[f"Tue {shift}"] for shift in ("early", "late", "night")]),
    TRIO: ("known: at most two letters alike\nknown: different on a - d\n",
           lambda plan: max(map(list(plan.values()).count, plan.values())) <= 2 and plan["a"] != plan["d"]),
}

PLANTED = [
    # what is known isn't kept
    ("hints/solver.py", "    wanted = None if clauses is None else with_known(clauses, vocabulary)", "    wanted = clauses"),
    ("hints/solver.py", "at_least(literals, len(literals) - count.most, last)", "at_least(literals, len(literals) - count.most - 1, last)"),
    ("hints/solver.py", "at_least([-literal for literal in literals], count.least, last)", "at_least(literals, count.least, last)"),
    ("hints/solver.py",
     "wanted = with_known(\n"
     "        dataclasses.replace(clauses, clauses=clauses.clauses[: clauses.own]), vocabulary\n"
     "    )",
     "wanted = dataclasses.replace(clauses, clauses=clauses.clauses[: clauses.own])"),
    ("hints/solver.py", "clock.within(SECONDS)", "Clock(SECONDS)"),
    ("report/page.py",
     "            *beside(session.case),\n",
     ""),
    ("case/counts.py", "0 if found[1] == \"at most\" else number,", "0 if found[1] != \"at least\" else number,"),
    ("case/counts.py", "thing.place for thing in things if thing.at[k] == member)", "thing.place for thing in things if thing.at[k] >= member)"),
    # what a solver prints is shown unchecked
    ("hints/solver.py", "    if reply.status != 0 or not reply.lines or not reply.lines[0].startswith(\"solution\"):\n        return None\n"
     "    return vocabulary.values_of(reply.lines[0].split()[1:])", "    return clauses.values(true)"),
    # a plan that breaks one rule may break another
    ("hints/solver.py", "    for other in others:\n        extra +=", "    for other in others[1:]:\n        extra +="),
]


def run(program: str) -> list[str]:
    """The faults that were found."""
    faults: list[str] = []
    installed = [name for name in solver.SOLVERS if shutil.which(name)]
    counts = [0, 0, 0]      # plans, broken rules, sessions with something known
    for turn in range(SESSIONS):
        for name in installed:
            faults += [f"plans: {name}, session {turn}: {fault}" for fault in one_session(program, turn, name, counts)]
    faults += [f"plans: {fault}" for fault in without(program)]
    if installed:
        faults += [f"plans: a solver that lies: {fault}" for fault in lying(program)]
        faults += [f"plans: a solver that is stuck: {fault}" for fault in stuck(program)]
    else:
        hands.passed_over("plans", "no solver draws a plan that is looked at")
    missing = [name for name in solver.SOLVERS if name not in installed]
    print(f"plans: {counts[0]} plans and {counts[1]} broken rules by {', '.join(installed) or 'no solver'}"
          + (f"; not installed: {', '.join(missing)}" if missing else ""))
    return faults


def one_session(program: str, turn: int, name: str, counts: list[int]) -> list[str]:
    """The plans of one session."""
    draw = random.Random(turn)
    text = (SMALL, TRIO)[turn % 2]
    line, keeps = KNOWN[text] if turn >= SESSIONS // 2 else ("", lambda plan: True)
    real, solver.name = solver.name, lambda: name
    try:
        with hands.room("small", text + line) as path:
            case = casefile.read(path)
            rules = drawn_rules(draw, case)
            hands.answered(path, program, lambda q: not any(broken(rule, q) for rule in rules))
            with session.Session.opened(case, talk.Program(program)) as one:
                ending = one.state()
                if ending.word != "converged":
                    return [f"ends {ending.word}"]
                def kept(plan: model.Values) -> bool:
                    return keeps({case.things[thing].name: case.values[value] for thing, value in plan.items()})
                counts[2] += bool(line)
                said = page.page(one, ending, None) if line and counts[2] == 1 else ""
                if said and not all(f"<li>{known.text}</li>" in said for known in case.known):
                    return ["the page doesn't have what is known"]
                every = [plan for plan in all_plans(one, ending.learned) if kept(plan)]
                return far(one, every, counts) + alone(one, ending, every, counts, kept)
    finally:
        solver.name = real


def drawn_rules(draw: random.Random, case: model.Case) -> list[tuple[model.Word, tuple[str, ...]]]:
    """Some rules that the case can say, by names."""
    found = []
    for group in case.groups:
        word = draw.choice(case.words)
        if draw.random() < 0.7 and word.arity <= len(group.things):
            found.append((word, tuple(case.things[thing].name for thing in group.things[:word.arity])))
    return found


def broken(rule: tuple[model.Word, tuple[str, ...]], q: hands.Named) -> bool:
    """Whether named values break a rule."""
    word, things = rule
    names = ["Ann", "Ben", "Cas"] if "Mon early" in "".join(things) or things[0][:3] in ("Mon", "Tue") else ["x", "y", "z"]
    return all(thing in q for thing in things) and not word.holds(*(names.index(q[thing]) for thing in things))


def all_plans(one: session.Session, learned: tuple[model.Constraint, ...]) -> list[model.Values]:
    """All plans that constraints allow, by trial."""
    things = one.case.things
    plans = (dict(enumerate(some)) for some in itertools.product(*(thing.allowed for thing in things)))
    return [plan for plan in plans if all(one.vocabulary.accepts(constraint, plan) for constraint in learned)]


def distance(a: model.Values, b: model.Values) -> int:
    """In how many values two plans differ."""
    return sum(a[thing] != b[thing] for thing in a)


def far(one: session.Session, every: list[model.Values], counts: list[int]) -> list[str]:
    """Each plan is one of all, and as far from those before as can be."""
    found, before = [], []
    for place, plan in enumerate(solver.far(one.program, one.vocabulary, one.journal, 5)):
        counts[0] += 1
        if plan.values not in every:
            found.append(f"plan {place} isn't allowed: {plan.values}")
        best = max((min(distance(other, it) for it in before) for other in every), default=0) if before else None
        got = min(distance(plan.values, it) for it in before) if before else None
        if plan.apart != best or got != best:
            found.append(f"plan {place} is said to be {plan.apart} apart, is {got}, and {best} can be had")
        before.append(plan.values)
    if len(before) < min(5, len(every)):
        found.append(f"{len(before)} plans of {len(every)}")
    return found


def alone(one: session.Session, ending: model.Ending, every: list[model.Values], counts: list[int],
          kept: Callable[[model.Values], bool]) -> list[str]:
    """A plan for each rule that can be broken alone, while what is known is kept, and none else."""
    said = sentences.grouped(one.vocabulary, ending.learned, one.reduced())
    rules = [rule for sentence in said for rule in sentence.rules]
    plans = [plan for some in itertools.product(*(thing.allowed for thing in one.case.things)) if kept(plan := dict(enumerate(some)))]
    found = []
    for rule in rules:
        counts[1] += 1
        others = [other for other in rules if other is not rule]
        can = any(rule.violated(plan) and not any(other.violated(plan) for other in others) for plan in plans)
        got = solver.breaking(one.program, one.vocabulary, one.journal, rule, others)
        if (got is not None) != can:
            found.append(f"{rule.text}: {got}, and that there is one is {can}")
        if got is not None and (not rule.violated(got) or any(other.violated(got) for other in others) or got in every):
            found.append(f"{rule.text}: {got} doesn't break it alone")
    for sentence in said:
        shown = judging.broken_alone(one, sentence, said)
        can = any(rule.violated(plan) and not any(other.violated(plan) for other in rules if other is not rule)
                  for rule in sentence.rules[:4] for plan in plans)
        if sentence.follows != "all" and (shown is not None) != can:
            found.append(f"{sentence.text}: shows {shown}, and that there is one is {can}")
        if shown is not None and set(shown.marks) != set(shown.rule.things):
            found.append(f"{sentence.text}: marks {shown.marks}")
    return found


def without(program: str) -> list[str]:
    """Without a solver there are no plans, and nothing breaks."""
    with hands.room("small", SMALL) as path:
        hands.answered(path, program, lambda q: len(set(q.values())) == len(q))
        real, solver.name = solver.name, lambda: None
        try:
            with session.Session.opened(casefile.read(path), talk.Program(program)) as one:
                return [] if solver.far(one.program, one.vocabulary, one.journal, 3) == [] else ["there are plans without a solver"]
        finally:
            solver.name = real


def constant(program: str, path: str) -> str:
    """What a solver says that always finds one and the same plan."""
    with session.Session.opened(casefile.read(path), talk.Program(program)) as one:
        clauses = solver.clauses_of(one.program, one.vocabulary, one.journal)
        assert clauses is not None
        return "s SATISFIABLE\nv " + " ".join(map(str, clauses.literals(all_plans(one, one.state().learned)[0]))) + " 0\n"


STUCK = """#!/bin/sh
# a solver that answers once, and never again
[ -e FOLDER/answered ] && exec sleep 1000
touch FOLDER/answered
exec REAL "$@"
"""


def stuck(program: str) -> list[str]:
    """With a solver that doesn't come to an end plans are looked for as long as the clock says."""
    found: list[str] = []
    before, real = os.environ["PATH"], shutil.which("cadical")
    if real is None:
        hands.passed_over("plans", "cadical isn't there to be stuck")
        return []
    with tempfile.TemporaryDirectory() as folder, hands.room("small", SMALL) as path:
        hands.answered(path, program, lambda q: len(set(q.values())) == len(q))
        fake = os.path.join(folder, "cadical")
        with open(fake, "w", encoding="utf-8") as file:
            file.write(STUCK.replace("FOLDER", folder).replace("REAL", real))
        os.chmod(fake, 0o755)
        os.environ["PATH"] = folder + os.pathsep + before
        try:
            with session.Session.opened(casefile.read(path), talk.Program(program)) as one:
                began = time.monotonic()
                plans = solver.far(one.program, one.vocabulary, one.journal, 3, talk.Clock(1.5))
                said = sentences.grouped(one.vocabulary, one.state().learned)
                broken = judging.broken_alone(one, said[0], said, clock=talk.Clock(1.5))
                took = time.monotonic() - began
            if len(plans) != 1 or broken is not None or took > 9:
                found.append(f"{len(plans)} plans and {broken} after {took:.1f} s of 3")
        finally:
            os.environ["PATH"] = before
    return found


def lying(program: str) -> list[str]:
    """Whatever a solver prints, no plan is shown that the rules don't allow."""
    found = []
    before = os.environ["PATH"]
    with tempfile.TemporaryDirectory() as folder, hands.room("small", SMALL) as path:
        hands.answered(path, program, lambda q: len(set(q.values())) == len(q))
        fake = os.path.join(folder, "cadical")
        os.environ["PATH"] = folder + os.pathsep + before
        try:
            for says in (constant(program, path), "s SATISFIABLE\nv 1 4 7 10 13 16 0\n", "s SATISFIABLE\nv 1 2 3 0\n", "s SATISFIABLE\nv 0\n",
                         "v x\n", "", "v 99999 0\n", "v -1 -2 0\n"):
                with open(fake, "w", encoding="utf-8") as file:
                    file.write(f"#!/bin/sh\nprintf '{says}'\nexit 10\n")
                os.chmod(fake, os.stat(fake).st_mode | stat.S_IXUSR)
                with session.Session.opened(casefile.read(path), talk.Program(program)) as one:
                    plans = solver.far(one.program, one.vocabulary, one.journal, 2)
                    every = all_plans(one, one.state().learned)
                    found += [f"{says!r} gives {plan.values}" for plan in plans if plan.values not in every]
        finally:
            os.environ["PATH"] = before
    return found
