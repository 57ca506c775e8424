"""Four cases of people who plan, from an empty session to the end: a dinner, a conference,
holidays, a store of chemicals.

Their owners hold rules in plain words. What was learned is compared with these rules on each group
at all values. Two owners hold something that the case can't say: a word that is missing has to be
named, and a count behind a clash has to be told.
"""

from __future__ import annotations

import itertools
import os
import re
import subprocess
import tempfile
from dataclasses import dataclass

import hands  # desk's folder is on the path now
from planners_desk.case import casefile
from planners_desk.hints import sentences, solver
from planners_desk.sitting import session
from planners_desk.program import talk
from hands import Named, Owner

SEATS = """title: Seats
things: Ada Bo Cy Dürr Eve Fay Gus
values: table left right x seat 1 2 3 4
ask: all
words: different, same table, next to
"""
CONFERENCE = """title: Conference
things: opening maths bees rivers bread stars glass music
values: room A B C x hour 9 10 11 12
ask: all
words: different, different hour, earlier hour, same room
always: different on all
"""
HOLIDAYS = """title: Holidays
things: Ana Ben Cleo Dan Ede Fritz Gina Hans Ida
values: week1 week2 week3 week4 week5
ask: all
words: different, same
"""
TRIPLES = HOLIDAYS.replace("ask: all", "ask: all triples").replace(
    "different, same", "different, not all three the same"
)
STORE = """title: Store
things: nitric sulfuric bleach ammonia lye acetone ethanol ether permanganate peroxide salt sugar
values: shelf1 shelf2 shelf3 shelf4 shelf5 shelf6
ask: all
words: different, not next to, at least 2 apart
"""
SHOPS = ("Ana Ben Cleo".split(), "Dan Ede Fritz".split(), "Gina Hans Ida".split())
ACIDS, BASES = ("nitric", "sulfuric"), ("bleach", "ammonia", "lye")
FLAMMABLE, OXIDIZERS = ("acetone", "ethanol", "ether"), ("permanganate", "peroxide")

PLANTED = [
    # words about a part of the values aren't looked for
    (
        "sitting/missing.py",
        "for form in parted + [form for form in plain if form not in parted] + named:",
        "for form in named:",
    ),
    # a word is offered that an accepted example breaks
    ("sitting/missing.py", "and all(word.holds(*some) for some in seen)", "and bool(seen or 1)"),
    # what an accepted example shows counts as never seen
    (
        "hints/sentences.py",
        "accepted = [answer.question.values for answer in answers if answer.yes]",
        "accepted = [answer.question.values for answer in answers if not answer.yes]",
    ),
]


def together(q: Named, *names: str) -> bool:
    """Whether all of these have a value."""
    return all(name in q for name in names)


def seats(q: Named) -> bool:
    """No seat twice, Ada and Bo at one table, Eve beside Fay; Cy and Dürr at two tables."""
    table = {name: seat.split()[0] for name, seat in q.items()}
    if len(set(q.values())) < len(q) or together(q, "Ada", "Bo") and table["Ada"] != table["Bo"]:
        return False
    if together(q, "Eve", "Fay") and (
        table["Eve"] != table["Fay"] or abs(int(q["Eve"][-1]) - int(q["Fay"][-1])) != 1
    ):
        return False
    return not together(q, "Cy", "Dürr") or table["Cy"] != table["Dürr"]


def conference(q: Named) -> bool:
    """No two talks in one room at once, the opening before all others, and bees and rivers, which
    have one speaker, not at once."""
    hour = {name: int(value.split()[1]) for name, value in q.items()}
    if (
        len(set(q.values())) < len(q)
        or together(q, "bees", "rivers")
        and hour["bees"] == hour["rivers"]
    ):
        return False
    return "opening" not in q or all(
        hour["opening"] < hour[name] for name in q if name != "opening"
    )


def shops(q: Named) -> bool:
    """No two of one shop are away in one week."""
    return not any(
        together(q, one, other) and q[one] == q[other]
        for shop in SHOPS
        for one, other in itertools.combinations(shop, 2)
    )


def holidays(q: Named) -> bool:
    """The same, and never more than two are away."""
    return shops(q) and all(list(q.values()).count(week) < 3 for week in q.values())


def store(q: Named) -> bool:
    """Acids not with bases, and neither acids nor what oxidizes beside or with what burns."""
    shelf = {name: int(value[-1]) for name, value in q.items()}
    apart = [(one, other, 1) for one in ACIDS for other in BASES] + [
        (one, other, 2) for one in (*ACIDS, *OXIDIZERS) for other in FLAMMABLE
    ]
    return all(
        abs(shelf[one] - shelf[other]) >= least
        for one, other, least in apart
        if together(q, one, other)
    )


@dataclass(frozen=True)
class Row:
    """A case, who answers, in which plans, and in how many sentences the rules are to be said at
    most."""

    name: str
    text: str
    owner: Owner
    plans: tuple[str, ...]
    lines: int
    told: Owner | None = (
        None  # the rules that the words can say, where the owner holds others as well
    )


ROWS = (
    Row("conference", CONFERENCE, conference, ("scopes", "quacq", "multi"), 3),
    Row("store", STORE, store, ("scopes", "quacq", "multi"), 5),
    Row("holidays", HOLIDAYS, holidays, ("scopes",), 3, shops),
    Row("holidays on triples", TRIPLES, holidays, ("scopes",), 5),
)


def run(program: str) -> list[str]:
    """The faults that were found."""
    faults, told = [], []
    for row in ROWS:
        for plan in row.plans:
            with hands.room("it", row.text) as path:
                ending = hands.answered(path, program, row.owner, plan)
                said, wrong = judged(program, path, row.told or row.owner)
                told.append(
                    f"{row.name} {plan} {hands.answers(program, path)} answers in {len(said)} lines"
                )
                if ending != "converged" or wrong:
                    faults.append(
                        f"cases: {row.name}, {plan}: {ending}, other rules on {wrong[:3]}"
                    )
                if len(said) > row.lines:
                    faults.append(f"cases: {row.name}, {plan}: {len(said)} lines: {said[:6]}")
    print(f"cases: {'; '.join(told)}")
    return faults + missing_word(program) + count(program)


def quick(program: str) -> list[str]:
    """The two owners that hold what can't be said."""
    return missing_word(program) + count(program)


def judged(
    program: str, path: str, owner: Owner, leave: tuple[str, ...] = ()
) -> tuple[list[str], list[tuple[str, ...]]]:
    """The sentences of a session, and the groups on which other values are allowed than the owner
    allows; one may be left out."""
    with session.Session.opened(casefile.read(path), talk.Program(program)) as one:
        learned = one.learned()
        case, words = one.case, one.vocabulary
        wrong = []
        for scope in words.scopes:
            names = tuple(case.things[thing].name for thing in scope)
            mine = [constraint for constraint in learned if constraint.scope == scope]
            for some in itertools.product(*(case.things[thing].allowed for thing in scope)):
                values = dict(zip(scope, some))
                allowed = all(words.accepts(constraint, values) for constraint in mine)
                if names != leave and allowed != owner(
                    {case.things[thing].name: case.values[value] for thing, value in values.items()}
                ):
                    wrong.append(names)
                    break
        return [
            said.whole for said in sentences.grouped(words, learned, answers=one.answers)
        ], wrong


def ends(
    program: str,
    path: str,
    owner: Owner,
    plan: str,
    keys: str = "",
    env: Named | None = None,
) -> tuple[int, list[list[str]]]:
    """How many questions are answered until another sheet comes, and that sheet with those after
    some keys."""
    it = hands.Piped(path, program, *(["--plan", plan] if plan else []), env=env)
    typed = 0
    sheets = []
    while (sheet := it.sheet()) is not None and hands.is_question(sheet):
        typed += 1
        it.say("y" if owner(hands.plain_values(sheet)) else "n")
    sheets.append(sheet or [])
    for key in keys:
        it.say(key)
        sheets.append(it.sheet() or [])
    it.say("q")
    it.end()
    return typed, sheets


def missing_word(program: str) -> list[str]:
    """The dinner: the missing word is told, at the rule that nobody saw kept or at the clash, and
    `carry` mends the session with it. A rule that nobody saw kept is judged in a plan, which a
    solver draws."""
    faults, told = [], []
    undrawn = []  # plans in which nothing leads to the word, for want of a solver
    for plan in ("scopes", "multi", "quacq"):
        with hands.room("seats", SEATS) as path:
            first, sheets = ends(program, path, seats, plan)
            text = "\n".join(sheets[0])
            clashes = sheets[0][:1] == ["Your answers clash"]
            if not clashes:
                if "Cy and Dürr are next to each other (never seen yet)" not in text:
                    faults.append(
                        f"cases: seats, {plan}: the rule that isn't so isn't marked: {text}"
                    )
                faults += [f"cases: seats, {plan}: {it}" for it in without_solver(program, path)]
            if not clashes and solver.name() is None:
                undrawn.append(plan)
            else:
                if not clashes:
                    _, sheets = ends(program, path, seats, "", "gn")
                offered = re.search(r"words would explain it: (.*?)\.", "\n".join(sheets[-1]))
                words = offered[1].split(", ") if offered else []
                if words[:1] != ["`different table`"]:
                    faults.append(f"cases: seats, {plan}: {words} are offered, in {sheets[-1]}")
                    continue
            with open(path, "a", encoding="utf-8") as file:
                file.write("words: different table\n")
            carried = subprocess.run(
                [
                    "/usr/bin/python3",
                    os.path.join(hands.DESK, "desk"),
                    "carry",
                    path,
                    "--acquire",
                    program,
                ],
                capture_output=True,
                text=True,
                check=False,
            )
            more, sheets = ends(program, path, seats, "")
            _, wrong = judged(program, path, seats)
            told.append(f"{plan} {first} and {more} more")
            if carried.returncode or wrong or not sheets[0] or not sheets[0][0].startswith("Done"):
                faults.append(
                    f"cases: seats, {plan}: after carry {carried.stderr} {sheets[0][:1]}, "
                    f"other rules on {wrong[:3]}"
                )
    if undrawn:
        hands.passed_over("cases", f"no plan leads to the missing word in {' and '.join(undrawn)}")
    print(f"cases: the dinner, whose word is missing: questions {'; '.join(told)} with the word")
    return faults


def without_solver(program: str, path: str) -> list[str]:
    """Where no solver is installed the rules lead on to no plans, and it is said what to install."""
    with tempfile.TemporaryDirectory() as nowhere:
        _, sheets = ends(program, path, seats, "", env={"PATH": nowhere})
    wanted = "For plans to look at, install a SAT solver: cadical, minisat or clasp."
    if sheets[0][-1:] == ["q stop:"] and wanted in "\n".join(sheets[0]):
        return []
    return [f"without a solver it ends with {sheets[0][-2:]}"]


def count(program: str) -> list[str]:
    """The holidays on pairs: a count that nobody can say ends whole plans in a clash, and what is
    said is that it may be a count."""
    faults = []
    for plan in ("quacq", "multi"):
        with hands.room("holidays", HOLIDAYS) as path:
            _, sheets = ends(program, path, holidays, plan)
            text = "\n".join(sheets[0])
            if (
                not sheets[0]
                or sheets[0][0] != "Your answers clash"
                or "Is it a count" not in text
                or "would explain it" in text
            ):
                faults.append(f"cases: holidays, {plan}: {sheets[0]}")
    return faults
