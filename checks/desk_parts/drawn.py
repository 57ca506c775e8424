"""Drawn cases with drawn people in front of them, for several parts of checks/desk.py. The number of a draw is its seed."""

from __future__ import annotations

import itertools
import os
import random
import sys
from collections.abc import Iterator

TOP = os.path.realpath(os.path.join(os.path.dirname(__file__), "..", ".."))
DESK = os.environ.get("DESK_FOLDER", os.path.join(TOP, "desk"))
if DESK not in sys.path:
    sys.path.insert(0, DESK)

from planners_desk.case import casefile  # noqa: E402
from planners_desk.case.model import Case, Fault, Values  # noqa: E402
from planners_desk.program.talk import Run  # noqa: E402
from planners_desk.program.vocabulary import Vocabulary  # noqa: E402

ENOUGH = int(os.environ.get("DESK_ENOUGH", "20"))     # faults, after which a part ends
TIMES = int(os.environ.get("DESK_TIMES", "1"))      # how many times as many sessions are played as in the gate
WORDS = {
    1: ["never p", "only p or r", "q or later"],
    2: ["same", "different", "before", "not after", "next to", "not both p", "one of them q", "p not with q", "no q after p", "if p then r"],
    3: ["all three different", "not all three the same", "at most one of three p", "at least one of three q", "three in order"],
    4: ["all four different", "not all four the same", "at most two of four p", "four in order"],
}
VALUES = ["p", "q", "r", "s"]


def case_text(draw: random.Random) -> str:
    """A small case: things with shared values or values of their own, `only` lines, groups of one to four things."""
    count = draw.randint(3, 6)
    things = [f"t{k}" for k in range(count)]
    values = VALUES[:draw.randint(3, 4)]
    lines = [f"title: drawn\nthings: {' '.join(things)}\nvalues: {' '.join(values)}"]
    for thing in things:
        if draw.random() < 0.3:
            lines.append(f"only {thing}: {' '.join(draw.sample(values, draw.randint(2, len(values) - 1)))}")
    groups: set[tuple[str, ...]] = set()
    for _ in range(draw.randint(2, 7)):
        size = min(count, draw.choice([1, 2, 2, 2, 3, 4]))
        groups.add(tuple(sorted(draw.sample(things, size))))
    lines.append("ask: " + ", ".join(" - ".join(group) for group in sorted(groups)))
    sizes = {len(group) for group in groups}
    words = draw.sample(WORDS[min(2, max(sizes))], draw.randint(1, 3)) if max(sizes) > 1 else draw.sample(WORDS[1], 2)
    for size in sizes - {2}:
        words += draw.sample(WORDS[size], 1)
    if draw.random() < 0.3 and count > 2:
        a, b = draw.sample(things, 2)
        words.append(f"{a}={draw.choice(values[:2])} not with {b}={draw.choice(values[:2])}")
    lines.append("words: " + ", ".join(dict.fromkeys(words)))
    return "\n".join(lines) + "\n"


def cases(seeds: Iterator[int] | range) -> Iterator[tuple[int, Case, Vocabulary]]:
    """Drawn cases that desk takes."""
    for seed in seeds:
        draw = random.Random(seed)
        try:
            case = casefile.parse(case_text(draw), f"drawn{seed}.case")
            yield seed, case, Vocabulary(case)
        except Fault:
            continue


class Owner:
    """Somebody who answers by a network: on a scope what is accepted there, one candidate or none a scope."""

    def __init__(self, words: Vocabulary, draw: random.Random, share: float = 0.7, keep: Values | None = None) -> None:
        """Draws a network; where `keep` is given, one that accepts it."""
        self.words = words
        self.tables: dict[tuple[int, ...], int] = {}
        for scope in words.scopes:
            inside = words.inside(scope)
            tables = [table & inside for table in words.closings[len(scope)].tables]
            if keep is not None:
                tables = [table for table in tables if table >> words.place(scope, keep) & 1]
            if tables and draw.random() < share:
                self.tables[scope] = draw.choice(tables)

    def accepts(self, values: Values) -> bool:
        """Whether the network accepts values, as far as they go."""
        return all(table >> self.words.place(scope, values) & 1 for scope, table in self.tables.items() if all(thing in values for thing in scope))


def in_ranges(words: Vocabulary) -> Iterator[Values]:
    """Every whole plan within the ranges."""
    each = [[words.coding.value_of[number - 1] for number in range(low, high + 1)] for low, high in words.coding.ranges]
    for chosen in itertools.product(*each):
        yield dict(enumerate(chosen))


def networks(words: Vocabulary, most: int) -> list[dict[tuple[int, ...], int]] | None:
    """All networks of a case, one candidate or none on each scope; None where they are more than `most`."""
    choices = []
    count = 1
    for scope in words.scopes:
        inside = words.inside(scope)
        tables = list(dict.fromkeys(table & inside for table in words.closings[len(scope)].tables))
        choices.append([None, *tables])
        count *= len(choices[-1])
        if count > most:
            return None
    return [{scope: table for scope, table in zip(words.scopes, chosen, strict=True) if table is not None} for chosen in itertools.product(*choices)]


def tried(program_path: str, words: Vocabulary, plan: str) -> Run:
    """`acquire :memory: try` over a case."""
    from planners_desk.program.talk import Program
    return Run(Program(program_path), [":memory:", "try", "--plan", plan], given=words.json.encode() + b"\n")
