"""Numbers for values, such that what each thing may take is one range of numbers, as the program
wants it.

Three ways are tried. Shared: all things have the same number for a value, and the values are put in
an order in which what each thing may take stands together. Apart: each thing has numbers of its
own, so that a word that names two things says nothing of others. Hulls: shared, in the order of the
case, where a thing's range may hold values that it mustn't take; these are then ruled out by a
rule.
"""

from __future__ import annotations

from collections.abc import Sequence
from dataclasses import dataclass

from ..case.model import Case

# how many values the program takes where scopes have so many variables: all tuples are to be at
# most 65,536
MOST_BY_ARITY = {1: 64, 2: 64, 3: 40, 4: 16}
MOST_STEPS = 20_000


@dataclass(frozen=True)
class Coding:
    """Numbers from 1 for values."""

    value_of: tuple[int, ...]  # the value of number k + 1
    number_of: tuple[
        dict[int, int], ...
    ]  # for each thing, the numbers of values; of all in its range
    ranges: tuple[tuple[int, int], ...]  # for each thing, its lowest and highest number
    owner_of: tuple[int, ...]  # the thing whose number k + 1 is, where things are apart; else ()
    loose: tuple[int, ...]  # things whose range holds values that they mustn't take

    @property
    def size(self) -> int:
        """How many numbers there are."""
        return len(self.value_of)


def coded(case: Case, arity: int) -> Coding:
    """The numbers for a case whose largest group has so many things."""
    most = MOST_BY_ARITY[arity]
    each = [thing.allowed for thing in case.things]
    fits_apart = sum(map(len, each)) <= most
    if fits_apart and any(word.things for word in case.words):
        return apart(each)
    order = together(range(len(case.values)), [set(allowed) for allowed in each])
    if order is not None:
        return shared(each, order)
    return apart(each) if fits_apart else shared(each, range(len(case.values)))


def apart(each: Sequence[Sequence[int]]) -> Coding:
    """Numbers of its own for each thing."""
    value_of: list[int] = []
    owner_of: list[int] = []
    number_of, ranges = [], []
    for thing, allowed in enumerate(each):
        first = len(value_of) + 1
        number_of.append({value: first + k for k, value in enumerate(allowed)})
        value_of += allowed
        owner_of += [thing] * len(allowed)
        ranges.append((first, len(value_of)))
    return Coding(tuple(value_of), tuple(number_of), tuple(ranges), tuple(owner_of), ())


def shared(each: Sequence[Sequence[int]], order: Sequence[int]) -> Coding:
    """One number for a value in all things, in this order of the values."""
    number = {value: k + 1 for k, value in enumerate(order)}
    ranges, loose = [], []
    for thing, allowed in enumerate(each):
        mine = [number[value] for value in allowed]
        ranges.append((min(mine), max(mine)))
        if max(mine) - min(mine) + 1 > len(mine):
            loose.append(thing)
    return Coding(tuple(order), tuple(number for _ in each), tuple(ranges), (), tuple(loose))


def together(values: Sequence[int], sets: Sequence[set[int]]) -> list[int] | None:
    """An order of the values in which each set stands together; None where none is found.

    Values that lie in the same sets stay together, so blocks of them are put in order, by trying
    each in turn. A block may come next where each set that has begun and isn't whole yet holds it.
    """
    kinds = [some for some in {frozenset(one) for one in sets} if len(some) < len(values)]
    blocks: dict[tuple[bool, ...], list[int]] = {}
    for value in values:
        blocks.setdefault(tuple(value in kind for kind in kinds), []).append(value)
    total = [sum(len(block) for key, block in blocks.items() if key[k]) for k in range(len(kinds))]
    steps = 0

    def onward(left: list[tuple[bool, ...]], seen: list[int]) -> list[int] | None:
        nonlocal steps
        steps += 1
        if not left:
            return []
        if steps > MOST_STEPS:
            return None
        begun = [0 < seen[k] < total[k] for k in range(len(kinds))]
        for key in left:
            if any(begun[k] and not key[k] for k in range(len(kinds))):
                continue
            now = [seen[k] + (len(blocks[key]) if key[k] else 0) for k in range(len(kinds))]
            rest = onward([other for other in left if other != key], now)
            if rest is not None:
                return blocks[key] + rest
        return None

    return onward(list(blocks), [0] * len(kinds))
