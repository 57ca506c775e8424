"""Rules of one word between two sets of things, as `each of a and b differs from each of c, d and
e`.

A set of things is a whole number here, a bit a thing: there may be 128 things and 8,128 pairs of
them.
"""

from __future__ import annotations

from collections import defaultdict
from collections.abc import Iterable, Iterator
from dataclasses import dataclass

Pair = tuple[int, ...]  # of two things

LEAST_PAIRS = 2
MOST_EXCEPTIONS = 3


@dataclass(frozen=True)
class Block:
    """Two sets of things such that a rule holds of each of the first with each of the second, but
    for a few pairs."""

    firsts: tuple[int, ...]
    seconds: tuple[int, ...]
    says: tuple[Pair, ...]  # the pairs that no block before it says, rising
    out: tuple[Pair, ...]  # the pairs of which the rule doesn't hold, rising


def blocks(
    pairs: Iterable[Pair], held: Iterable[Pair], asked: Iterable[Pair], even: bool
) -> Iterator[Block]:
    """Blocks that say pairs, the one that says most first, as long as one says two and more.

    `held` are the pairs of which the word holds, `pairs` among them, and `asked` those of which it
    may hold: a block excepts no others. `even` says that a word says the same either way round;
    pairs rise within themselves where it does.
    """
    left, holds, may = _rows(pairs, even), _rows(held, even), _rows(asked, even)
    while (found := _largest(left, holds, even)) is not None:
        firsts, seconds = _wider(*found, left, holds, may, even)
        if even and (firsts.bit_count(), _things(firsts)) > (seconds.bit_count(), _things(seconds)):
            firsts, seconds = seconds, firsts
        every = [(one, other) for one in _things(firsts) for other in _things(seconds)]
        says = {_pair(one, other, even) for one, other in every if left[one] >> other & 1}
        for one, other in says:
            left[one] &= ~(1 << other)
            if even:
                left[other] &= ~(1 << one)
        out = {_pair(one, other, even) for one, other in every if not holds[one] >> other & 1}
        yield Block(_things(firsts), _things(seconds), tuple(sorted(says)), tuple(sorted(out)))


def _rows(pairs: Iterable[Pair], even: bool) -> dict[int, int]:
    """For each thing those that are second to it."""
    rows: dict[int, int] = defaultdict(int)
    for one, other in pairs:
        rows[one] |= 1 << other
        if even:
            rows[other] |= 1 << one
    return rows


def _turned(rows: dict[int, int]) -> dict[int, int]:
    """For each thing those that are first to it."""
    return _rows([(other, one) for one, some in rows.items() for other in _things(some)], False)


def _largest(left: dict[int, int], holds: dict[int, int], even: bool) -> tuple[int, int] | None:
    """The block without exceptions that says most, of those in which some thing has just these
    beside it."""
    found = [(one, seconds) for one, seconds in _found(left, holds)]
    if not even:
        found += [(firsts, one) for one, firsts in _found(_turned(left), _turned(holds))]
    best = max(found, key=lambda it: _says(it[0], it[1], left), default=(0, 0))
    return best if _says(*best, left) >= LEAST_PAIRS else None


def _found(left: dict[int, int], holds: dict[int, int]) -> Iterator[tuple[int, int]]:
    """For each thing a block of all that is left beside it."""
    for some in sorted(set(left.values()) - {0}):
        yield sum(
            1 << one for one, mine in left.items() if mine & some and holds[one] & some == some
        ), some


def _wider(
    firsts: int,
    seconds: int,
    left: dict[int, int],
    holds: dict[int, int],
    may: dict[int, int],
    even: bool,
) -> tuple[int, int]:
    """A block with the things that fit it but for a few pairs, as long as these are a quarter of
    all at most."""
    turned, left_turned = (holds, left) if even else (_turned(holds), _turned(left))
    while True:
        sides = [
            (firsts | 1 << one, seconds)
            for one in sorted(left)
            if not (firsts | seconds) >> one & 1 and _joins(one, seconds, left, holds)
        ]
        sides += [
            (firsts, seconds | 1 << one)
            for one in sorted(left_turned)
            if not (firsts | seconds) >> one & 1 and _joins(one, firsts, left_turned, turned)
        ]
        fits = [(_out(*side, holds), side) for side in sides if not _unasked(*side, holds, may)]
        fits = [
            (out, side)
            for out, side in fits
            if out <= min(MOST_EXCEPTIONS, side[0].bit_count() * side[1].bit_count() // 4)
        ]
        if not fits:
            return firsts, seconds
        _, (firsts, seconds) = min(fits, key=lambda it: it[0])


def _joins(one: int, side: int, left: dict[int, int], holds: dict[int, int]) -> bool:
    """Whether the rule holds of a thing with half of a side at least, and something of that isn't
    said yet."""
    return bool(left[one] & side) and 2 * (holds[one] & side).bit_count() >= side.bit_count()


def _says(firsts: int, seconds: int, left: dict[int, int]) -> int:
    """How many pairs a block says."""
    return sum((left[one] & seconds).bit_count() for one in _things(firsts))


def _out(firsts: int, seconds: int, holds: dict[int, int]) -> int:
    """How many of its pairs a block says too much."""
    return sum((seconds & ~holds[one]).bit_count() for one in _things(firsts))


def _unasked(firsts: int, seconds: int, holds: dict[int, int], may: dict[int, int]) -> bool:
    """Whether a block would except a pair of which nothing is asked."""
    return any(seconds & ~holds[one] & ~may[one] for one in _things(firsts))


def _pair(one: int, other: int, even: bool) -> Pair:
    return (other, one) if even and other < one else (one, other)


def _things(some: int) -> tuple[int, ...]:
    """The places of the bits."""
    return tuple(place for place in range(some.bit_length()) if some >> place & 1)
