"""Relations of one arity with all their intersections, as tables of bits.

A table is a whole number whose bit t says whether tuple t is accepted. Tuples of numbers count as
digits: the first place counts most, and number 1 is digit 0.
"""

from __future__ import annotations

import itertools
from collections.abc import Callable, Iterable, Sequence
from dataclasses import dataclass, field

COUNTED_TO = 5000  # beyond this it is only said that there are more


@dataclass(frozen=True)
class Relation:
    """A relation as the program gets it."""

    name: str
    arity: int
    table: int


def table_of(arity: int, size: int, accepts: Callable[[tuple[int, ...]], bool]) -> int:
    """The table of a test of tuples of numbers."""
    digits = bytearray((size**arity + 7) // 8)
    for place, some in enumerate(itertools.product(range(1, size + 1), repeat=arity)):
        if accepts(some):
            digits[place >> 3] |= 1 << (place & 7)
    return int.from_bytes(digits, "little")


def place_of(some: Sequence[int], size: int) -> int:
    """The place of a tuple of numbers in a table."""
    place = 0
    for number in some:
        place = place * size + number - 1
    return place


def tuples_of(table: int, arity: int, size: int) -> list[list[int]]:
    """The tuples that a table accepts, in order."""
    bits = table.to_bytes((size**arity + 7) // 8, "little")
    return [
        list(some)
        for place, some in enumerate(itertools.product(range(1, size + 1), repeat=arity))
        if bits[place >> 3] >> (place & 7) & 1
    ]


def box(ranges: Iterable[tuple[int, int]], size: int) -> int:
    """The table of all tuples within ranges."""
    table, width = 1, 1
    for low, high in reversed(list(ranges)):
        # what stands for the places behind is put down once for each number of this place's range
        table = sum(table << ((number - 1) * width) for number in range(low, high + 1))
        width *= size
    return table


def closed(tables: Iterable[int], most: int = COUNTED_TO) -> list[int]:
    """All intersections of tables, each once; one more than `most` at the utmost."""
    found: dict[int, None] = {}
    for table in dict.fromkeys(tables):
        for new in [table] + [table & other for other in found]:
            found.setdefault(new)
        if len(found) > most:
            return list(found)[: most + 1]
    return list(found)


@dataclass
class Closing:
    """The relations of an arity, and which of their intersections accept what."""

    arity: int
    size: int
    relations: tuple[Relation, ...]
    tables: tuple[int, ...] = ()  # the intersections
    _made_of: list[int] = field(
        default_factory=list
    )  # of each, which relations hold it: a bit a relation
    _rows: dict[int, int] = field(
        default_factory=dict
    )  # by which relations accept: the intersections that accept
    _bits: tuple[bytes, ...] = ()

    def __post_init__(self) -> None:
        self.tables = tuple(closed(relation.table for relation in self.relations))
        self._made_of = [
            sum(
                1 << k
                for k, relation in enumerate(self.relations)
                if table & relation.table == table
            )
            for table in self.tables
        ]
        length = (self.size**self.arity + 7) // 8
        self._bits = tuple(relation.table.to_bytes(length, "little") for relation in self.relations)

    def accepting(self, place: int) -> int:
        """Which intersections accept the tuple at this place: a bit for each."""
        byte, bit = place >> 3, place & 7
        base = 0
        for k, bits in enumerate(self._bits):
            base |= (bits[byte] >> bit & 1) << k
        if base not in self._rows:
            self._rows[base] = sum(
                1 << k for k, made in enumerate(self._made_of) if made & base == made
            )
        return self._rows[base]

    def different_within(self, inside: int) -> int:
        """One intersection for each that is another within these tuples, without those that accept
        them all: a bit for each."""
        seen = {inside}
        kept = 0
        for k, table in enumerate(self.tables):
            if table & inside not in seen:
                seen.add(table & inside)
                kept |= 1 << k
        return kept
