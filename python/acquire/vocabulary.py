"""A vocabulary as the program takes it, and what its relations say."""

from __future__ import annotations

import itertools
import json
from collections.abc import Callable, Iterator, Mapping, Sequence
from dataclasses import dataclass
from functools import cached_property
from typing import Any

Values = Sequence[int]
Test = Callable[[Values], bool]

_FOLDS: dict[str, Callable[[Any, Any], Any]] = {
    "+": lambda one, other: one + other,
    "*": lambda one, other: one * other,
    "-": lambda one, other: one - other,
    "min": min,
    "max": max,
    "=": lambda one, other: one == other,
    "!=": lambda one, other: one != other,
    "<": lambda one, other: one < other,
    "<=": lambda one, other: one <= other,
    ">": lambda one, other: one > other,
    ">=": lambda one, other: one >= other,
    "and": lambda one, other: one and other,
    "or": lambda one, other: one or other,
}


def _evaluated(formula: Any, values: Values) -> Any:
    """The worth of a formula at a tuple: a number or a truth."""
    if isinstance(formula, int):
        return formula
    if isinstance(formula, str):
        return values[int(formula[1:])]
    operator, *operands = formula
    worths = [_evaluated(operand, values) for operand in operands]
    if operator == "abs":
        return abs(worths[0])
    if operator == "not":
        return not worths[0]
    fold, worth = _FOLDS[operator], worths[0]
    for other in worths[1:]:
        worth = fold(worth, other)
    return worth


def _test_of(relation: Mapping[str, Any]) -> Test:
    if "formula" in relation:
        formula = relation["formula"]
        return lambda values: bool(_evaluated(formula, values))
    tuples = frozenset(tuple(it) for it in relation["tuples"])
    return lambda values: tuple(values) in tuples


@dataclass(frozen=True)
class Constraint:
    """A learned constraint: each of the named relations holds of the named variables, in this order.

    relations: the names of one or more relations of the vocabulary.
    variables: as many names as the relations have places.
    tests: for each relation a function of a tuple of values, which `predicate` calls.

    Constraints with the same `text` are equal.
    """

    relations: tuple[str, ...]
    variables: tuple[str, ...]
    tests: tuple[Test, ...]

    @property
    def text(self) -> str:
        """The constraint as the program prints it, as `differ&before art maths`."""
        return " ".join(["&".join(self.relations), *self.variables])

    def predicate(self, *values: int) -> bool:
        """Whether the variables may have these values, given in their order; a function of numbers, as solvers take one."""
        return all(test(values) for test in self.tests)

    def holds(self, assignment: Mapping[str, int]) -> bool | None:
        """Whether an assignment meets the constraint; None where one of its variables has no value there."""
        if any(name not in assignment for name in self.variables):
            return None
        return self.predicate(*(assignment[name] for name in self.variables))

    def __eq__(self, other: object) -> bool:
        return isinstance(other, Constraint) and self.text == other.text

    def __hash__(self) -> int:
        return hash(self.text)

    def __repr__(self) -> str:
        return f"<Constraint {self.text}>"


class Vocabulary:
    """The variables, values, relations and scopes of a problem.

    Nothing is tested here: the program judges whether it is a vocabulary, when a session begins.
    """

    def __init__(self, given: Mapping[str, Any] | str | bytes) -> None:
        """Takes the object that `docs/formats.md` describes, or its JSON text."""
        if isinstance(given, Mapping):
            self.bytes = json.dumps(given, separators=(",", ":")).encode()
        else:
            self.bytes = given.encode() if isinstance(given, str) else bytes(given)

    @cached_property
    def data(self) -> dict[str, Any]:
        """The vocabulary as an object of Python."""
        found: dict[str, Any] = json.loads(self.bytes)
        return found

    @property
    def line(self) -> bytes:
        """The JSON text on one line, as the command `try` takes it."""
        return self.bytes.replace(b"\r", b" ").replace(b"\n", b" ") + b"\n"

    @property
    def variables(self) -> tuple[str, ...]:
        """The names of the variables, in order."""
        return tuple(self.data["variables"])

    def values(self, variable: str) -> range:
        """The values that a variable may have: its range where it has one, else the domain."""
        low, high = self.data["domain"]
        for name, least, most in self.data.get("ranges", []):
            if name == variable:
                low, high = least, most
        return range(low, high + 1)

    def constraint(self, text: str) -> Constraint:
        """The constraint of a line of the program, as `differ&before art maths`. Raises `KeyError` where a relation isn't one of these."""
        names, *variables = text.split(" ")
        relations = tuple(names.split("&"))
        return Constraint(relations, tuple(variables), tuple(self._tests[name] for name in relations))

    def accepted(self, constraint: Constraint) -> Iterator[tuple[int, ...]]:
        """All tuples of values that a constraint accepts, within the ranges of its variables, as a table constraint takes them."""
        ranges = [self.values(name) for name in constraint.variables]
        return (values for values in itertools.product(*ranges) if constraint.predicate(*values))

    @cached_property
    def _tests(self) -> dict[str, Test]:
        return {it["name"]: _test_of(it) for it in self.data["relations"]}
