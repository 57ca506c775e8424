"""What the parts of desk hand to each other.

A thing and a value are known by their places: thing 3 is `case.things[3]`, value 2 is
`case.values[2]`. All things share the one list of values; which of them a thing may take is in
`Thing.allowed`. Numbers and names for the program `acquire` exist in `vocabulary.py` alone.
"""

from __future__ import annotations

from collections.abc import Callable, Sequence
from dataclasses import dataclass, field
from enum import Enum

from . import letters

PLANS = ("scopes", "quacq", "multi")
MOST_VALUES = 64  # of the program: values, and combined relations of an arity
MOST_RELATIONS = 64

# which value each thing has: the place of a thing, and the place of its value
Values = dict[int, int]


class Way(Enum):
    """What can be done about a fault. No text names it: a face adds its command, or its button."""

    ASK = "put the questions of the case"
    CARRY = "take the answers over into a new session"
    WORDS = "look at all words of the catalogue"


class Fault(Exception):
    """What the person has to mend; each text is one thing, for them, and begins with file and line
    where there are some.

    Each is a line that may be printed, whatever stands in the file that it is about.
    """

    def __init__(self, *texts: str, ways: Sequence[Way | None] = (), path: str = "") -> None:
        """Takes the texts, with what can be done about each where there is something, and the path
        of the case for that."""
        self.texts = tuple(letters.shown("; ".join(text.split("\n"))) for text in texts)
        self.ways = tuple(ways) or (None,) * len(texts)
        self.path = path
        super().__init__("\n".join(self.texts))


@dataclass(frozen=True)
class Part:
    """One side of a grid, as `day` with its members Mon to Sun."""

    name: str
    members: tuple[str, ...]

    @property
    def several(self) -> str:
        """Its name for more than one: `days`."""
        return self.name if self.name.endswith("s") else self.name + "s"

    def counted(self, count: int) -> str:
        """So many of it: `1 day`, `2 days`."""
        return f"{count} {self.name if count == 1 else self.several}"


@dataclass(frozen=True)
class Thing:
    """What gets a value: a shift, a lesson, a component."""

    place: int
    name: str
    at: tuple[
        int, ...
    ]  # for each part of the grid of things the place of its member; () where things are a list
    allowed: tuple[int, ...]  # the values that it may take, in the order of `case.values`


@dataclass(frozen=True)
class Group:
    """Things that are asked about together, at most four, in the order of `case.things`."""

    things: tuple[int, ...]
    phrase: str  # of the `ask` line, as `same day`


@dataclass(frozen=True)
class Word:
    """A rule that may hold of some things, without the things: `different`, `never Ann`, `all three
    different`."""

    text: str  # as the case has it
    arity: int  # of how many things it speaks, 1 to 4
    holds: Callable[..., bool] = field(compare=False)  # its meaning, of as many values
    sentence: str  # with {0}, {1} .. for names of things, and a verb for one or two of them
    example: tuple[int, ...]  # values that break it; () where no values of the case do
    # the only things that it speaks of, in its order; () where of all groups
    things: tuple[int, ...] = ()
    shown: str = ""  # the pattern form, with no thing in it: `differ`, `is never Ann`
    # the sentence about all of some things, {0} for their names, where each group keeps it
    whole: str = ""

    def said_of(self, names: tuple[str, ...]) -> str:
        """The sentence about these things."""
        return self.sentence.format(*names)


@dataclass(frozen=True)
class Rule:
    """A word about some things, in the word's order: what `always` says, and what was learned."""

    word: Word
    things: tuple[int, ...]
    text: str  # the whole sentence, with the things' names

    def violated(self, values: Values) -> bool:
        """Whether all its things have a value, and these break it."""
        try:
            mine = tuple(values[thing] for thing in self.things)
        except KeyError:
            return False
        return not self.word.holds(*mine)


@dataclass(frozen=True)
class Count:
    """How many of some things have one of some values."""

    things: tuple[int, ...]
    values: frozenset[int]
    least: int
    most: int

    def violated(self, values: Values) -> bool:
        """Whether all its things have a value, and these are too many or too few."""
        if any(thing not in values for thing in self.things):
            return False
        return (
            not self.least
            <= sum(values[thing] in self.values for thing in self.things)
            <= self.most
        )


@dataclass(frozen=True)
class Known:
    """What the person knows and isn't asked about: sample plans keep it, and it is never
    learned."""

    text: str  # of the `known` line
    rules: tuple[Rule, ...] = ()
    counts: tuple[Count, ...] = ()

    def violated(self, values: Values) -> bool:
        """Whether values break it."""
        some: tuple[Rule | Count, ...] = (*self.rules, *self.counts)
        return any(one.violated(values) for one in some)


@dataclass(frozen=True)
class Case:
    """A case as its text says it."""

    path: str
    text: str
    title: str
    things: tuple[Thing, ...]
    thing_parts: tuple[Part, ...]  # of a grid of things; () where they are a list
    values: tuple[str, ...]
    value_parts: tuple[Part, ...]  # of a grid of values; () where they are a list
    groups: tuple[Group, ...]  # none twice; one may lie within another
    words: tuple[Word, ...]
    always: tuple[Rule, ...]
    plan: str | None  # of the `plan` line
    known: tuple[Known, ...] = ()  # kept by sample plans, never learned
    notes: tuple[str, ...] = ()  # for people alone

    def value_at(self, value: int) -> tuple[int, ...]:
        """For each part of the grid of values, the place of the member that this value has."""
        at = []
        for part in reversed(self.value_parts):
            value, member = divmod(value, len(part.members))
            at.append(member)
        return tuple(reversed(at))

    def label(self, value: int) -> str:
        """The name of a value."""
        return self.values[value]


@dataclass(frozen=True)
class Question:
    """`acquire` wants to know whether these values are acceptable, as far as they go."""

    number: int  # from 1, as the program numbers it
    values: Values

    def part_of(self, other: Question | None) -> bool:
        """Whether it asks about some of the other's values and no others."""
        return other is not None and self.values.items() <= other.values.items()


@dataclass(frozen=True)
class Said:
    """An answer that follows from what the person has said, so that the question needn't be put."""

    yes: bool
    by: str  # `always`, `carried` (from an earlier session) or `again` (from before a step back)
    why: str  # for people: which rule, or which answer


@dataclass(frozen=True)
class Answer:
    """An answer that stands in the journal."""

    question: Question
    yes: bool
    said: Said | None  # None where the person answered it


@dataclass(frozen=True)
class Constraint:
    """A learned constraint, as a line of the program says it."""

    line: str  # `differ&apart ann ben`
    scope: tuple[int, ...]  # things, rising
    names: tuple[str, ...]  # the program's names of the relations


@dataclass(frozen=True)
class Ending:
    """How a run of the program ended."""

    word: str  # `converged`, `collapsed`, `undecided`, `suspended`, `refused`, `failed`
    answers: int  # how many stand
    learned: tuple[Constraint, ...] = ()
    open: tuple[Constraint, ...] = ()
    status: int = 0  # the program's exit status, negative after a signal
    text: str = ""  # what was printed last, for `refused` and `failed`
