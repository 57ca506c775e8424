"""What a page shows of a sitting: each sheet is plain data, made by the thread that owns it."""

from __future__ import annotations

from dataclasses import dataclass

from ..report.markup import Html
from ..sitting.answers import Few, Given, Odd
from .tables import Table


@dataclass(frozen=True)
class Rule:
    """A rule in a sentence, or several at once."""

    text: str
    fresh: bool = False  # whether the last answers have taught it
    mark: str = ""  # that it follows from others, or that nobody has seen it kept
    behind: tuple[Given, ...] = ()


@dataclass(frozen=True)
class Sheet:
    """What all sheets have."""

    head: str

    @property
    def template(self) -> str:
        """The name of its template."""
        return f"{type(self).__name__.lower()}.html"

    @property
    def keys(self) -> tuple[str, ...]:
        """The keys that its page takes."""
        return ()


@dataclass(frozen=True)
class Busy(Sheet):
    """Something takes a while."""

    text: str = ""
    share: float | None = None  # how much of the time is over, from 0 to 1
    may_end: bool = False  # whether the person may do without


@dataclass(frozen=True)
class Question(Sheet):
    """A question, and what is known so far."""

    number: int
    table: Table
    sentence: str
    part: bool  # whether some things have no value
    changed: bool  # whether something is marked as changed
    left_out: int  # how many of the last question's things have no value now
    notes: tuple[str, ...]
    taught: Few
    why: Few
    rules: tuple[Rule, ...]
    answers: tuple[Given, ...]  # the latest first, as many as a page shows
    count: int  # of all answers
    finished: int  # groups
    groups: int
    most: int  # more questions

    @property
    def keys(self) -> tuple[str, ...]:
        """The keys that its page takes."""
        return ("y", "n", "b")


@dataclass(frozen=True)
class Shown:
    """A table with what is said of it."""

    text: str
    table: Table


@dataclass(frozen=True)
class Against(Sheet):
    """A line of the case contradicts an answer."""

    shown: Shown
    more: int  # answers that are contradicted as well
    place: int  # of the answer


@dataclass(frozen=True)
class Answers(Sheet):
    """The answers that stand, the latest first, so many on a page."""

    answers: tuple[Given, ...]
    count: int  # of all
    first: int  # how many later ones aren't shown
    a_page: int


@dataclass(frozen=True)
class Clash(Sheet):
    """No rules agree with all answers."""

    count: int
    clashes: tuple[Shown, ...]
    suspects: tuple[Given, ...]
    lifted: str  # that it may be no slip at all
    lacking: tuple[str, ...]  # which words would explain it
    words: tuple[str, ...]  # these, to be put into the case


@dataclass(frozen=True)
class Done(Sheet):
    """The rules, after the last question."""

    rules: tuple[Rule, ...]
    odd: tuple[Odd, ...]
    solver: bool  # whether plans can be looked for
    unsayable: tuple[str, ...]  # what the person said of plans, and the words can't
    judged: bool  # whether the plans were looked at


@dataclass(frozen=True)
class Judge(Sheet):
    """A plan to be judged."""

    text: str
    table: Table
    asks: str
    allowed: bool

    @property
    def keys(self) -> tuple[str, ...]:
        """The keys that its page takes."""
        return ("y", "n")


@dataclass(frozen=True)
class Point(Sheet):
    """The cells of a wrong plan, to be pointed at."""

    table: Table
    most: int  # cells


@dataclass(frozen=True)
class Behind(Sheet):
    """The answers behind a judgement."""

    table: Table
    answers: tuple[Given, ...]


@dataclass(frozen=True)
class Unsayable(Sheet):
    """What the words of the case can't say."""

    lines: tuple[str, ...]
    words: tuple[str, ...] = ()
    together: str = ""  # what the words are about, where nothing asks about it yet


@dataclass(frozen=True)
class Undecided(Sheet):
    """Rules that couldn't be settled."""

    rules: tuple[Rule, ...]
    open: tuple[str, ...]


@dataclass(frozen=True)
class Report(Sheet):
    """The page that another person gets."""

    content: Html
    page: bytes  # the same as a file
    certificate: bytes | None
    unfinished: bool  # whether questions are left


@dataclass(frozen=True)
class Stopped(Sheet):
    """The sitting is over; nothing waits."""

    lines: tuple[str, ...] = ()
    fault: bool = False
