"""What a form offers to be ticked: which things go together, and the words that fit a case, each
with its sentence and an example."""

from __future__ import annotations

import dataclasses
import itertools
import re
from collections.abc import Callable, Iterable, Iterator, Sequence
from dataclasses import dataclass, field

from ..case import casefile, catalogue, groups
from ..case.catalogue import Setting
from ..case.model import Case, Fault, Part, Word
from . import forms
from .forms import Form

MOST_STEPS = 5  # of `at least K apart` that are offered
MOST_TRIED = 400  # choices of values, in the search for an example
MOST_MEMBERS = 6  # of a side, up to which each way from one to another is offered
SIZED = {2: "", 3: " triples", 4: " fours"}
COUNTED = {1: "one", 2: "two", 3: "three", 4: "four"}
TWO = (
    "same",
    "different",
    "before",
    "after",
    "not before",
    "not after",
    "next to",
    "not next to",
    "right before",
    "right after",
)
OF_PART = ("same", "different", "earlier", "later")
OF_ONE = ("never {}", "{} or earlier", "{} or later")
OF_TWO = ("not both {}", "one of them {}", "both {} or neither")
# forms in which two values or two choices stand, and in which one value stands
PAIRED = ("{0} not with {1}", "no {1} after {0}", "if {0} then {1}")
CHOSEN = ("{0} not with {1}", "if {0} then {1}")
EITHER = ("only {0} or {1}",)
COUNTS = (
    *(
        f"at {side} {COUNTED[k]} of {COUNTED[size]} {{0}}"
        for size in (3, 4)
        for side in ("most", "least")
        for k in range(1, size)
    ),
    *(f"at most {COUNTED[k]} of them {{0}}" for k in (1, 2, 3)),
    *(f"at least all but {COUNTED[k]} of them {{0}}" for k in (1, 2, 3)),
)


@dataclass(frozen=True)
class Tick:
    """What may be ticked."""

    text: str  # as the case has it
    label: str
    says: str = ""
    wrong: str = ""  # values that it refuses
    right: str = ""  # values that it allows


@dataclass(frozen=True)
class Family:
    """Ticks that belong together."""

    head: str
    ticks: tuple[Tick, ...]
    says: str = ""  # what all of them say, of one value
    apart: bool = False  # whether it is shown only when it is opened


@dataclass(frozen=True)
class Limit:
    """What some things can take, and what is left of it."""

    every: tuple[str, ...]
    left: tuple[str, ...]


@dataclass(frozen=True)
class Choices:
    """All that is offered."""

    case: Case | None = None  # what things and values are, where these can be read
    ask: tuple[Family, ...] = ()
    words: tuple[Family, ...] = ()
    largest: int = 0  # so many things are asked about together; 0 where it isn't known
    members: tuple[str, ...] = ()  # of the things' grid
    labels: tuple[str, ...] = ()  # values, and members of their grid
    chosen: tuple[str, ...] = ()  # `frame=steel` for each thing with values of its own
    phrases: tuple[str, ...] = field(default=())  # which things a rule may be about
    own: tuple[tuple[str, ...], ...] = ()  # for each thing with values of its own, these
    only: tuple[Limit | None, ...] = ()  # for each row of `only`; None where it can't be read


def choices(form: Form, name: str) -> Choices:
    """What is offered beside the fields of a form."""
    case = shaped(form, name)
    own_values = tuple(tuple(dict.fromkeys(forms.names_of(row.text))) for row in form.own)
    if case is None:
        bare = [
            Tick("all", "all", "each two of them"),
            Tick("all triples", "all triples", "each three"),
            Tick("each", "each", "each by itself"),
        ]
        return Choices(
            ask=(Family("", tuple(bare)),),
            words=(Family("", tuple(Tick(word, word) for word in TWO)),),
            own=own_values,
        )
    asked = list(_asked(case, form.ask))
    sizes = {len(things) for things in asked}
    setting = Setting(case.things, case.values, case.value_parts)
    seen = _Seen(case, setting, asked)
    own = [thing for thing in case.things if len(thing.allowed) < len(case.values)]
    return Choices(
        case,
        tuple(as_written(ask_families(case), form.ask, case.thing_parts)),
        tuple(
            as_written(word_families(seen, max(sizes, default=4)), form.words, case.value_parts)
        ),
        max(sizes, default=0),
        tuple(member for part in case.thing_parts for member in part.members),
        seen.labels,
        tuple(f"{thing.name}={case.values[value]}" for thing in own for value in thing.allowed),
        phrases(case),
        own_values,
        tuple(limits(form, name)),
    )


def limits(form: Form, name: str) -> Iterator[Limit | None]:
    """What the things of each row of `only` can take, and what is left of it; None where it can't
    be read."""
    case = parsed(dataclasses.replace(form, only=()), name)
    for row in form.only:
        now = parsed(dataclasses.replace(form, only=(row,)), name) if row.text else case
        things = meant(case, row.name) if case else []
        if case is None or now is None or not things:
            yield None
            continue
        every = {value for thing in things for value in case.things[thing].allowed}
        left = {value for thing in things for value in now.things[thing].allowed if row.text}
        yield Limit(
            tuple(case.values[value] for value in sorted(every)),
            tuple(case.values[value] for value in sorted(left)),
        )


def meant(case: Case, name: str) -> list[int]:
    """The things of a name, or of a member of the grid's sides."""
    found = [thing.place for thing in case.things if thing.name == name]
    for k, part in enumerate(case.thing_parts):
        if not found and name in part.members:
            found = [thing.place for thing in case.things if part.members[thing.at[k]] == name]
    return found


def shaped(form: Form, name: str) -> Case | None:
    """The things and values of a form, and nothing else; None where they have a fault."""
    return parsed(form, name) or parsed(dataclasses.replace(form, only=()), name)


def parsed(form: Form, name: str) -> Case | None:
    """The same, with `only` as it is."""
    shape = Form(
        things=form.things,
        own=form.own,
        values=form.values,
        only=form.only,
        ask=("each",),
        words=("same",),
    )
    try:
        return casefile.parse(forms.written(shape), name)
    except Fault:
        return None


def as_written(
    families: Iterable[Family], written: Sequence[str], parts: Sequence[Part]
) -> Iterator[Family]:
    """The families, with each tick spelled as the case has it where it is written otherwise there:
    a tick of its own would say the same once more."""
    own = {_bare(text, parts): text for text in reversed(written)}
    for family in families:
        ticks = (
            tick
            if tick.text in written
            else dataclasses.replace(tick, text=own.get(_bare(tick.text, parts), tick.text))
            for tick in family.ticks
        )
        yield dataclasses.replace(family, ticks=tuple(ticks))


def _bare(text: str, parts: Sequence[Part]) -> str:
    """A phrase or a word in the one spelling of those that mean the same: `all` of `all pairs`,
    `3 day in a row` of `3 days in a row`."""
    for part in parts:
        text = re.sub(rf"(?<!\S){re.escape(part.several)}(?!\S)", lambda _: part.name, text)
    return re.sub(r"^(all|same .+) pairs$", r"\1", text)


# ---------------------------------------------------------------- which things go together


def phrases(case: Case) -> tuple[str, ...]:
    """Which things a rule that is known may be about."""
    same = [f"same {part.name}" for part in case.thing_parts]
    return ("all", *same, *(f"next {part.name}" for part in case.thing_parts))


def ask_families(case: Case) -> Iterator[Family]:
    """The ways to put things together that come of the grid's shape."""
    yield Family(
        "",
        tuple(
            _ticks(
                case,
                [
                    ("all", "each two of them"),
                    ("all triples", "each three of them"),
                    ("all fours", "each four of them"),
                    ("each", "each by itself"),
                ],
            )
        ),
    )
    for part in case.thing_parts:
        name, several = part.name, part.several
        yield Family(
            f"By {name}",
            tuple(
                _ticks(
                    case,
                    [
                        (f"same {name}", f"two of one {name}"),
                        (f"same {name} triples", f"three of one {name}"),
                        (f"same {name} fours", f"four of one {name}"),
                        (f"next {name}", f"one and the same on the next {name}"),
                        (f"{part.counted(3)} in a row", f"the same on three {several} running"),
                        (f"{part.counted(4)} in a row", f"the same on four {several} running"),
                    ],
                )
            ),
        )
    yield from _step_families(case)


def _step_families(case: Case) -> Iterator[Family]:
    """From a member of one side to another one: `night to next day early`."""
    if len(case.thing_parts) != 2:
        return
    for part, other in (case.thing_parts, case.thing_parts[::-1]):
        if len(other.members) > MOST_MEMBERS or len(part.members) < 2:
            continue
        steps = [
            (f"{a} to next {part.name} {b}", f"{a}, and {b} on the next {part.name}")
            for a, b in itertools.permutations(other.members, 2)
        ]
        steps += [
            (f"{a} to same {part.name} {b}", f"{a} and {b} of one {part.name}")
            for a, b in itertools.combinations(other.members, 2)
        ]
        yield Family(f"From one {other.name} to another", tuple(_ticks(case, steps)), apart=True)


def _ticks(case: Case, some: Iterable[tuple[str, str]]) -> Iterator[Tick]:
    """The phrases that put some things of the case together."""
    for phrase, says in some:
        try:
            found = groups.meant(case.things, case.thing_parts, phrase)
        except Fault:
            continue
        names = " with ".join(case.things[thing].name for thing in found[0])
        count = f"{len(found)} group{'s' if len(found) != 1 else ''}"
        yield Tick(phrase, phrase, f"{says}: {count}, as {names}")


def _asked(case: Case, ask: Sequence[str]) -> Iterator[tuple[int, ...]]:
    """The groups of the phrases that mean something."""
    for phrase in ask:
        try:
            yield from groups.meant(case.things, case.thing_parts, phrase)
        except Fault:
            continue


# ---------------------------------------------------------------- words


class _Seen:
    """The things on which words are tried: of each size one group for each set of ranges."""

    def __init__(self, case: Case, setting: Setting, asked: Sequence[tuple[int, ...]]) -> None:
        self.case, self.setting = case, setting
        self.labels = (*case.values, *(m for part in case.value_parts for m in part.members))
        self._scopes: dict[int, list[tuple[int, ...]]] = {}
        every = range(len(case.things))
        for size in range(1, min(len(case.things), 4) + 1):
            within = [some for group in asked for some in itertools.combinations(group, size)]
            of: dict[tuple[tuple[int, ...], ...], tuple[int, ...]] = {}
            some = within or list(itertools.islice(itertools.combinations(every, size), MOST_TRIED))
            for scope in some:
                of.setdefault(tuple(case.things[thing].allowed for thing in scope), scope)
            self._scopes[size] = list(of.values())

    def tick(self, text: str, label: str = "") -> Tick | None:
        """A word with its sentence and examples; None where it isn't one here, or forbids nothing
        or everything."""
        try:
            word = catalogue.word(self.setting, text)
        except Fault:
            return None
        for scope in self._scopes.get(word.arity, []):
            wrong, right = self._examples(word, scope)
            if wrong and right:
                names = tuple(self.case.things[thing].name for thing in scope)
                return Tick(
                    text, label or text, word.said_of(names), self._said(wrong), self._said(right)
                )
        return None

    def _said(self, values: Sequence[int]) -> str:
        """Values in the order of the things."""
        return " and ".join(self.case.values[value] for value in values)

    def _examples(
        self, word: Word, scope: tuple[int, ...]
    ) -> tuple[tuple[int, ...], tuple[int, ...]]:
        """Values that the word refuses and that it allows, no two the same where that can be."""
        found: dict[bool, tuple[int, ...]] = {}
        best: dict[bool, int] = {}
        ranges = [self.case.things[thing].allowed for thing in scope]
        for some in itertools.islice(itertools.product(*ranges), 10 * MOST_TRIED):
            holds = bool(word.holds(*some))
            apart = len(set(some))
            if apart > best.get(holds, 0):
                best[holds], found[holds] = apart, some
            if len(best) == 2 and min(best.values()) == word.arity:
                break
        return found.get(False, ()), found.get(True, ())

    def ticks(self, texts: Iterable[str]) -> tuple[Tick, ...]:
        """Those of some words that fit."""
        return tuple(filter(None, map(self.tick, texts)))

    def valued(self, form: str, labels: Sequence[str]) -> Family | None:
        """A word for each value; None where it fits with none."""
        first = next(filter(None, (self.tick(form.format(label)) for label in labels)), None)
        if first is None:
            return None
        known = [label for label in labels if self._is_word(form.format(label))]
        says = f"{first.says}; wrong then: {first.wrong}, right: {first.right}"
        ticks = tuple(Tick(form.format(label), label) for label in known)
        return Family(form.format("…"), ticks, says, apart=True)

    def _is_word(self, text: str) -> bool:
        """Whether a text is a word here."""
        try:
            catalogue.word(self.setting, text)
        except Fault:
            return False
        return True


def word_families(seen: _Seen, largest: int) -> Iterator[Family]:
    """The words about groups of so many things that fit a case."""
    case = seen.case
    if largest > 1:
        apart = [] if case.value_parts else _apart(len(case.values), str)
        yield from _some("About two of them", seen.ticks([*TWO, *apart]))
        for part in case.value_parts:
            texts = [f"{form} {part.name}" for form in OF_PART]
            yield from _some(
                f"About the {part.name} of two",
                seen.ticks([*texts, *_apart(len(part.members), part.counted)]),
            )
    if largest > 2:
        for size in range(3, largest + 1):
            yield from _some(
                f"About {COUNTED[size]} of them", seen.ticks(_of_many(case, size)), apart=size > 3
            )
    forms_of = [*OF_ONE, *(OF_TWO if largest > 1 else ())]
    for form in forms_of:
        family = seen.valued(
            form, case.values if "earlier" in form or "later" in form else seen.labels
        )
        if family is not None:
            yield family


def _some(head: str, ticks: tuple[Tick, ...], apart: bool = False) -> Iterator[Family]:
    """A family, where it isn't empty."""
    if ticks:
        yield Family(head, ticks, apart=apart)


def _apart(size: int, counted: Callable[[int], str]) -> list[str]:
    """Distances between two of so many values, each said as a count of steps."""
    return [
        f"at {side} {counted(k)} apart"
        for side, first in (("least", 2), ("most", 1))
        for k in range(first, min(size - 1, MOST_STEPS + 1))
    ]


def _of_many(case: Case, size: int) -> list[str]:
    """Words about three or four things that name no value."""
    count = COUNTED[size]
    parts = ["", *(f" {part.name}" for part in case.value_parts)]
    texts = [
        form + part
        for part in parts
        for form in (f"all {count} different", f"not all {count} the same")
    ]
    return [
        *texts,
        f"{count} in order",
        *(f"at most {COUNTED[size - 1]} of them the same{part}" for part in parts),
    ]
