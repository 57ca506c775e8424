"""The word that a case lacks: which words of the catalogue would let rules agree with all answers.

A refused example that no possible rule explains is explained by a further word where that word
refuses it on some things that are asked about together, and no accepted example breaks the word
there. Words about a PART of the values come first, since these are what is forgotten most; words
that name values are tried with the values of the example.
"""

from __future__ import annotations

import itertools
import re
import time
from collections.abc import Iterable, Iterator, Sequence
from dataclasses import dataclass

from ..case import casefile, catalogue
from ..case.catalogue import ENTRIES, Entry, Setting
from ..case.model import Case, Fault, Values, Word
from ..hints.along import Things
from ..program.vocabulary import Vocabulary
from .session import Session

SECONDS = 2.0  # for the search
FIRST = "different PART"  # is tried: of all words about a part it is meant most
MOST_OFFERED = 4  # words
COUNTS = ("one", "two", "three")
WORDS_OF = {1: "one thing", 2: "two things", 3: "three things", 4: "four things"}


@dataclass(frozen=True)
class Search:
    """What came of a search."""

    words: tuple[str, ...]  # that explain all, a few at most, the likeliest first
    things: Things  # those that `ask` doesn't put together, where the words are about them; else ()
    whole: bool  # whether it wasn't cut for want of time


def lacking(session: Session, values: Values | None = None, yes: bool = False) -> Search:
    """The words that would explain the answers of a session and one more, if it is given."""
    possible = session.possible
    if values is not None:
        possible.take(values, yes)
    try:
        answers, clash = list(possible.answers), possible.clash()
    finally:
        if values is not None:
            possible.back()
    refused = _smallest([answers[place][0] for place in clash])
    accepted = [some for some, accepts in answers if accepts]
    # no word speaks of a whole plan, which is what is refused where nobody says which cells
    meant = {} if values is None or yes or len(values) > max(WORDS_OF) else values
    things = () if _together(session.case, meant) else tuple(sorted(meant))
    return _search(session, refused, accepted, things)


def _smallest(some: Sequence[Values]) -> list[Values]:
    """Those that hold no other of them: what explains a part explains the whole."""
    return [one for one in some if not any(other.items() < one.items() for other in some)]


def _together(case: Case, values: Values) -> bool:
    """Whether some group holds all these things."""
    return any(set(values) <= set(group.things) for group in case.groups)


def _search(
    session: Session, refused: list[Values], accepted: list[Values], things: Things
) -> Search:
    """The words that refuse each of some examples and are broken by no accepted one."""
    case = session.case
    groups = [things] if things else [group.things for group in case.groups]
    found: list[str] = []
    try:
        for form in _explaining(case, _Seen(groups, refused, accepted), not things):
            if _taken(case, form, things):
                found.append(form)
            if len(found) == MOST_OFFERED:
                break
    except _Late:
        return Search(tuple(found), things, False)
    return Search(tuple(found), things, True)


def _explaining(case: Case, seen: _Seen, new: bool) -> Iterator[str]:
    """The words that explain each refused example; with `new` those alone that the case lacks."""
    setting = Setting(case.things, case.values, case.value_parts)
    have = {word.text for word in case.words} if new else set()
    for form in forms(case, setting, seen.refused, seen.largest) if seen.refused else ():
        seen.in_time()
        if form in have:
            continue
        try:
            word = catalogue.word(setting, form)
        except Fault:
            continue  # a form that this case has no meaning for
        if all(seen.explains(word, values) for values in seen.refused):
            yield form


def _taken(case: Case, form: str, things: Things) -> bool:
    """Whether the program takes the case with this word."""
    try:
        Vocabulary(
            casefile.parse(
                case.text + "\n" + "\n".join(lines(case, form, things)) + "\n", case.path
            )
        )
    except Fault:
        return False
    return True


class _Late(Exception):
    """The time for the search is over."""


class _Seen:
    """What accepted examples have on the groups of things that refused ones have."""

    def __init__(
        self, groups: Sequence[Things], refused: Sequence[Values], accepted: Sequence[Values]
    ) -> None:
        self.refused = refused
        self.largest = max(map(len, groups))
        self._groups, self._accepted = groups, accepted
        self._end = time.monotonic() + SECONDS
        self._within = {thing for values in refused for thing in values}
        self._of: dict[int, dict[Things, set[tuple[int, ...]]]] = {}

    def in_time(self) -> None:
        """Breaks the search off where it has taken its time."""
        if time.monotonic() > self._end:
            raise _Late

    def explains(self, word: Word, values: Values) -> bool:
        """Whether a word refuses an example on things on which no accepted one breaks it."""
        of = self._having(word.arity)
        return any(
            not word.holds(*(values[thing] for thing in things))
            and all(word.holds(*some) for some in seen)
            for things, seen in of.items()
            if (not word.things or word.things == things)
            and all(thing in values for thing in things)
        )

    def _having(self, size: int) -> dict[Things, set[tuple[int, ...]]]:
        """The things of this number that are asked about together, and the values that accepted
        examples have there."""
        if size not in self._of:
            exact = [group for group in self._groups if len(group) == size]
            groups = exact or [
                some for group in self._groups for some in itertools.combinations(group, size)
            ]
            of: dict[Things, set[tuple[int, ...]]] = {
                things: set() for things in groups if self._within.issuperset(things)
            }
            for values in self._accepted if of else ():
                self.in_time()
                for things in itertools.combinations(sorted(self._within & values.keys()), size):
                    if things in of:
                        of[things].add(tuple(values[thing] for thing in things))
            self._of[size] = of
        return self._of[size]


# ---------------------------------------------------------------- the forms of words


def forms(case: Case, setting: Setting, refused: Sequence[Values], largest: int) -> Iterator[str]:
    """The words that may be missing, of so many things at most: about a part first, then about no
    value, then about the values of the refused examples."""
    values = list(dict.fromkeys(value for some in refused for value in some.values()))
    members = [
        part.members[setting.at(value)[place]]
        for value in values
        for place, part in enumerate(case.value_parts)
    ]
    names = list(dict.fromkeys([*members, *(case.values[value] for value in values)]))
    every = [form for entry in ENTRIES for form in _of_size(entry, largest) if "=" not in form]
    named = [form for form in every if re.search(r"\b[VW]\b", form)]
    plain = [form for form in every if form not in named]
    parted = sorted((form for form in plain if "PART" in form), key=lambda form: form != FIRST)
    for form in parted + [form for form in plain if form not in parted] + named:
        yield from _filled(case, form, names)
    if any(word.things for word in case.words):
        yield from _of_things(case, refused)


def _of_size(entry: Entry, largest: int) -> list[str]:
    """The forms of an entry that speak of so many things at most."""
    if "of them" in entry.form:  # of one thing more than it counts
        return [re.sub(r"\bK\b", count, entry.form) for count in COUNTS[: largest - 1]]
    more = [entry.form.replace("three", "four")] if entry.arity == 3 and largest > 3 else []
    return [entry.form, *more] if entry.arity <= largest else []


def _filled(case: Case, form: str, names: Sequence[str]) -> Iterator[str]:
    """A form of the catalogue with names and numbers for its capitals."""
    for part in case.value_parts if "PART" in form else [None]:
        size = len(part.members if part else case.values)
        counts = [str(k) for k in range(1, size)] if "apart" in form else COUNTS
        for count in counts if re.search(r"\bK\b", form) else [""]:
            text = form
            if part and "K PART" in form:
                text = text.replace("K PART", part.counted(int(count)))
            elif part:
                text = text.replace("PART", part.name)
            text = re.sub(r"\bK\b", count, text)
            for v, w in itertools.product(
                names if re.search(r"\bV\b", text) else [""],
                names if re.search(r"\bW\b", text) else [""],
            ):
                yield re.sub(r"\bW\b", lambda _: w, re.sub(r"\bV\b", lambda _: v, text))


def _of_things(case: Case, refused: Sequence[Values]) -> Iterator[str]:
    """`x=A not with y=B` for the pairs of refused examples."""
    for values in refused:
        for one, other in itertools.combinations(sorted(values), 2):
            first, second = (
                f"{case.things[thing].name}={case.values[values[thing]]}" for thing in (one, other)
            )
            yield f"{first} not with {second}"


# ---------------------------------------------------------------- what is said of it


def lines(case: Case, form: str, things: Things) -> Iterable[str]:
    """The lines to write into the case."""
    if things:
        yield "ask: " + " - ".join(case.things[thing].name for thing in things)
    if form not in {word.text for word in case.words}:
        yield f"words: {form}"


def told(session: Session, search: Search) -> list[str]:
    """What a search says to the person."""
    case = session.case
    said = []
    if search.things:
        who = " and ".join(case.things[thing].name for thing in search.things)
        said.append(f"`ask` doesn't put {who} together, so no rule about them was looked for.")
    if not search.words and not search.whole:
        return [*said, "No word that explains it was found in two seconds; not all were tried."]
    if not search.words:
        sizes = (
            [len(search.things)] if search.things else [len(group.things) for group in case.groups]
        )
        about = " or ".join(WORDS_OF[size] for size in range(1, max(sizes) + 1))
        return [
            *said,
            (
                f"No word of the catalogue about {about} explains it. Is it a count, as how many "
                "may have one value? Or is it about more things?"
            ),
        ]
    offered = ", ".join(f"`{form}`" for form in search.words)
    write = "; ".join(f"`{line}`" for line in lines(case, search.words[0], search.things))
    one = "This word" if len(search.words) == 1 else "One of these words"
    more = "" if search.whole else " There may be others: the search was cut after two seconds."
    return [
        *said,
        (
            f"{one} would explain it: {offered}.{more} Where it is what you mean, write it into the"
            f" case as a line, {write}; then your answers are taken over, and only what is new is "
            "asked"
        ),
    ]
