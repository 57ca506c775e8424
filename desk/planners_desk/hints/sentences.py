"""Learned rules as few sentences: what is the same along a grid is said once, with its exceptions
by name.

Nothing is added or left out: the rules of all sentences together are the rules that were learned.
In a grid case rules make a pattern where they differ in one part alone, as in the day: `every day:
early and late differ, but not on Sun`. Where each two (or three, or four) of some things have one
rule, that is one sentence as well, and so is a rule between two sets of things: `each of acid and
bleach differs from each of lye and soap`. What a sentence excepts is what doesn't hold.
"""

from __future__ import annotations

import itertools
import re
from collections import defaultdict
from collections.abc import Iterable, Iterator, Sequence
from dataclasses import dataclass

from ..case.model import Answer, Case, Constraint, Rule, Word
from ..program.vocabulary import Vocabulary
from .along import PLACED, Along, Pattern, Things, and_list
from .blocks import MOST_EXCEPTIONS, Block, blocks

Key = tuple[str, Things]  # the text of a word, and the things that a rule of it is about

# how the sentence of a word begins that says the same whichever of its things comes first, and how
# it is said of more things
ALL_OF = {2: "{0} and {1} ", 3: "{0}, {1} and {2} ", 4: "{0}, {1}, {2} and {3} "}
COUNTED = {2: "two", 3: "three", 4: "four"}
PAIR = ALL_OF[2]
# what is said of a thing and another one that is said of two things together in the catalogue
BETWEEN = (
    ("differ", "differs from"),
    ("are the same", "is the same as"),
    ("are next to each other", "is next to"),
    ("aren't next to each other", "isn't next to"),
    ("are (at (?:least|most) .+ apart)", r"is \1 from"),
    ("have the same (.+)", r"has the same \1 as"),
    ("have a different (.+)", r"has another \1 than"),
)


@dataclass(frozen=True)
class Said:
    """A sentence, the things of the rules that it says, and those that it excepts."""

    text: str
    things: tuple[Things, ...]
    out: tuple[Things, ...] = ()


@dataclass(frozen=True)
class Sentence:
    """What is said of one or several rules at once."""

    text: str
    rules: tuple[Rule, ...]
    follows: str  # `all`, `some` or `none` of these rules follow from the others
    out: tuple[Things, ...] = ()  # where the things are a list: those that it excepts
    unseen: tuple[Rule, ...] = ()  # those of the rules that no accepted example has kept

    @property
    def whole(self) -> str:
        """The sentence, what of it follows from others, and what of it was never seen kept."""
        mark = {
            "all": " (follows from the others)",
            "some": " (some of it follows from the others)",
        }
        whole = len(self.unseen) == len(self.rules)
        never = " (never seen yet)" if whole else " (some of it never seen yet)"
        return self.text + mark.get(self.follows, "") + (never if self.unseen else "")


@dataclass(frozen=True)
class Found:
    """A pattern of a word, which of its places it holds at, and which it might hold at."""

    pattern: Pattern
    held: Things  # members of the part, rising
    might: Things  # where its things are asked about together
    every: bool  # whether that is wherever there are such things


def rules_of(
    vocabulary: Vocabulary, constraints: Iterable[Constraint]
) -> dict[Key, tuple[Rule, list[Constraint]]]:
    """Each rule that some constraint says, once, with the constraints that say it."""
    found: dict[Key, tuple[Rule, list[Constraint]]] = {}
    for constraint in constraints:
        for rule in vocabulary.claims(constraint):
            found.setdefault((rule.word.text, rule.things), (rule, []))[1].append(constraint)
    return found


def holding(vocabulary: Vocabulary, constraints: Iterable[Constraint]) -> set[Key]:
    """The rules that some constraint has hold, also those that it needn't say since others of its
    rules say more."""
    found: set[Key] = set()
    for constraint in constraints:
        table = vocabulary.table(constraint)
        found.update(
            (rule.word.text, rule.things)
            for rule, accepted in vocabulary.rules_on(constraint.scope)
            if table & accepted == table
        )
    return found


def unseen(case: Case, rules: Iterable[Rule], answers: Sequence[Answer]) -> tuple[Rule, ...]:
    """The rules whose things no accepted example has together, so that nobody has seen them kept,
    without those that were said beforehand: where a word is missing, the nearest one that the case
    has is learned so."""
    accepted = [answer.question.values for answer in answers if answer.yes]
    having = {
        thing.place: {place for place, values in enumerate(accepted) if thing.place in values}
        for thing in case.things
    }
    beforehand = {(rule.word.text, rule.things) for rule in case.always}
    return tuple(
        rule
        for rule in rules
        if (rule.word.text, rule.things) not in beforehand
        and not set.intersection(*(having[thing] for thing in rule.things))
    )


def grouped(
    vocabulary: Vocabulary,
    constraints: Sequence[Constraint],
    needed: Sequence[Constraint] | None = None,
    answers: Sequence[Answer] | None = None,
) -> list[Sentence]:
    """The sentences that say these constraints. A rule follows from the others where `needed` is
    given and has no constraint that says it; whether a rule was ever seen kept is marked where the
    answers are given."""
    found = rules_of(vocabulary, constraints)
    kept = None if needed is None else {constraint.line for constraint in needed}
    follows = {
        key
        for key, (_, said) in found.items()
        if kept is not None and not any(c.line in kept for c in said)
    }
    words: dict[str, Word] = {}
    by_word: dict[str, set[Things]] = defaultdict(set)
    for (text, things), (rule, _) in found.items():
        words[text] = rule.word
        by_word[text].add(things)
    groups = _Groups(vocabulary.case, holding(vocabulary, constraints))
    sentences = []
    for text, mine in by_word.items():
        for said in groups.said(words[text], mine):
            rules = tuple(found[text, things][0] for things in said.things)
            count = sum((text, things) in follows for things in said.things)
            part = "none" if not count else "all" if count == len(rules) else "some"
            never = () if answers is None else unseen(vocabulary.case, rules, answers)
            sentences.append(Sentence(said.text, rules, part, said.out, never))
    return sentences


class _Groups:
    """Which rules of a word go into one sentence."""

    def __init__(self, case: Case, holding: set[Key]) -> None:
        self.case, self.along, self.holding = case, Along(case), holding

    def said(self, word: Word, mine: set[Things]) -> Iterator[Said]:
        """Each sentence with the things of its rules; each of `mine` is in one."""
        left = set(mine)
        for clique in self._cliques(word, left):
            yield self._each_of_all(word, clique)
            left -= set(clique)
        if not self.along.is_grid:
            for block in self._blocks(word, left):
                yield self._between(word, block)
                left -= set(block.says)
        merged: dict[tuple[object, ...], list[Found]] = defaultdict(list)
        while left and (best := self._best(left)):
            holds = tuple(
                member for member in best.might if self._holds(word, best.pattern, member)
            )
            merged[best.pattern.part, best.held, best.might, best.every, holds].append(best)
            left -= set(self.along.places(best.pattern, best.held))
        for some in merged.values():
            yield self._along(word, some)
        for things in sorted(left):
            yield Said(word.said_of(self._names(things)), (things,))

    def _names(self, things: Things) -> tuple[str, ...]:
        return tuple(self.case.things[thing].name for thing in things)

    # ---- each two, three or four of some things

    def _cliques(self, word: Word, mine: set[Things]) -> Iterator[list[Things]]:
        """Rules on each two (three, four) of more things; in a grid only where they are all of the
        word's."""
        if (
            word.arity < 2
            or not (word.whole or word.sentence.startswith(ALL_OF[word.arity]))
            or len(mine) < 2
        ):
            return
        parts = _components(mine)
        if self.along.is_grid and len(parts) > 1:
            return
        for groups in parts:
            some = _members(groups)
            every = sum(1 for _ in itertools.combinations(some, word.arity))
            missing = len(self._missing(word, some, groups))
            if len(some) > word.arity and missing <= (
                min(MOST_EXCEPTIONS, every // 4) if len(some) > word.arity + 1 else 0
            ):
                yield sorted(groups)

    def _missing(self, word: Word, some: list[int], groups: list[Things]) -> list[Things]:
        """The groups of some things of which the word doesn't hold."""
        have = {tuple(sorted(things)) for things in groups}
        return [
            things
            for things in itertools.combinations(some, word.arity)
            if things not in have
            and not any(
                (word.text, order) in self.holding for order in itertools.permutations(things)
            )
        ]

    def _each_of_all(self, word: Word, groups: list[Things]) -> Said:
        """`each two of a, b and c differ`."""
        some = _members(groups)
        out = self._missing(word, some, groups)
        count = COUNTED[word.arity]
        whole = len(some) == len(self.case.things) > 8
        who = (
            f"each {count} of all {len(some)}"
            if whole
            else f"each {count} of {and_list(self._names(tuple(some)))}"
        )
        if word.whole and not out:
            text = word.whole.format(
                f"all {len(some)}" if whole else and_list(self._names(tuple(some)))
            )
        elif word.whole:
            text = f"{who}: {word.shown}{self._but(out)}"
        else:
            text = f"{who} {word.sentence.removeprefix(ALL_OF[word.arity])}{self._but(out)}"
        return Said(_unescaped(text), tuple(groups), () if self.along.is_grid else tuple(out))

    def _but(self, out: Sequence[Things]) -> str:
        """The exceptions of a sentence."""
        said = ", ".join(" and ".join(self._names(things)) for things in out)
        return f", but not {said}" if out else ""

    # ---- each of some things with each of others

    def _blocks(self, word: Word, left: set[Things]) -> Iterator[Block]:
        """Rules between two sets of things."""
        if word.arity != 2 or word.things:
            return iter(())
        every = range(len(self.case.values))
        even = all(
            word.holds(one, other) == word.holds(other, one)
            for one, other in itertools.combinations(every, 2)
        )
        held = [things for text, things in self.holding if text == word.text]
        asked = [things for things in self.along.asked if len(things) == 2]
        return blocks(sorted(left), held, asked, even)

    def _between(self, word: Word, block: Block) -> Said:
        """`each of a and b differs from each of c and d`, `a is before each of b and c`."""
        firsts, seconds = (self._each_of(side) for side in (block.firsts, block.seconds))
        pattern = next(
            (
                re.sub(form, said, word.shown)
                for form, said in BETWEEN
                if re.fullmatch(form, word.shown)
            ),
            None,
        )
        if pattern is not None:
            text = f"{firsts} {pattern} {seconds}"
        elif re.fullmatch(r"\{0\} (is|isn't|has) .*\{1\}", word.sentence):
            text = word.said_of((firsts, seconds))
        else:
            text = f"{firsts} with {seconds}: {word.shown}"
        return Said(text + self._but(block.out), block.says, block.out)

    def _each_of(self, things: Things) -> str:
        names = self._names(things)
        return names[0] if len(names) == 1 else f"each of {and_list(names)}"

    # ---- along a part of a grid

    def _best(self, left: set[Things]) -> Found | None:
        """The pattern that holds at most places, of two at least."""
        if not self.along.is_grid:
            return None
        held: dict[Pattern, set[int]] = defaultdict(set)
        for things in left:
            for part in range(len(self.case.thing_parts)):
                held[self.along.pattern(things, part)].add(self.along.member(things, part))
        pattern = min(
            held, key=lambda it: (-len(held[it]), it.part, it.fixed, it.steps), default=None
        )
        if pattern is None or len(held[pattern]) < 2:
            return None
        fits = self.along.fits(pattern)
        might = tuple(member for member in fits if self.along.asked_at(pattern, member))
        return Found(pattern, tuple(sorted(held[pattern])), might, might == fits)

    def _along(self, word: Word, some: list[Found]) -> Said:
        """`every day: early and late differ, but not on Sun`. The patterns hold at the same places,
        wherever they are said."""
        one = some[0]
        part = self.case.thing_parts[one.pattern.part]
        out = [
            part.members[member]
            for member in one.might
            if member not in one.held and not self._holds(word, one.pattern, member)
        ]
        place = PLACED.get(part.name, "for")
        few = one.every and len(out) <= min(MOST_EXCEPTIONS, len(one.held) // 2)
        who = (
            f"every {part.name}"
            if few
            else f"{place} {and_list([part.members[member] for member in one.held])}"
        )
        but = f", but not {place} {and_list(out)}" if few and out else ""
        said = "; ".join(self._pairs(word, [self.along.spoken(found.pattern) for found in some]))
        return Said(
            f"{who}: {said}{but}",
            tuple(
                things for found in some for things in self.along.places(found.pattern, found.held)
            ),
        )

    def _holds(self, word: Word, pattern: Pattern, member: int) -> bool:
        return (word.text, self.along.places(pattern, [member])[0]) in self.holding

    def _pairs(self, word: Word, spoken: list[tuple[str, ...]]) -> list[str]:
        """What is said of some names; where it is said of each two of them, once."""
        names = list(dict.fromkeys(name for pair in spoken for name in pair))
        if (
            word.sentence.startswith(PAIR)
            and len(names) > 2
            and len(spoken) == len(names) * (len(names) - 1) // 2
        ):
            rest = word.sentence.removeprefix(PAIR)
            return [_unescaped(f"each two of {and_list(names)} {rest}")]
        return [word.said_of(names) for names in spoken]


def _unescaped(text: str) -> str:
    """What is left of a word's sentence where no places are left in it."""
    return text.replace("{{", "{").replace("}}", "}")


def _members(groups: Iterable[Things]) -> list[int]:
    """The things of some groups, rising."""
    return sorted({thing for things in groups for thing in things})


def _components(groups: set[Things]) -> list[list[Things]]:
    """Groups that hang together, in lists."""
    of: dict[int, int] = {}

    def root(thing: int) -> int:
        """The thing that stands for all that hang together with this one."""
        while of.setdefault(thing, thing) != thing:
            thing = of[thing]
        return thing

    for first, *others in groups:
        for other in others:
            of[root(first)] = root(other)
    parts: dict[int, list[Things]] = defaultdict(list)
    for things in sorted(groups):
        parts[root(things[0])].append(things)
    return list(parts.values())
