"""Cases that change: no answer that `desk carry` gives is against the person.

Drawn cases with `always` lines, some of which aren't so; a session in front of a person who answers
by hidden rules, worked out here from names alone; one of ten changes of the case; `desk carry`; and
the new session to its end, sometimes with one more change behind it. So many cases are looked at:
DESK_CASES, else 150.
"""

from __future__ import annotations

import argparse
import contextlib
import io
import os
import random
import re
import tempfile
from collections import Counter
from collections.abc import Callable, Iterator
from dataclasses import dataclass, field

from planners_desk.commands import carry
from planners_desk.case import casefile
import drawn
from planners_desk.case.model import PLANS, Answer, Case, Fault, Values
from planners_desk.sitting.session import Session
from planners_desk.program.talk import Program
from planners_desk.program.vocabulary import Vocabulary

CASES = int(os.environ.get("DESK_CASES", "150"))
MOST_ANSWERS = 300  # of a person, after which a session is left as it is
PLANTED = [
    # what an `always` line answered is carried over as the person's own word
    ("commands/carry.py", "if known is None or known.yes != yes:", "if True:"),
    # a refused example that names what isn't there any more counts with what is left of it
    (
        "sitting/kept.py",
        "if values and (one[\"yes\"] or len(values) == len(one[\"values\"])):",
        "if values:",
    ),
]
Lines = dict[str, str]
Change = Callable[[random.Random, Lines, "Person"], Lines | None]


@dataclass
class Person:
    """Somebody with rules: of some things, by name, the labels that don't go together."""

    rules: list[tuple[tuple[str, ...], frozenset[tuple[str, ...]]]]
    sayable: list[tuple[str, bool]] = field(
        default_factory=list
    )  # what an `always` line could say, and whether it is so

    def accepts(self, named: dict[str, str]) -> bool:
        """Whether nothing in it is forbidden."""
        return not any(
            all(name in named for name in names)
            and tuple(named[name] for name in names) in forbidden
            for names, forbidden in self.rules
        )


def named(case: Case, values: Values) -> dict[str, str]:
    """Values by names."""
    return {case.things[thing].name: case.values[value] for thing, value in values.items()}


# ---------------------------------------------------------------- drawn cases and people


def lines_of(text: str) -> Lines:
    """The lines of a drawn case by their keys."""
    return dict(line.split(": ", 1) for line in text.splitlines())


def text_of(lines: Lines) -> str:
    """The way back."""
    return "".join(f"{key}: {said}\n" for key, said in lines.items() if said)


def person_of(words: Vocabulary, draw: random.Random) -> Person:
    """Rules on most groups, such that some plan keeps them all."""
    hidden = {thing.place: draw.choice(thing.allowed) for thing in words.case.things}
    person = Person([])
    for scope in words.scopes:
        some = [rule for rule, _ in words.rules_on(scope)]
        mine = [rule for rule in some if not rule.violated(hidden)]
        held = draw.sample(mine, min(len(mine), draw.choice([0, 1, 1, 2])))
        for rule in held:
            person.rules.append(forbidden_by(words.case, rule.things, rule.word.holds))
        for rule in some:
            on = (
                ""
                if rule.word.things
                else " on " + " - ".join(words.case.things[thing].name for thing in rule.things)
            )
            person.sayable.append((rule.word.text + on, rule in held))
    return person


def forbidden_by(
    case: Case, things: tuple[int, ...], holds: Callable[..., bool]
) -> tuple[tuple[str, ...], frozenset[tuple[str, ...]]]:
    """A rule by names and labels."""
    found: list[tuple[int, ...]] = [()]
    for _ in things:
        found = [(*some, value) for some in found for value in range(len(case.values))]
    return (
        tuple(case.things[thing].name for thing in things),
        frozenset(
            tuple(case.values[value] for value in some) for some in found if not holds(*some)
        ),
    )


def always_line(draw: random.Random, person: Person) -> str:
    """Up to three rules said beforehand, most of them so."""
    so = [text for text, is_so in person.sayable if is_so]
    others = [text for text, is_so in person.sayable if not is_so]
    some = draw.sample(so, min(len(so), draw.randint(0, 2))) + draw.sample(
        others, min(len(others), draw.choice([0, 0, 1]))
    )
    return ", ".join(dict.fromkeys(some))


# ---------------------------------------------------------------- ten ways to change a case


def pieces(line: str) -> list[str]:
    """What stands between commas."""
    return [piece for piece in line.split(", ") if piece]


def without_one(draw: random.Random, lines: Lines, key: str) -> Lines | None:
    """One piece of a line taken out."""
    some = pieces(lines.get(key, ""))
    if not some:
        return None
    some.remove(draw.choice(some))
    return {**lines, key: ", ".join(some)}


def with_one(lines: Lines, key: str, piece: str) -> Lines:
    """One piece added to a line."""
    return {**lines, key: ", ".join([*pieces(lines.get(key, "")), piece])}


def always_out(draw: random.Random, lines: Lines, person: Person) -> Lines | None:
    """A rule said beforehand is taken out."""
    return without_one(draw, lines, "always")


def always_in(draw: random.Random, lines: Lines, person: Person) -> Lines | None:
    """A rule is said beforehand, which is so or isn't."""
    return with_one(lines, "always", draw.choice(person.sayable)[0]) if person.sayable else None


def always_other(draw: random.Random, lines: Lines, person: Person) -> Lines | None:
    """Another rule in the place of one."""
    less = always_out(draw, lines, person)
    return less and always_in(draw, less, person)


def word_in(draw: random.Random, lines: Lines, person: Person) -> Lines | None:
    """One more word."""
    return with_one(
        lines, "words", draw.choice([word for size in (1, 2, 3) for word in drawn.WORDS[size]])
    )


def word_out(draw: random.Random, lines: Lines, person: Person) -> Lines | None:
    """A word less."""
    return without_one(draw, lines, "words")


def group_in(draw: random.Random, lines: Lines, person: Person) -> Lines | None:
    """One more group."""
    things = lines["things"].split()
    return with_one(
        lines,
        "ask",
        " - ".join(sorted(draw.sample(things, min(len(things), draw.choice([2, 2, 3]))))),
    )


def group_out(draw: random.Random, lines: Lines, person: Person) -> Lines | None:
    """A group less."""
    return without_one(draw, lines, "ask")


def other_name(draw: random.Random, lines: Lines, person: Person) -> Lines | None:
    """A thing has another name, everywhere."""
    name = draw.choice(lines["things"].split())
    return {
        re.sub(rf"\b{name}\b", "new", key): re.sub(rf"\b{name}\b", "new", said)
        for key, said in lines.items()
    }


def other_values(draw: random.Random, lines: Lines, person: Person) -> Lines | None:
    """A value less, one more, or another order."""
    values = lines["values"].split()
    if (way := draw.randrange(3)) == 0:
        return {**lines, "values": " ".join(values[:-1])}
    return {**lines, "values": " ".join([*values, "z"] if way == 1 else reversed(values))}


def other_ranges(draw: random.Random, lines: Lines, person: Person) -> Lines | None:
    """What a thing may take is another, or anything."""
    key, values = f"only {draw.choice(lines['things'].split())}", lines["values"].split()
    if key in lines:
        return {other: said for other, said in lines.items() if other != key}
    place = list(lines).index("values") + 1
    more = [*lines.items()]
    return dict(
        [
            *more[:place],
            (key, " ".join(draw.sample(values, draw.randint(1, len(values) - 1)))),
            *more[place:],
        ]
    )


WAYS: tuple[Change, ...] = (
    always_out,
    always_in,
    always_other,
    word_in,
    word_out,
    group_in,
    group_out,
    other_name,
    other_values,
    other_ranges,
)


# ---------------------------------------------------------------- sessions


def sat(session: Session, person: Person, draw: random.Random) -> list[str]:
    """Sits in front of a session to its end, or for some answers; what was given for the person
    against them.

    Sometimes one answer is a slip, which the person goes back to right after.
    """
    faults, count = [], 0
    most = draw.choice([MOST_ANSWERS, MOST_ANSWERS, draw.randint(1, 12)])
    slip = draw.choice([None, None, draw.randrange(8)])
    with session.sit() as sitting:
        sitting.advance()
        while sitting.question is not None and count < most:
            faults += against(session.case, sitting.given, person)
            sitting.answer(
                person.accepts(named(session.case, sitting.question.values)) != (count == slip)
            )
            place = len(session.answers) - 1
            sitting.advance()
            if count == slip:
                sitting.back_to(place)
            count += 1
        faults += against(session.case, sitting.given, person)
        sitting.stop()
    return faults


def against(case: Case, answers: list[Answer], person: Person) -> list[str]:
    """Answers that aren't the person's, and that no rule said beforehand gives."""
    return [
        f"{'yes' if answer.yes else 'no'} to {named(case, answer.question.values)} ({answer.said})"
        for answer in answers
        if answer.yes != person.accepts(named(case, answer.question.values))
        and (answer.yes or not any(rule.violated(answer.question.values) for rule in case.always))
    ]


def begun(path: str, lines: Lines) -> Vocabulary | None:
    """Writes a case; in the program's terms, or None where it isn't one."""
    try:
        words = Vocabulary(casefile.parse(text_of(lines), path))
    except Fault:
        return None
    with open(path, "w", encoding="utf-8") as file:
        file.write(text_of(lines))
    return words


def carried(
    program: Program, old: str, new: str, person: Person, counts: Counter[str]
) -> list[str]:
    """Carries over, and looks at each answer that stands then."""
    said = io.StringIO()
    with contextlib.redirect_stdout(said):
        carry.main(
            old, None if old == new else new, argparse.Namespace(acquire=program.path, budget=None)
        )
    with Session.opened(casefile.read(new), program) as session:
        counts["given"] += len(session.answers)
        faults = against(session.case, session.answers, person)
        counted = [len(session.foreseen.before) - len(session.foreseen.contradicted())]
    told = [
        int(count) for count in re.findall(r"(\d+) answers? w\S+ carried over", said.getvalue())
    ]
    return (
        faults
        if told == counted
        else [*faults, f"it tells {told} answers, and there are {counted}"]
    )


def one(program: Program, seed: int, folder: str, counts: Counter[str]) -> list[str] | None:
    """One case and its changes; None where it can't be drawn so."""
    draw, way = random.Random(seed), WAYS[seed % len(WAYS)]
    old, new = os.path.join(folder, "old.case"), os.path.join(
        folder, draw.choice(["old.case", "new.case"])
    )
    lines = lines_of(drawn.case_text(draw))
    if any(group.count(" - ") == 3 for group in pieces(lines["ask"])):
        return None  # the tables of four things take long
    words = begun(old, lines)
    if words is None:
        return None
    person = person_of(words, draw)
    lines["always"] = always_line(draw, person)
    later = way(draw, lines, person)
    words = begun(old, lines)
    if (
        words is None
        or later is None
        or text_of(later) == text_of(lines)
        or begun(os.path.join(folder, "look.case"), later) is None
    ):
        return None
    with Session.opened(
        casefile.read(old), program, "scopes" if words.lifted else draw.choice(PLANS)
    ) as session:
        sat(session, person, draw)
    begun(new, later)
    faults = carried(program, old, new, person, counts)
    with Session.opened(casefile.read(new), program) as session:
        faults += sat(session, person, draw)
    last = draw.choice(WAYS)(draw, later, person) if draw.random() < 0.3 else None
    if last is not None and begun(os.path.join(folder, "look.case"), last) is not None:
        begun(new, last)
        faults += carried(program, new, new, person, counts)
    counts[way.__name__] += 1
    return [f"{way.__name__} {seed}: {fault}" for fault in faults]


def looked_at(program: str, cases: int, seed: int = 0) -> Iterator[str]:
    """Faults of so many cases, drawn from a seed on."""
    counts: Counter[str] = Counter()
    faults = 0
    while sum(counts[way.__name__] for way in WAYS) < cases and faults <= drawn.ENOUGH:
        with tempfile.TemporaryDirectory() as folder:
            found = one(Program(program), seed, folder, counts) or []
        yield from found
        faults += len(found)
        seed += 1
    missing = [way.__name__ for way in WAYS if not counts[way.__name__]]
    if missing and cases >= 10 * len(WAYS):
        yield f"no case was changed so: {missing}"
    told = ", ".join(f"{counts[way.__name__]} {way.__name__}" for way in WAYS)
    print(
        f"changes: {counts['given']} answers given by carry to cases that changed, "
        f"none of them against the person: {told}"
    )


def run(program: str) -> list[str]:
    """Faults of all cases."""
    return list(looked_at(program, CASES))
