"""The words of which rules are made, each with its sentence and its meaning.

A word is about one to four things. Its meaning is a test of the places of their values in
`case.values`: the order of the values is the order in which the case names them. Where the values
are a grid, a PART of it can be spoken of.
"""

from __future__ import annotations

import itertools
import re
from collections.abc import Callable, Iterator, Sequence
from dataclasses import dataclass

from . import names, synonyms
from .model import Fault, Part, Thing, Way, Word

NUMBERS = {"one": 1, "two": 2, "three": 3, "four": 4}
COUNTED = {number: text for text, number in NUMBERS.items()}


@dataclass(frozen=True)
class Entry:
    """A line of the catalogue, for people."""

    form: str
    arity: int
    meaning: str


ENTRIES = (
    Entry("never V", 1, "it isn't V"),
    Entry("only V or W", 1, "it is V or W"),
    Entry("V or earlier", 1, "it is V or a value before V"),
    Entry("V or later", 1, "it is V or a value after V"),
    Entry("same", 2, "both have one value"),
    Entry("different", 2, "they have different values"),
    Entry("before", 2, "the first has an earlier value than the second"),
    Entry("after", 2, "the first has a later value than the second"),
    Entry("not before", 2, "the first has the same value as the second, or a later one"),
    Entry("not after", 2, "the first has the same value as the second, or an earlier one"),
    Entry("next to", 2, "their values are neighbours; in a grid, within one row of it"),
    Entry("not next to", 2, "their values aren't neighbours"),
    Entry(
        "right before",
        2,
        "the first has the value just before the second's; in a grid, within one row of it",
    ),
    Entry(
        "right after",
        2,
        "the first has the value just after the second's; in a grid, within one row of it",
    ),
    Entry("at least K apart", 2, "from one value to the other it is K steps or more"),
    Entry("at most K apart", 2, "from one value to the other it is K steps or fewer"),
    Entry("same PART", 2, "both values have one PART"),
    Entry("different PART", 2, "their values have different PARTs"),
    Entry("earlier PART", 2, "the first's PART is earlier than the second's"),
    Entry("later PART", 2, "the first's PART is later than the second's"),
    Entry("at least K PART apart", 2, "from one's PART to the other's it is K steps or more"),
    Entry("at most K PART apart", 2, "from one's PART to the other's it is K steps or fewer"),
    Entry("not both V", 2, "at most one of them is V"),
    Entry("one of them V", 2, "the first, the second or both are V"),
    Entry("both V or neither", 2, "both are V, or none of them is"),
    Entry("V not with W", 2, "one isn't V while the other is W, either way round"),
    Entry("no W after V", 2, "where the first is V, the second isn't W"),
    Entry("if V then W", 2, "where the first is V, the second is W"),
    Entry("x=A not with y=B", 2, "where thing x is A, thing y isn't B"),
    Entry("if x=A then y=B", 2, "where thing x is A, thing y is B"),
    Entry(
        "all three different", 3, "no two of them have one value (`all four different` likewise)"
    ),
    Entry(
        "not all three the same",
        3,
        "they don't all have one value (`not all four the same` likewise)",
    ),
    Entry("all three different PART", 3, "no two of their values have one PART (and with four)"),
    Entry("not all three the same PART", 3, "their values don't all have one PART (and with four)"),
    Entry(
        "at most K of three V",
        3,
        "no more than K of them are V (and of four); K is `one`, `two`, `three`",
    ),
    Entry("at least K of three V", 3, "K of them or more are V (and of four)"),
    Entry(
        "at most K of them V",
        3,
        (
            "no more than K of all are V: `one` asks about pairs, `two` about `all triples`, "
            "`three` about `all fours`"
        ),
    ),
    Entry(
        "at least all but K of them V",
        3,
        "all are V but K or fewer; asked about in the same groups",
    ),
    Entry(
        "at most K of them the same",
        3,
        "no value comes more than K times, `two` or `three`; asked about in the same groups",
    ),
    Entry(
        "at most K of them the same PART",
        3,
        "no PART comes more than K times, `two` or `three`; asked about in the same groups",
    ),
    Entry(
        "three in order", 3, "each has an earlier value than the next (`four in order` likewise)"
    ),
)


@dataclass(frozen=True)
class Setting:
    """What a word may name: the things and values of a case."""

    things: tuple[Thing, ...]
    values: tuple[str, ...]
    value_parts: tuple[Part, ...]

    def at(self, value: int) -> tuple[int, ...]:
        """The place of a value's member in each part of the grid of values."""
        sizes = [len(part.members) for part in self.value_parts]
        found = []
        for size in reversed(sizes):
            value, member = divmod(value, size)
            found.append(member)
        return tuple(reversed(found))

    def seen(self, part: int | None) -> Callable[[int], int]:
        """What counts of a value: its member's place in a part, where one is named, else itself."""
        if part is None:
            return lambda value: value
        place = part
        return lambda value: self.at(value)[place]

    def part(self, name: str) -> int | None:
        """The place of a part of the grid of values, also where its name has an s at the end."""
        for place, part in enumerate(self.value_parts):
            if name in (part.name, part.name + "s"):
                return place
        return None

    def value_set(self, name: str) -> frozenset[int]:
        """The values of a name: a value, or all with this member of a part; none where nothing is
        called so."""
        if name in self.values:
            return frozenset([self.values.index(name)])
        for place, part in enumerate(self.value_parts):
            if name in part.members:
                member = part.members.index(name)
                return frozenset(v for v in range(len(self.values)) if self.at(v)[place] == member)
        return frozenset()


def word(setting: Setting, text: str) -> Word:
    """The word that a text is, or a fault with the nearest right form."""
    text = " ".join(text.split())
    made = _made(setting, text)
    if made is None:
        near = _near(setting, text)
        raise Fault(
            f"the word `{text}` isn't in the catalogue{near}", ways=[None if near else Way.WORDS]
        )
    return made


def _made(setting: Setting, text: str) -> Word | None:
    """The word that a text is, or None."""
    for maker in (
        _of_named_things,
        _of_one,
        _of_two,
        _of_parts,
        _of_them,
        _of_two_values,
        _of_three_or_four,
    ):
        made = maker(setting, text)
        if made:
            return made
    return None


def _known(setting: Setting, text: str) -> bool:
    """Whether a text is a word of the catalogue here."""
    try:
        return _made(setting, text) is not None
    except Fault:
        return False


def _meant(setting: Setting, text: str) -> str | None:
    """The word that is meant by one that isn't in the catalogue."""
    return synonyms.meant(
        synonyms.spelled(text),
        ((r"(.+)", r"\1"), *synonyms.OF_WORDS),
        lambda form: _known(setting, form),
    )


def _word(
    setting: Setting,
    text: str,
    arity: int,
    holds: Callable[..., bool],
    sentence: str,
    shown: str,
    whole: str = "",
) -> Word:
    """A word about any things, with its first example."""
    every = range(len(setting.values))
    example = next(
        (some for some in itertools.product(every, repeat=arity) if not holds(*some)), ()
    )
    return Word(text, arity, holds, _escaped(sentence), example, (), shown, _escaped(whole))


def _escaped(sentence: str) -> str:
    """A template in which braces that come from names are text: only {0} to {3} are places."""
    whole = sentence.replace("{", "{{").replace("}", "}}")
    return re.sub(r"\{\{([0-3])\}\}", r"{\1}", whole)


def _of_one(setting: Setting, text: str) -> Word | None:
    """never V, only V or W, V or earlier, V or later."""

    def made(holds: Callable[[int], bool], shown: str) -> Word:
        return _word(setting, text, 1, holds, "{0} " + shown, shown)

    if m := re.fullmatch(r"never (.+)", text):
        v = setting.value_set(m[1])
        return made(lambda x: x not in v, f"is never {m[1]}") if v else None
    if m := re.fullmatch(r"only (.+)", text):
        sets = [setting.value_set(name) for name in m[1].split(" or ")]
        if not all(sets):
            return None
        return only(setting, m[1].split(" or "), frozenset().union(*sets))
    if (m := re.fullmatch(r"(.+) or (earlier|later)", text)) and m[1] in setting.values:
        end = setting.values.index(m[1])
        if m[2] == "earlier":
            return made(lambda x: x <= end, f"is {m[1]} or earlier")
        return made(lambda x: x >= end, f"is {m[1]} or later")
    return None


def only(setting: Setting, some: Sequence[str], values: frozenset[int]) -> Word:
    """The word `only V or W` of these names and values."""
    shown = f"is only {' or '.join(some)}"
    return _word(
        setting, f"only {' or '.join(some)}", 1, lambda x: x in values, "{0} " + shown, shown
    )


def _of_two(setting: Setting, text: str) -> Word | None:
    """The words that name no value: same, before, at least K apart and so on."""
    last = len(setting.value_parts[-1].members) if setting.value_parts else 0

    def step(x: int, y: int) -> bool:
        """Whether y is just behind x; in a grid within a row."""
        return y == x + 1 and (not last or y % last != 0)

    fixed: dict[str, tuple[Callable[[int, int], bool], str, str]] = {
        "same": (lambda x, y: x == y, "{0} and {1} are the same", "are the same"),
        "different": (lambda x, y: x != y, "{0} and {1} differ", "differ"),
        "before": (lambda x, y: x < y, "{0} is before {1}", "the first is before the second"),
        "after": (lambda x, y: x > y, "{0} is after {1}", "the first is after the second"),
        "not before": (
            lambda x, y: x >= y,
            "{0} isn't before {1}",
            "the first isn't before the second",
        ),
        "not after": (
            lambda x, y: x <= y,
            "{0} isn't after {1}",
            "the first isn't after the second",
        ),
        "next to": (
            lambda x, y: step(x, y) or step(y, x),
            "{0} and {1} are next to each other",
            "are next to each other",
        ),
        "not next to": (
            lambda x, y: not (step(x, y) or step(y, x)),
            "{0} and {1} aren't next to each other",
            "aren't next to each other",
        ),
        "right before": (step, "{0} is right before {1}", "the first is right before the second"),
        "right after": (
            lambda x, y: step(y, x),
            "{0} is right after {1}",
            "the first is right after the second",
        ),
    }
    if text in fixed:
        holds, sentence, shown = fixed[text]
        return _word(setting, text, 2, holds, sentence, shown)
    if (m := re.fullmatch(r"at (least|most) (\d{1,3}) apart", text)) and not setting.value_parts:
        return _word(
            setting,
            text,
            2,
            _apart(m[1], int(m[2]), lambda x: x),
            "{0} and {1} are " + text,
            "are " + text,
        )
    return None


def _apart(side: str, steps: int, at: Callable[[int], int]) -> Callable[[int, int], bool]:
    """The test of `at least K apart` or `at most K apart`."""
    if side == "least":
        return lambda x, y: abs(at(x) - at(y)) >= steps
    return lambda x, y: abs(at(x) - at(y)) <= steps


def _of_parts(setting: Setting, text: str) -> Word | None:
    """same PART, earlier PART, at least K PART apart and so on."""
    if m := re.fullmatch(r"at (least|most) (\d{1,3}) (.+) apart", text):
        part = setting.part(m[3])
        if part is None:
            return None
        far = f"are at {m[1]} {setting.value_parts[part].counted(int(m[2]))} apart"
        return _word(
            setting,
            text,
            2,
            _apart(m[1], int(m[2]), setting.seen(part)),
            "{0} and {1} " + far,
            far,
        )
    m = re.fullmatch(r"(same|different|earlier|later) (.+)", text)
    part = setting.part(m[2]) if m else None
    if m is None or part is None:
        return None
    tests: dict[str, tuple[Callable[[int, int], bool], str, str]] = {
        "same": (lambda x, y: x == y, "{0} and {1} have the same " + m[2], "have the same " + m[2]),
        "different": (
            lambda x, y: x != y,
            "{0} and {1} have a different " + m[2],
            "have a different " + m[2],
        ),
        "earlier": (
            lambda x, y: x < y,
            "{0} has an earlier " + m[2] + " than {1}",
            f"the first has an earlier {m[2]} than the second",
        ),
        "later": (
            lambda x, y: x > y,
            "{0} has a later " + m[2] + " than {1}",
            f"the first has a later {m[2]} than the second",
        ),
    }
    test, sentence, shown = tests[m[1]]
    seen = setting.seen(part)
    return _word(setting, text, 2, lambda x, y: test(seen(x), seen(y)), sentence, shown)


def _of_two_values(setting: Setting, text: str) -> Word | None:
    """Words about two things that name values: not both V, V not with W and so on."""

    def made(holds: Callable[[int, int], bool], sentence: str, shown: str) -> Word:
        return _word(setting, text, 2, holds, sentence, shown)

    one = {
        form: setting.value_set(m[1]) if (m := re.fullmatch(form, text)) else frozenset()
        for form in (r"not both (.+)", r"one of them (.+)", r"both (.+) or neither")
    }
    if v := one[r"not both (.+)"]:
        name = text.removeprefix("not both ")
        return made(
            lambda x, y: not (x in v and y in v),
            "{0} and {1} aren't both " + name,
            f"aren't both {name}",
        )
    if v := one[r"one of them (.+)"]:
        name = text.removeprefix("one of them ")
        return made(
            lambda x, y: x in v or y in v, "{0} or {1} is " + name, f"one of the two is {name}"
        )
    if v := one[r"both (.+) or neither"]:
        name = text[len("both ") : -len(" or neither")]
        return made(
            lambda x, y: (x in v) == (y in v),
            "{0} and {1} are both " + name + ", or neither is",
            f"both or neither are {name}",
        )
    for form, turned in (
        (r"(.+) not with (.+)", False),
        (r"no (.+) after (.+)", True),
        (r"if (.+) then (.+)", False),
    ):
        if not (m := re.fullmatch(form, text)):
            continue
        v, w = (setting.value_set(name) for name in ((m[2], m[1]) if turned else (m[1], m[2])))
        if v and w:
            return made(*_two(form, v, w, *((m[2], m[1]) if turned else (m[1], m[2]))))
    return None


def _two(
    form: str, v: frozenset[int], w: frozenset[int], a: str, b: str
) -> tuple[Callable[[int, int], bool], str, str]:
    """The test, the sentence and the pattern form of a word that names two values."""
    if "not with" in form:
        return (
            lambda x, y: not (x in v and y in w or x in w and y in v),
            f"{a} and {b} don't go together in {{0}} and {{1}}",
            f"{a} and {b} don't go together",
        )
    if "after" in form:
        return (
            lambda x, y: not (x in v and y in w),
            f"where {{0}} is {a}, {{1}} isn't {b}",
            f"no {b} after {a}",
        )
    return (
        lambda x, y: x not in v or y in w,
        f"where {{0}} is {a}, {{1}} is {b}",
        f"where the first is {a}, the second is {b}",
    )


def _of_them(setting: Setting, text: str) -> Word | None:
    """at most K of them V, at least all but K of them V, at most K of them the same: counts that
    groups of K + 1 things say.

    No more than K of any number of things are V where no K + 1 of them are; all but K are V where
    of each K + 1 one is.
    """
    m = re.fullmatch(r"(at most|(?:at least )?all but) (one|two|three) of them (.+)", text)
    if m is None:
        return None
    most, count = m[1] == "at most", NUMBERS[m[2]] + 1
    same = re.fullmatch(r"the same(?: (.+))?", m[3]) if most else None
    v = setting.value_set(m[3])
    part = setting.part(same[1]) if same and same[1] else None
    if v:
        holds: Callable[..., bool] = (
            (lambda *x: any(one not in v for one in x))
            if most
            else (lambda *x: any(one in v for one in x))
        )
        said = m[3]
    elif same and (part is not None or not same[1]) and count > 2:
        seen = setting.seen(part)
        holds, said = (lambda *x: len({seen(one) for one in x}) > 1), m[3]
    else:
        return None
    is_one, are = ("has", "have") if same and same[1] else ("is", "are")
    who = ", ".join("{%d}" % place for place in range(count - 1)) + " and {%d}" % (count - 1)
    few = f"at most {m[2]} of " if most else "at least one of "
    verb = (is_one if count == 2 else are) if most else is_one
    whole = (
        f"at most {m[2]} of {{0}} {are} {said}"
        if most
        else f"at least all but {m[2]} of {{0}} are {said}"
    )
    return _word(
        setting, text, count, holds, f"{few}{who} {verb} {said}", f"{few}them {verb} {said}", whole
    )


def _of_three_or_four(setting: Setting, text: str) -> Word | None:
    """all three different, not all four the same, at most two of three V and so on."""
    count = next((NUMBERS[part] for part in reversed(text.split()) if part in ("three", "four")), 0)
    if not count:
        return None
    holes = ["{%d}" % place for place in range(count)]
    who = ", ".join(holes[:-1]) + " and " + holes[-1]

    def made(holds: Callable[..., bool], shown: str) -> Word:
        return _word(setting, text, count, holds, f"{who} {shown}", shown)

    if text == f"{COUNTED[count]} in order":
        return made(lambda *x: all(a < b for a, b in itertools.pairwise(x)), "come in this order")
    if m := re.fullmatch(
        rf"(all {COUNTED[count]} different|not all {COUNTED[count]} the same)( .+)?", text
    ):
        part = setting.part(m[2].strip()) if m[2] else None
        if m[2] and part is None:
            return None
        seen = setting.seen(part)
        of = m[2] or ""
        if m[1].startswith("all"):
            return made(
                lambda *x: len({seen(v) for v in x}) == count,
                f"all have a different{of}" if of else "are all different",
            )
        return made(
            lambda *x: len({seen(v) for v in x}) > 1,
            f"don't all have the same{of}" if of else "aren't all the same",
        )
    return _counted(setting, text, count, made)


def _counted(setting: Setting, text: str, count: int, made: Callable[..., Word]) -> Word | None:
    """at most K of three V, at least K of four V."""
    m = re.fullmatch(rf"at (most|least) (one|two|three) of {COUNTED[count]} (.+)", text)
    v = setting.value_set(m[3]) if m else None
    if m is None or not v:
        return None
    bound = NUMBERS[m[2]]
    shown = (
        f"have {m[3]} at "
        f"{m[1]} {'once' if bound == 1 else 'twice' if bound == 2 else 'three times'}"
    )
    if m[1] == "most":
        return made(lambda *x: sum(value in v for value in x) <= bound, shown)
    return made(lambda *x: sum(value in v for value in x) >= bound, shown)


def _of_named_things(setting: Setting, text: str) -> Word | None:
    """x=A not with y=B, if x=A then y=B."""
    m = re.fullmatch(r"([^=]+)=(.+) not with ([^=]+)=(.+)", text)
    then = m is None
    m = m or re.fullmatch(r"if ([^=]+)=(.+) then ([^=]+)=(.+)", text)
    if m is None:
        return None
    i, j = _thing(setting, m[1].strip()), _thing(setting, m[3].strip())
    if i == j:
        raise Fault(f"`{text}`: these are one thing; a word about one thing is `never V`")
    v, w = _value_of(setting, i, m[2].strip()), _value_of(setting, j, m[4].strip())
    if then:
        other = next((value for value in setting.things[j].allowed if value != w), None)
        return Word(
            text,
            2,
            lambda x, y: bool(x != v or y == w),
            _escaped(f"where {{0}} is {m[2]}, {{1}} is {m[4]}"),
            () if other is None else (v, other),
            (i, j),
            f"where {m[1]} is {m[2]}, {m[3]} is {m[4]}",
        )
    return Word(
        text,
        2,
        lambda x, y: not (x == v and y == w),
        _escaped(f"{{0}} {m[2]} doesn't go with {{1}} {m[4]}"),
        (v, w),
        (i, j),
        f"{m[1]} {m[2]} doesn't go with {m[3]} {m[4]}",
    )


def _thing(setting: Setting, name: str) -> int:
    """The place of a thing that a word names."""
    known = [thing.name for thing in setting.things]
    if name not in known:
        raise Fault(
            "no such thing: "
            f"{name}{names.nearest(name, known) or '; there are ' + names.choices(known)}"
        )
    return known.index(name)


def _value_of(setting: Setting, thing: int, name: str) -> int:
    """The value of this name that a thing may take."""
    known = [setting.values[value] for value in setting.things[thing].allowed]
    if name not in known:
        raise Fault(
            f"{setting.things[thing].name} has no value "
            f"{name}{names.nearest(name, known) or '; it has ' + names.choices(known)}"
        )
    return setting.things[thing].allowed[known.index(name)]


def _forms(setting: Setting) -> Iterator[str]:
    """Right forms to look among for the nearest."""
    members = [member for part in setting.value_parts for member in part.members]
    for entry in ENTRIES:
        forms = (
            [entry.form.replace("K", k) for k in ("2", "one", "two")]
            if re.search(r"\bK\b", entry.form)
            else [entry.form]
        )
        for form in forms + [form.replace("three", "four") for form in forms if "three" in form]:
            if "2 PART" in form:
                yield from (form.replace("2 PART", part.counted(2)) for part in setting.value_parts)
            elif "PART" in form:
                yield from (form.replace("PART", part.name) for part in setting.value_parts)
            elif re.search(r"\b[VW]\b", form):
                other = setting.values[-1]
                yield from (
                    re.sub(r"\bW\b", other, re.sub(r"\bV\b", name, form))
                    for name in [*setting.values, *members]
                )
            elif "=" not in form:
                yield form


def _near(setting: Setting, text: str) -> str:
    """The form that is meant, else the nearest by letters, where there is one."""
    named = synonyms.about(
        text, [thing.name for thing in setting.things], lambda middle: _meant(setting, middle)
    )
    if named:
        word, one, other = named
        return (
            f"; a word stands without its things: `{word}` in `words` with `{one} - {other}` in "
            f"`ask`, or `always: {word} on {one} - {other}`"
        )
    meant = _meant(setting, text)
    if meant:
        return synonyms.hint(meant)
    if setting.value_parts and (m := re.fullmatch(r"at (least|most) (\d{1,3}) apart", text)):
        return (
            "; in a grid it is counted in a part: "
            f"`at {m[1]} {setting.value_parts[0].counted(int(m[2]))} apart`"
        )
    return names.nearest(text, _forms(setting))
