"""Which things a phrase such as `same day` or `night to next day early` puts together."""

from __future__ import annotations

import itertools
import re
from collections.abc import Callable, Iterable, Sequence

from . import names, synonyms
from .model import Fault, Part, Thing

SIZES = {"pairs": 2, "triples": 3, "fours": 4}
MOST_GROUPS = 8192  # of the program


def meant(things: Sequence[Thing], parts: Sequence[Part], phrase: str) -> list[tuple[int, ...]]:
    """The groups of a phrase, each in the order in which the phrase names its things; a fault where
    it means nothing."""
    phrase = " ".join(phrase.split())
    found = _read(things, parts, phrase)
    if found is None:
        raise Fault(f"`{phrase}` isn't a way to put things together{_near(things, parts, phrase)}")
    if not found:
        raise Fault(f"`{phrase}`: no things of the case stand so")
    return found


def _read(
    things: Sequence[Thing], parts: Sequence[Part], phrase: str
) -> list[tuple[int, ...]] | None:
    """The groups of a phrase; None where it isn't one."""
    for reading in (_all, _same, _next, _row, _to, _named):
        found = reading(things, parts, phrase)
        if found is not None:
            return found
    return None


def _known(things: Sequence[Thing], parts: Sequence[Part], phrase: str) -> bool:
    """Whether a phrase puts things together."""
    try:
        return bool(_read(things, parts, phrase))
    except Fault:
        return False


def _near(things: Sequence[Thing], parts: Sequence[Part], phrase: str) -> str:
    """The form that is meant, else the nearest one by letters."""
    meant_form = synonyms.meant(
        phrase,
        (*synonyms.OF_PHRASES, *((rf"{part.name}s?", f"same {part.name}") for part in parts)),
        lambda form: _known(things, parts, form),
    )
    if meant_form:
        return synonyms.hint(meant_form)
    forms = ["all", "all pairs", "all triples", "all fours", "each"]
    for part in parts:
        forms += [
            f"same {part.name}",
            f"same {part.name} triples",
            f"next {part.name}",
            f"{part.counted(3)} in a row",
        ]
        others = [member for other in parts if other is not part for member in other.members][:12]
        forms += [
            f"{a} to {side} {part.name} {b}"
            for side in ("next", "same")
            for a in others
            for b in others
        ]
    forms += [thing.name for thing in things]
    return names.nearest(
        phrase, forms
    ) or f"; there are `all`, `each`, `{things[0].name} - {things[-1].name}`" + (
        f", `same {parts[0].name}`, `next {parts[0].name}`, `{parts[0].counted(3)} in a row`"
        if parts
        else ""
    )


def _subsets(places: Iterable[int], size: int) -> list[tuple[int, ...]]:
    """All groups of this size, at most one more than the program takes."""
    found = list(itertools.islice(itertools.combinations(places, size), MOST_GROUPS + 1))
    if len(found) > MOST_GROUPS:
        raise Fault(f"that is more than {MOST_GROUPS} groups, and the program takes no more")
    return found


def _all(
    things: Sequence[Thing], parts: Sequence[Part], phrase: str
) -> list[tuple[int, ...]] | None:
    """all, all pairs, all triples, all fours, each, each MEMBER."""
    if phrase == "each":
        return [(thing.place,) for thing in things]
    if phrase == "all":
        return _subsets(range(len(things)), 2)
    for word, size in SIZES.items():
        if phrase == f"all {word}":
            return _subsets(range(len(things)), size)
    member = _member(parts, phrase.removeprefix("each "))
    if member and phrase not in [thing.name for thing in things]:
        part, place = member
        return [(thing.place,) for thing in things if thing.at[part] == place]
    return None


def _part(parts: Sequence[Part], name: str) -> int | None:
    """The place of a part by its name, also with an s at the end."""
    return next((k for k, part in enumerate(parts) if name in (part.name, part.name + "s")), None)


def _member(parts: Sequence[Part], name: str) -> tuple[int, int] | None:
    """The part that has this member, and the member's place in it."""
    return next(
        ((k, part.members.index(name)) for k, part in enumerate(parts) if name in part.members),
        None,
    )


def _same(
    things: Sequence[Thing], parts: Sequence[Part], phrase: str
) -> list[tuple[int, ...]] | None:
    """same PART .., with pairs, triples or fours behind it."""
    m = re.fullmatch(r"same (.+?)(?: (pairs|triples|fours))?", phrase)
    if m is None:
        return None
    size = SIZES[m[2] or "pairs"]
    names = [m[1]] if _part(parts, m[1]) is not None else m[1].split()
    wanted = [part for part in (_part(parts, name) for name in names) if part is not None]
    if len(wanted) < len(names):
        return None
    rows: dict[tuple[int, ...], list[int]] = {}
    for thing in things:
        rows.setdefault(tuple(thing.at[k] for k in wanted), []).append(thing.place)
    return [group for row in rows.values() for group in _subsets(row, size)]


def _steps(
    things: Sequence[Thing], part: int, step: int, first: dict[int, int], second: dict[int, int]
) -> list[tuple[int, int]]:
    """Pairs of which the second stands so many steps further in a part; what isn't said to be
    otherwise is the same in both."""
    at = {thing.at: thing.place for thing in things}
    found = []
    for thing in things:
        if any(thing.at[k] != member for k, member in first.items()):
            continue
        place = list(thing.at)
        place[part] += step
        for k, member in second.items():
            place[k] = member
        other = at.get(tuple(place))
        if other is not None and other != thing.place:
            found.append((thing.place, other))
    return found


def _next(
    things: Sequence[Thing], parts: Sequence[Part], phrase: str
) -> list[tuple[int, ...]] | None:
    """next PART: neighbours in a part, with all else the same."""
    m = re.fullmatch(r"next (.+)", phrase)
    part = _part(parts, m[1]) if m else None
    return None if part is None else list(_steps(things, part, 1, {}, {}))


def _row(
    things: Sequence[Thing], parts: Sequence[Part], phrase: str
) -> list[tuple[int, ...]] | None:
    """K PART in a row: so many neighbours in a part, with all else the same."""
    m = re.fullmatch(r"([234]) (.+) in a row", phrase)
    part = _part(parts, m[2]) if m else None
    if m is None or part is None:
        return None
    at = {thing.at: thing.place for thing in things}
    along = range(int(m[1]))
    rows = [
        [
            at.get(thing.at[:part] + (thing.at[part] + step,) + thing.at[part + 1 :])
            for step in along
        ]
        for thing in things
    ]
    return [tuple(place for place in row if place is not None) for row in rows if None not in row]


def _to(
    things: Sequence[Thing], parts: Sequence[Part], phrase: str
) -> list[tuple[int, ...]] | None:
    """X to next PART Y, X to same PART Y: X and Y are members of other parts; Y may be left out."""
    m = re.fullmatch(r"(.+) to (next|same) (.+)", phrase)
    if m is None:
        return None
    tail = m[3].split()
    for cut in range(len(tail), 0, -1):
        part = _part(parts, " ".join(tail[:cut]))
        if part is None:
            continue
        first, second = _members(parts, m[1], part), _members(parts, " ".join(tail[cut:]), part)
        if first is None or second is None:
            return None
        pairs = _steps(things, part, 1 if m[2] == "next" else 0, first, second)
        return list(dict.fromkeys(pairs))
    return None


def _members(parts: Sequence[Part], text: str, but: int) -> dict[int, int] | None:
    """Members of several parts, none of them of part `but`; None where something else is named."""
    every = [member for k, part in enumerate(parts) if k != but for member in part.members]
    try:
        named = names.told_apart(text, every, "member") if text else []
    except Fault:
        return None
    found: dict[int, int] = {}
    for name in named:
        k, place = next(
            (k, part.members.index(name))
            for k, part in enumerate(parts)
            if k != but and name in part.members
        )
        found[k] = place
    return found


def _named(
    things: Sequence[Thing], parts: Sequence[Part], phrase: str
) -> list[tuple[int, ...]] | None:
    """A - B, A-B-C: things by their names; a name alone is a group of one."""
    place = {thing.name: thing.place for thing in things}
    if phrase in place:
        return [(place[phrase],)]
    split: Callable[[str], list[str]] = (
        (lambda text: text.split(" - ")) if " - " in phrase else (lambda text: text.split("-"))
    )
    pieces = [piece.strip() for piece in split(phrase)]
    if len(pieces) < 2:
        return None
    for name in pieces:
        if name not in place:
            raise Fault(f"no such thing: {name}{names.nearest(name, place)}")
    if len(pieces) > 4 or len(set(pieces)) < len(pieces):
        raise Fault(f"`{phrase}`: a group has at most four things, each once")
    return [tuple(place[name] for name in pieces)]
