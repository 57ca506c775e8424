"""Names as people write them: lists of them, ranges such as `Mon .. Sun`, and the nearest one to a
slip of the pen."""

from __future__ import annotations

import difflib
import re
import unicodedata
from collections.abc import Iterable, Sequence
from dataclasses import dataclass

from .model import Fault

# what `..` counts through, beside whole numbers, also behind a name as in `Y1 .. Y4`, and single
# letters
SEQUENCES = (
    "Mon Tue Wed Thu Fri Sat Sun",
    "Monday Tuesday Wednesday Thursday Friday Saturday Sunday",
    "Jan Feb Mar Apr May Jun Jul Aug Sep Oct Nov Dec",
    "January February March April May June July August September October November December",
    "Mo Di Mi Do Fr Sa So",
    "Montag Dienstag Mittwoch Donnerstag Freitag Samstag Sonntag",
)
MOST_FILLED = 200  # names; a case has at most 128 things and 64 values
GERMAN = str.maketrans(
    {"ä": "ae", "ö": "oe", "ü": "ue", "Ä": "Ae", "Ö": "Oe", "Ü": "Ue", "ß": "ss"}
)


def nearest(text: str, among: Iterable[str]) -> str:
    """`; the nearest is `Mon early``, or nothing where none is near."""
    among = list(dict.fromkeys(among))
    found = difflib.get_close_matches(text, among, 1, 0.5)
    if not found:  # letters in another case are near however short the word is
        found = [one for one in among if one.casefold() == text.casefold()][:1]
    return f"; the nearest is `{found[0]}`" if found else ""


def choices(among: Sequence[str], most: int = 8) -> str:
    """Some names, for a message: all where they are few."""
    return ", ".join(among[:most]) + (" .." if len(among) > most else "")


def plain(name: str, else_name: str) -> str:
    """A name of visible ASCII without `=` and `&`, of at most 56 bytes, that is like this one."""
    flat = unicodedata.normalize("NFC", name).translate(GERMAN)
    flat = unicodedata.normalize("NFKD", flat).encode("ascii", "ignore").decode()
    flat = re.sub(r"[^!-~]+", "_", flat.strip())
    flat = re.sub(r"[=&]", "-", flat)[:56]
    return flat if re.search(r"[A-Za-z0-9]", flat) else else_name


def unique(names: Iterable[str]) -> list[str]:
    """The same names, where one that stood already gets a number."""
    taken: set[str] = set()
    given = []
    for name in names:
        new, count = name, 1
        while new in taken:
            count += 1
            new = f"{name}_{count}"
        taken.add(new)
        given.append(new)
    return given


def listed(text: str) -> list[str]:
    """The names of a list: between commas where there are some, else between blanks; `..` is filled
    in."""
    if "," in text:
        pieces = [piece.strip().strip('"').strip() for piece in text.split(",")]
        return [name for piece in pieces if piece for name in filled(piece)]
    tokens = [
        quoted if quoted else bare
        for quoted, bare in re.findall(r'"([^"]*)"|([^\s"]+)', text.replace("..", " .. "))
    ]
    names: list[str] = []
    at = 0
    while at < len(tokens):
        if at + 2 < len(tokens) and tokens[at + 1] == "..":
            names += between(tokens[at], tokens[at + 2])
            at += 3
        else:
            names.append(tokens[at])
            at += 1
    for name in names:
        checked(name)
    return names


def sides(text: str) -> list[tuple[str, str]]:
    """The sides of a grid, as `day Mon .. Sun x shift early late`: the name of each and its
    members, which may be missing. None where the text is a list."""
    parts = [part.strip() for part in re.split(r"(?<!\s)\s+x\s+", text)]
    if len(parts) < 2 or any(part.endswith(",") or part.startswith(",") for part in parts):
        return []
    cut = (part.partition(" ") for part in parts)
    return [(name, members.strip()) for name, _, members in cut]


@dataclass(frozen=True)
class Heading:
    """A name in front of a range or of numbers, which reads like a heading of them."""

    name: str
    members: tuple[str, ...]  # `1`, `..` and `6`, or each number

    def way_out(self) -> str:
        """How to write what was meant, whichever it was."""
        ranged = ".." in self.members
        listed = ", ".join(
            [self.name, " ".join(self.members)] if ranged else [self.name, *self.members]
        )
        if all(re.fullmatch(r"\d+|\.\.", member) for member in self.members):
            named = (one if one == ".." else self.name + one for one in self.members)
            meant = f"Write `{' '.join(named)}`"
        else:
            meant = f"Leave it out, `{' '.join(self.members)}`"
        return f"{meant}; or, if it is one of the names, put commas: `{listed}`"


def heading(text: str) -> Heading | None:
    """The name that may be meant as a heading in a list: the first one, before nothing but one
    range or numbers."""
    if "," in text or '"' in text:
        return None
    first, *others = text.replace("..", " .. ").split() or [""]
    ranged = len(others) == 3 and others[1] == ".."
    counted = len(others) > 1 and all(other.isdigit() for other in others)
    if not (ranged or counted) or first.isdigit():
        return None
    return None if ranged and _of_a_kind(first, others[0]) else Heading(first, tuple(others))


def _of_a_kind(one: str, other: str) -> bool:
    """Whether two names may stand in one range: days, months, single letters, or a name with
    numbers behind it."""
    bare = [re.sub(r"\d+$", "", name) for name in (one, other)]
    return (
        any({one, other} <= set(sequence.split()) for sequence in SEQUENCES)
        or len(one) == len(other) == 1
        and other.isalpha()
        or bare[0] == bare[1] != other
    )


def filled(piece: str) -> list[str]:
    """One piece between commas: a name, or a range."""
    ends = [end.strip() for end in piece.split("..")]
    return [checked(name) for name in (between(*ends) if len(ends) == 2 else [piece])]


def checked(name: str) -> str:
    """The name itself; a fault where it can't be one."""
    if name == "..":
        raise Fault("`..` stands between two names, as in `Mon .. Sun`")
    for sign in '=,"':
        if sign in name:
            raise Fault(f"`{name}`: a name has no `{sign}` in it")
    return name


def between(first: str, last: str) -> list[str]:
    """What `first .. last` stands for."""
    for sequence in SEQUENCES:
        row = sequence.split()
        if first in row and last in row and row.index(first) <= row.index(last):
            return row[row.index(first) : row.index(last) + 1]
    one, other = (re.fullmatch(r"(.*?)(\d{1,6})", end) for end in (first, last))
    if one and other and one[1] == other[1] and int(one[2]) <= int(other[2]):
        numbers = range(int(one[2]), int(other[2]) + 1)
        width = len(one[2]) if one[2].startswith("0") else 1
        return [one[1] + str(number).zfill(width) for number in few(numbers, first, last)]
    if len(first) == len(last) == 1 and first.isalpha() and last.isalpha() and first <= last:
        letters = [chr(code) for code in few(range(ord(first), ord(last) + 1), first, last)]
        if all(letter.isalpha() and letter.isupper() == first.isupper() for letter in letters):
            return letters
    raise Fault(
        f"`{first} .. {last}` can't be filled in: write the names out, or count days, months, "
        "numbers or letters upwards"
    )


def few(numbers: range, first: str, last: str) -> range:
    """The numbers that stand for a range of names; a fault where they are more than any case has
    names."""
    if len(numbers) > MOST_FILLED:
        raise Fault(
            f"`{first} .. {last}` are {len(numbers)} names, and `..` fills in {MOST_FILLED} at "
            "most: a case has fewer"
        )
    return numbers


def told_apart(text: str, known: Sequence[str], what: str) -> list[str]:
    """Known names, which may have blanks, that stand one behind the other; the longest fits
    first."""
    tokens = text.replace(",", " ").replace('"', " ").split()
    longest = max((len(name.split()) for name in known), default=1)
    among = {" ".join(name.split()): name for name in known}
    found, at = [], 0
    while at < len(tokens):
        for length in range(min(longest, len(tokens) - at), 0, -1):
            name = " ".join(tokens[at : at + length])
            if name in among:
                found.append(among[name])
                at += length
                break
        else:
            rest = " ".join(tokens[at : at + longest])
            near = nearest(rest, known) or nearest(tokens[at], known)
            there = near or f"; there are {choices(list(known))}"
            raise Fault(f"no such {what}: {rest}{there}")
    return found
