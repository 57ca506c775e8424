"""Which letters of a text may be shown, and how the others are told.

A case is mailed from one person to another, and a terminal does what some letters say: it changes
its title, moves its cursor, shows a line backwards. So what can't be seen has no place in a case,
and what comes from elsewhere is told by its numbers.
"""

from __future__ import annotations

import re
import unicodedata

# they can't be seen themselves, but have letters of Persian and Hindi, and pictures, join or
# stand apart
JOINERS = "\u200c\u200d"
MOST_SHOWN = 1000  # letters of a text from elsewhere


def lines_of(text: str) -> list[str]:
    """The lines of a text as an editor counts them."""
    return re.split("\r\n|\n|\r", text)


def composed(text: str) -> str:
    """The text with each letter and its accents as one, so that what looks the same is the same."""
    return unicodedata.normalize("NFC", text)


def bare(name: str) -> str:
    """A name without what can't be seen in it, by which two are compared."""
    return name.translate(dict.fromkeys(map(ord, JOINERS)))


def unseen(text: str) -> str | None:
    """Which letter of a line can't be seen, and what to do; None where all can."""
    place = next(
        (place for place, letter in enumerate(text) if _hidden(letter) and not _joins(text, place)),
        None,
    )
    if place is None:
        return None
    if text[place] in JOINERS:
        return (
            f"letter {place + 1} is {code(text[place])}, which stands between two letters or not at"
            " all: take it out"
        )
    return f"letter {place + 1} is {code(text[place])}, which can't be seen: take it out"


def shown(text: str) -> str:
    """A text from elsewhere as one line that a terminal only shows: letters that can't be seen by
    their numbers, and the middle of a long one left out."""
    seen = "".join(f"<{number(letter)}>" if _hidden(letter) else letter for letter in text)
    half = MOST_SHOWN // 2
    return seen if len(seen) <= MOST_SHOWN else f"{seen[:half]} .. {seen[-half:]}"


def number(letter: str) -> str:
    """`U+202E`."""
    return f"U+{ord(letter):04X}"


def code(letter: str) -> str:
    """`U+202E (RIGHT-TO-LEFT OVERRIDE)`, without the name where there is none."""
    name = unicodedata.name(letter, "")
    return f"{number(letter)} ({name})" if name else number(letter)


def _hidden(letter: str) -> bool:
    """Whether a letter shows nothing itself, but for blanks: it is of category C, or ends a line or
    a paragraph."""
    return letter != "\t" and not letter.isprintable() and unicodedata.category(letter) != "Zs"


def _joins(text: str, place: int) -> bool:
    """Whether a joiner stands between two letters, signs or pictures."""
    around = text[place - 1 : place] + text[place + 1 : place + 2]
    return (
        text[place] in JOINERS
        and len(around) == 2
        and all(unicodedata.category(one)[0] in "LMNS" for one in around)
    )
