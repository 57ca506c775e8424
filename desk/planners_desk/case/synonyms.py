"""What people write in place of a form that desk knows, by its meaning: looked at before the
nearest form by letters."""

from __future__ import annotations

import re
from collections.abc import Callable, Sequence

THE_SAME = r"(?:(?:at|in|on|of|with) )?(?:the |one |a )?same"
DIGITS = {"1": "one", "2": "two", "3": "three", "4": "four"}

# what somebody may write for a word of the catalogue, and that word; a form that the case can't
# have is passed over
OF_WORDS = (
    (rf"(?:not|never|no) {THE_SAME} (.+)", r"different \1"),
    (r"(?:not|never|no) (?:at|in|on) one (.+)", r"different \1"),
    (rf"{THE_SAME} (.+)", r"same \1"),
    (r"(?:at|in|on) (?:a )?different (.+?)s?", r"different \1"),
    (r"sooner (.+)", r"earlier \1"),
    (
        rf"(?:not|never|no|no two) (?:{THE_SAME}|equal|identical|alike|together)|unequal|distinct"
        r"|unlike|apart|kept apart|separate|separated"
        r"|differ|all different|each different|don't go together",
        "different",
    ),
    (rf"{THE_SAME}|equal|equals|identical|alike|together", "same"),
    (r"earlier|earlier than|sooner|sooner than|comes before|goes before|precedes|first", "before"),
    (r"later|later than|comes after|goes after|follows", "after"),
    (r"(?:directly|immediately|just|exactly) (before|after)", r"right \1"),
    (
        r"(?:not|never|no) (?:adjacent|beside|neighbours|neighbors|side by side|next"
        r"|next to each other)",
        "not next to",
    ),
    (r"adjacent|beside|neighbours|neighbors|side by side|next|next to each other", "next to"),
    (r"(?:no more than|not more than|max|maximum|within) (\d+)(?: apart)?", r"at most \1 apart"),
    (
        r"(?:no less than|not less than|no fewer than|min|minimum) (\d+)(?: apart)?",
        r"at least \1 apart",
    ),
    (r"(\d+) or (?:more|further) apart", r"at least \1 apart"),
    (r"(\d+) or (?:less|fewer|nearer) apart", r"at most \1 apart"),
    (
        r"(?:no|not|no more than|not more than|max) (one|two|three) of (three|four) (.+)",
        r"at most \1 of \2 \3",
    ),
    (r"(.+) not more than once", r"not both \1"),
    (r"(?:never|not) (?:both|twice) (.+)|(?:at most|only) one (.+)", r"not both \1\2"),
    (r"(?:at least|either) one (.+)|one of (?:the two|both) (.+)", r"one of them \1\2"),
    (
        r"not (.+) (?:with|and|together with) (.+)|(.+) never (?:with|beside) (.+)"
        r"|no (.+) with (.+)",
        r"\1\3\5 not with \2\4\6",
    ),
    (r"(.+) and (.+) (?:not|never) together", r"\1 not with \2"),
    (r"(.+) (?:not|never) after (.+)", r"no \1 after \2"),
    (r"(.+) (?:means|needs|requires) (.+)|when (.+) then (.+)", r"if \1\3 then \2\4"),
    (r"in order|ascending|rising|increasing", "three in order"),
    (rf"not all {THE_SAME}( .+)?", r"not all three the same\1"),
    (r"(?:not before|from) (.+)", r"\1 or later"),
    (r"(?:not after|until|by) (.+)", r"\1 or earlier"),
    (r"(?:not|isn't|is not|can't be|without|no) (.+)", r"never \1"),
    (r"(?:always|is|must be|has to be) (.+)", r"only \1"),
)

# what somebody may write for a way to put things together
OF_PHRASES = (
    (
        r"everything|everyone|everybody|pairs|any two|each two|all two|every two|each pair"
        r"|every pair|any pair",
        "all",
    ),
    (r"triples|all three|each three|any three|every triple", "all triples"),
    (r"fours|all four|each four|any four", "all fours"),
    (r"every|single|singles|all single|each one|one by one|alone|each thing|every thing", "each"),
    (
        r"(?:per|in one|on one|at one|within one|within a|in a|on a|each|every|one"
        r"|(?:on|in|at|of) the same) (.+?)",
        r"same \1",
    ),
    (r"(?:neighbouring|neighboring|consecutive|adjacent|successive|following) (.+)", r"next \1"),
    (
        r"([234]) (?:consecutive|successive) (.+)"
        r"|([234]) (.+) (?:running|on end|one after the other)",
        r"\1\3 \2\4 in a row",
    ),
    (r"(.+) (?:with|and|to|vs|against|before|after|then|&|\+) (.+)", r"\1 - \2"),
)
# the word that says the same of two things the other way round
TURNED = {
    "before": "after",
    "after": "before",
    "right before": "right after",
    "right after": "right before",
    "not before": "not after",
    "not after": "not before",
}


def meant(text: str, forms: Sequence[tuple[str, str]], known: Callable[[str], bool]) -> str | None:
    """The form that somebody means who writes this: the first that is known; None where there is
    none."""
    for pattern, form in forms:
        found = re.fullmatch(pattern, text, re.IGNORECASE)
        if found:
            made = " ".join(found.expand(form).split())
            if known(made):
                return made
    return None


def spelled(text: str) -> str:
    """The same with the counts of `at most 2 of 3` in letters, as the catalogue has them."""
    return re.sub(
        r"\b([1-4]) of (?:([34])|(three|four|them))\b",
        lambda m: f"{DIGITS[m[1]]} of {DIGITS[m[2]] if m[2] else m[3]}",
        text,
    )


def about(
    text: str, things: Sequence[str], word_of: Callable[[str], str | None]
) -> tuple[str, str, str] | None:
    """`A before B` or `A and B differ` as the word and the two things in the order of the case;
    None where it isn't that."""
    by_length = sorted(things, key=len, reverse=True)
    first = next((name for name in by_length if text.startswith(name + " ")), "")
    rest = text.removeprefix(first + " ")
    last = next((name for name in by_length if rest.endswith(" " + name)), "")
    middle = rest.removesuffix(" " + last)
    if not last:
        rest = re.sub(r"^(?:and|&) ", "", rest)
        last = next((name for name in by_length if rest.startswith(name + " ")), "")
        middle = re.sub(r"^(?:are|is|have|has) ", "", rest.removeprefix(last + " "))
    word = word_of(middle) if first and last and first != last else None
    if word is None:
        return None
    if things.index(first) < things.index(last):
        return word, first, last
    turned = TURNED.get(
        word,
        re.sub(r"^(earlier|later) ", lambda m: "later " if m[1] == "earlier" else "earlier ", word),
    )
    return turned, last, first


def hint(form: str) -> str:
    """How a form is proposed; names.nearest does so with one that is near by letters."""
    return f"; you may mean `{form}`"
