"""What the keys w, r and s show, and how answers are said."""

from __future__ import annotations

from collections.abc import Sequence

from ..hints import sentences
from ..hints.sentences import Sentence
from ..sitting.answers import Odd, behind, given, listed, odd_ones
from ..sitting.asking import Asking
from ..sitting.items import Item, Kind, Some, Target
from ..sitting.session import Session
from .face import ON, Face, Sheet
from .goback import chosen, sure
from .letters import MORE, Letters, Listed

ODD = (
    "Other than most of their pattern. That may be right; if it isn't, an answer was a slip, or "
    "your words can't say it:"
)
MOST_ANSWERS = 15  # on one sheet; each of them has a letter


def why(asking: Asking) -> Sheet:
    """The rules that are at stake, a few at most."""
    stake = asking.at_stake()
    lines = [
        (
            "A yes says that none of these rules is needed; a no says that one of them is, or a "
            "rule that says more:"
        ),
        "",
    ]
    lines += [f"- {text}" for text in stake.texts] + ["- and others"] * stake.more
    assert asking.question is not None
    return Sheet(f"Why question {asking.question.number} is asked", tuple(lines))


def rules(session: Session, face: Face) -> int | None:
    """Shows the rules so far in sentences, and the odd ones; the place of an answer to go back to,
    or None."""
    learned = session.learned()
    found = sentences.grouped(session.vocabulary, learned, answers=session.answers)
    said = Some(
        tuple(Item(one.whole, Target(Kind.SENTENCE, place)) for place, one in enumerate(found))
    )
    odd = odd_ones(session, learned)
    targets = [*odd_targets(odd), *said.targets]
    letters = Letters(targets, (("o", "on"),) if targets else (ON,))
    while True:
        blocks: list[Listed] = [said if found else "None yet.", *odd_blocks(odd)]
        key = letters.put(face, "Rules so far", blocks)
        if isinstance(key, str):
            return None
        place: int | None = key.place
        if key.kind is Kind.SENTENCE:
            place = _behind(session, face, found[key.place])
        elif not sure(session, face, key.place):
            place = None
        if place is not None:
            return place


def _behind(session: Session, face: Face, said: Sentence) -> int | None:
    """Shows the answers behind a sentence; the place of one to go back to, or None."""
    some = listed(given(session, place) for place in behind(session, said.rules))
    letters = Letters(some.targets, (("o", "on"),))
    blocks: list[Listed] = [said.whole, ""]
    blocks.append(some if some.items else "No answer of yours is about these things alone.")
    return chosen(session, face, letters, "The answers behind it", blocks)[1]


def odd_targets(odd: Sequence[Odd]) -> list[Target]:
    """What the odd ones out lead to."""
    return [target for one in odd for target in listed(one.behind).targets]


def odd_blocks(odd: Sequence[Odd]) -> list[Listed]:
    """The odd ones out, and the answers behind them; nothing where there are none."""
    blocks: list[Listed] = ["", ODD] if odd else []
    for one in odd:
        blocks += [f"- {one.text}", listed(one.behind, inset=True)]
    return blocks


def answers(session: Session, face: Face) -> int | None:
    """Shows all answers that stand, the newest first; the place of one to go back to, or None."""
    places = list(reversed(range(len(session.answers))))
    firsts = range(0, len(places), MOST_ANSWERS)
    parts = [places[first : first + MOST_ANSWERS] for first in firsts] or [[]]
    earlier = ((MORE[0], "earlier ones"),) if len(parts) > 1 else ()
    count = f"{len(places)}, the newest first" if places else "none yet"
    shown = 0
    while True:
        some = listed(given(session, place, None) for place in parts[shown % len(parts)])
        letters = Letters(some.targets, (("o", "on"), *earlier) if places else (ON,))
        key, place = chosen(session, face, letters, f"All answers so far: {count}", (some,))
        if key != MORE[0]:
            return place
        shown += 1
