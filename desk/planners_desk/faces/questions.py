"""The questions of a sitting on a face of the terminal: their sheet, and what the keys do."""

from __future__ import annotations

from contextlib import AbstractContextManager

from ..case.model import Ending
from ..sitting.answers import Few
from ..sitting.asking import Asked, Asking
from . import beforehand, end, views
from .face import Block, Face, Sheet, patience

KEYS = (
    ("y", "yes"),
    ("n", "no"),
    ("b", "back"),
    ("w", "why"),
    ("r", "rules"),
    ("s", "answers"),
    ("q", "stop"),
    ("?", "help"),
)
PART = "Judge what is filled in, don't think of the rest."
WHOLE = "Everything is filled in. Is this all right?"
HELP = """A question shows a plan, or a part of one. Say whether what is filled in is \
all right, as far as it goes. Don't think of the rest: \
whether the empty places can be filled as well isn't asked.

y  yes, it is all right
n  no, it isn't, whatever stands in the empty places
   If it is wrong only because of something that your words can't say, as a count over all, \
say yes, and note it
b  back: takes your last answer back, and shows that question again. Pressed again, it takes \
the one before back as well, and what you \
said later counts again where it decides a question
w  why: which rules a yes rules out
r  rules so far, and what is odd about them; letters lead to the answers behind them, \
and back to one
s  all answers so far, and by letters back to any of them
q  stop. Nothing is lost, and the next `desk ask` goes on from here
?  this help

* stands at what has changed since the last question. Rules that you said beforehand \
answer for you where a question breaks one, which is \
always a no; how often they did since the last question stands below the question. A group of \
things is finished where nothing is open \
any more of what your words can say about it; often fewer questions come than can come at most."""


class Questions:
    """The questions of one sitting."""

    def __init__(self, asking: Asking, face: Face) -> None:
        self.asking, self.face = asking, face
        self.session = asking.session

    def run(self) -> Ending | None:
        """Asks until the program ends or the person stops; None where they stop in front of a
        contradiction."""
        asking = self.asking
        place: int | None = None
        if self.session.against():
            place = beforehand.way_out(self.session, self.face)
            if place is None:
                return None
        with self._patience():
            asking.start(place)
        while True:
            while asking.question is not None:
                self._one()
            assert asking.ending is not None
            place = end.shown(self.session, asking.ending, self.face)
            if place is None:
                return asking.ending
            with self._patience():
                asking.back_to(place)

    def _one(self) -> None:
        """Puts one question, until a key moves on from it."""
        asking = self.asking
        key = self.face.put(sheet(asking))
        asking.notes = []
        if key in ("y", "n"):
            with self._patience():
                asking.answer(key == "y")
        elif key == "b":
            with self._patience():
                asking.back()
        elif key == "q":
            asking.stop()
        elif key in ("r", "s"):
            show = views.rules if key == "r" else views.answers
            place = show(self.session, self.face)
            if place is not None:
                with self._patience():
                    asking.back_to(place)
        else:
            self.face.put(
                views.why(asking) if key == "w" else Sheet("Help", tuple(HELP.split("\n")))
            )

    def _patience(self) -> AbstractContextManager[None]:
        """Says so where the next question takes a while."""
        return patience(self.face, "looking for the next question ..")


def sheet(asking: Asking) -> Sheet:
    """A question as it is shown."""
    asked = asking.asked()
    head = f"{asked.title}: question {asked.number}"
    if asked.is_part:
        head += ", a part of the one before"
    ask = PART if asked.picture.part else WHOLE
    # what was taught is part of the body, so that it is read in a small window as well
    body: list[Block] = [asked.picture, *filter(None, [taught_text(asked.taught)])]
    notes = (" ".join(asked.notes),) if asked.notes else ()
    progress = asking.session.possible.progress
    return Sheet(head, tuple(body), legend(asked), (*notes, ask), (progress,), KEYS, frozenset("y"))


def taught_text(taught: Few) -> str:
    """What the last answers have taught, where they have."""
    if not taught.texts:
        return ""
    more = "; and more (r shows them)" if taught.more else ""
    return (
        f"Your answers have just taught: {'; '.join(taught.texts)}{more}. "
        "Is that so? If not, go back, or a word is missing."
    )


def legend(asked: Asked) -> str:
    """What the marks mean, where there are some."""
    out = asked.left_out
    left = f"{out} of the last question {'is' if out == 1 else 'are'} left out" if out else ""
    changed = "* has changed since the last question" if asked.changed else ""
    return "; ".join(filter(None, (changed, left)))
