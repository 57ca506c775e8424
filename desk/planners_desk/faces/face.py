"""What is shown at once, and the two ways to show it: on a screen that is drawn anew (`screen.py`)
and in lines (`plain.py`)."""

from __future__ import annotations

import contextlib
import threading
from collections.abc import Callable, Iterator
from dataclasses import dataclass, field
from typing import Protocol

from ..case.picture import Picture

Block = str | Picture

ON = ("", "on")  # any key goes on
PATIENCE = 0.3  # seconds until it is said that something takes a while


@dataclass(frozen=True)
class Sheet:
    """A head, blocks of text and pictures, lines below them, and what the keys do."""

    head: str
    blocks: tuple[Block, ...]
    legend: str = ""  # what marks in a picture mean, where it is drawn
    under: tuple[str, ...] = ()  # right below the blocks, on each page
    foot: tuple[str, ...] = ()  # at the bottom
    keys: tuple[tuple[str, str], ...] = (ON,)  # a key and what it does
    whole: frozenset[str] = field(
        default_factory=frozenset
    )  # keys that count only after all pages were shown


def keys_text(keys: tuple[tuple[str, str], ...], explained: int | None = None) -> list[str]:
    """What the keys do; those that do one thing together, as `a c d go back to it`. Only so many
    are explained, if need be."""
    said: dict[str, list[str]] = {}
    for key, does in keys:
        said.setdefault(does, []).append(key)
    return [
        " ".join(some) + (f" {does}" if explained is None or place < explained else "")
        for place, (does, some) in enumerate(said.items())
    ]


class Face(Protocol):
    """Where sheets are shown and keys come from."""

    stays: bool  # whether what was shown stays in the terminal after `close`

    def put(self, sheet: Sheet) -> str:
        """Shows a sheet, and waits for one of its keys; `q` where nothing more can come."""

    def wait(self, text: str) -> None:
        """Says that something takes a while."""

    def close(self) -> None:
        """Leaves the terminal as it was; what is printed from now on stays."""


def moving(face: Face) -> Callable[[str], None]:
    """What shows how far something is that takes a while; nothing where each line stays, and
    would be read out."""
    return (lambda _: None) if face.stays else face.wait


@contextlib.contextmanager
def patience(face: Face, text: str) -> Iterator[None]:
    """Says that something takes a while, where it does."""
    timer = threading.Timer(PATIENCE, face.wait, (text,))
    timer.start()
    try:
        yield
    finally:
        timer.cancel()
        timer.join()
