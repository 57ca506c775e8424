"""Pieces of a page, in which every text is escaped unless it is a piece itself."""

from __future__ import annotations

import html

VOID = ("meta", "br")


class Html(str):
    """A piece of a page, as it stands there."""


def element(tag: str, /, *inside: str, **attributes: str | bool | None) -> Html:
    """An element; `class_` is its class and `http_equiv` its `http-equiv`, an attribute of `True`
    has no value, one of None or False isn't there."""
    words = [tag]
    for key, value in attributes.items():
        name = key.rstrip("_").replace("_", "-")
        if value is True:
            words.append(name)
        elif value not in (None, False):
            words.append(f'{name}="{html.escape(str(value))}"')
    head = f"<{' '.join(words)}>"
    return Html(head if tag in VOID else head + joined(*inside) + f"</{tag}>")


def joined(*inside: str) -> Html:
    """Pieces one after the other, the texts among them escaped."""
    return Html(
        "".join(piece if isinstance(piece, Html) else html.escape(piece) for piece in inside)
    )
