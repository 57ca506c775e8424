"""Requests that are too large: refused by a page as soon as that is known, and never kept.

By itself waitress answers such a request with a bare text, and closes the connection in front of
what is still sent, so that a browser may show an error of its own. Here the application answers as
it does everybody else, and what is sent meanwhile is thrown away for a while.
"""

from __future__ import annotations

import contextlib
import io
import socket
import time
from typing import TYPE_CHECKING

from flask import Flask, request
from waitress.channel import HTTPChannel  # type: ignore[import]
from waitress.parser import HTTPRequestParser  # type: ignore[import]
from waitress.task import ErrorTask, Task, WSGITask  # type: ignore[import]
from waitress.utilities import RequestEntityTooLarge as Larger  # type: ignore[import]
from werkzeug.exceptions import RequestEntityTooLarge

if TYPE_CHECKING:
    from _typeshed.wsgi import WSGIEnvironment

MOST_SENT = (
    4_000_000  # bytes of a form: a case has a million at most, and its letters may take three each
)
LARGER = "desk.larger"  # in a request's environment: its body is too large, and isn't there
THROWN_AWAY = 10.0  # seconds for which what is still sent is thrown away
AT_ONCE = 1 << 16  # bytes of it


class Refusal(WSGITask):  # type: ignore[misc]
    """Lets the application answer a request without its body, and ends the connection."""

    def __init__(self, channel: Channel, wanted: HTTPRequestParser) -> None:
        super().__init__(channel, wanted)
        self.close_on_finish = channel.refused = True

    def get_environment(self) -> WSGIEnvironment:
        """The request as the application sees it."""
        environ: WSGIEnvironment = super().get_environment()
        return {**environ, LARGER: True, "CONTENT_LENGTH": "0", "wsgi.input": io.BytesIO()}

    def build_response_header(self) -> bytes:
        """The head of the answer."""
        self.response_headers.append(("Connection", "close"))
        head: bytes = super().build_response_header()
        return head


class Channel(HTTPChannel):  # type: ignore[misc]
    """A connection that lets whoever sends too much read the answer."""

    refused = False  # whether its last request was too large
    until: float | None = None  # when it is closed at last

    @staticmethod
    def error_task_class(channel: Channel, wanted: HTTPRequestParser) -> Task:
        """How a request is answered that couldn't be read."""
        kind = Refusal if isinstance(wanted.error, Larger) else ErrorTask
        return kind(channel, wanted)

    def readable(self) -> bool:
        """Whether something that is sent is to be taken."""
        return self.until is not None or bool(super().readable())

    def writable(self) -> bool:
        """Whether there is something to send, or to end."""
        if self.until is not None:
            return time.monotonic() > self.until
        return bool(super().writable())

    def handle_read(self) -> None:
        """Takes what was sent."""
        if self.until is None:
            super().handle_read()
            return
        try:
            self.recv(AT_ONCE)  # which closes it where nothing more comes
        except OSError:
            self.handle_close()

    def handle_close(self) -> None:
        """Closes it: after a refusal once nothing more is sent, or it takes too long."""
        if self.refused and self.until is None:
            self.until = time.monotonic() + THROWN_AWAY
            with contextlib.suppress(OSError):
                self.socket.shutdown(socket.SHUT_WR)
                return
        super().handle_close()


def refuse_larger(app: Flask) -> None:
    """Has the application refuse what is too large, after it has looked who sends it."""

    def refused() -> None:
        if request.environ.get(LARGER):
            raise RequestEntityTooLarge("What was sent is too large. Nothing of it was kept.")

    app.before_request(refused)
