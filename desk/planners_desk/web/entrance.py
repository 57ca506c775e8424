"""The way in: a file that only this user may read leads a browser to a token, which works once."""

from __future__ import annotations

import contextlib
import html
import os
import secrets
import tempfile
import threading

from flask import Blueprint, Response, make_response, render_template, request, url_for
from werkzeug.exceptions import Forbidden

from .security import COOKIE, Secrets, same

PAGE = """<!DOCTYPE html>
<html lang="en"><head><meta charset="utf-8"><title>desk</title>
<meta name="referrer" content="no-referrer">
<meta http-equiv="refresh" content="0; url={url}"></head>
<body><p><a href="{url}">Open desk</a></p></body></html>
"""
USED = "This way in was used already, or belongs to a desk that has ended."


class Entrance:
    """The file, and the token that it holds; a context manager, which removes it at the end.

    Each token lets one browser in. The file then has another one, so that it can be opened again,
    and no address out of a history or a list of processes is worth anything.
    """

    def __init__(self, known: Secrets) -> None:
        self._known = known
        self._lock = threading.Lock()
        self._token = ""
        self._folder: tempfile.TemporaryDirectory[str] | None = None

    def __enter__(self) -> Entrance:
        place = os.environ.get("XDG_RUNTIME_DIR")
        usable = place is not None and os.path.isdir(place) and os.access(place, os.W_OK)
        self._folder = tempfile.TemporaryDirectory(
            prefix="desk-web-", dir=place if usable else None
        )  # of mode 700
        self._renew()
        return self

    def __exit__(self, *_: object) -> None:
        if self._folder is not None:
            with contextlib.suppress(OSError):
                self._folder.cleanup()

    @property
    def file(self) -> str:
        """The file that leads in."""
        assert self._folder is not None
        return os.path.join(self._folder.name, "desk.html")

    @property
    def address(self) -> str:
        """The address that lets one browser in."""
        return f"{self._known.origin}{self._known.path}/enter?token={self._token}"

    def _renew(self) -> None:
        """A new token in a new file, which is whole when it has its name."""
        self._token = secrets.token_urlsafe(32)
        new = self.file + ".new"
        with contextlib.suppress(FileNotFoundError):
            os.unlink(new)
        handle = os.open(new, os.O_WRONLY | os.O_CREAT | os.O_EXCL, 0o600)
        with os.fdopen(handle, "w", encoding="utf-8") as file:
            file.write(PAGE.format(url=html.escape(self.address)))
        os.replace(new, self.file)

    def takes(self, token: str) -> bool:
        """Whether a token lets in; it does so once."""
        with self._lock:
            if not self._token or not same(token, self._token):
                return False
            with contextlib.suppress(OSError):
                self._renew()
            return True

    def blueprint(self, first: str) -> Blueprint:
        """The page behind the token, which leads on to a case, or where none is named to all."""
        made = Blueprint("entrance", __name__)

        @made.get("/enter")
        def enter() -> Response:
            """Lets a browser in. The next page is asked for by this one, so that the cookie goes
            with it."""
            known = same(request.cookies.get(COOKIE, ""), self._known.key)
            if not known and not self.takes(request.args.get("token", "")):
                raise Forbidden(USED)
            page = url_for("cases.show", name=first) if first else url_for("cases.index")
            response = make_response(render_template("enter.html", first=page))
            response.set_cookie(
                COOKIE, self._known.key, path=self._known.path, httponly=True, samesite="Strict"
            )
            return response

        return made
