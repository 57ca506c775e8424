"""Who may: no page but desk's own, no other name for this machine, no other user of it.

A browser comes in once by a token, and is known by a cookie from then on. The cookie is sent to
paths below this server's own alone, which nobody can guess: cookies don't tell ports of a machine
apart, so that another user's server on it would get one that is sent everywhere.
"""

from __future__ import annotations

import secrets
from collections.abc import Iterable
from dataclasses import dataclass, field
from typing import TYPE_CHECKING

from flask import Flask, Response, request
from werkzeug.exceptions import Forbidden, HTTPException, NotFound

if TYPE_CHECKING:
    from _typeshed.wsgi import StartResponse, WSGIApplication, WSGIEnvironment

COOKIE = "desk"
ENTER = "entrance.enter"  # the one page that needs no cookie
OUTSIDE = "desk.outside"  # in a request's environment: its path isn't below the server's own
POLICY = (
    "default-src 'none'; script-src 'self'; style-src 'self'; img-src 'self'; connect-src 'self'; "
    "form-action 'self'; base-uri 'none'; frame-ancestors 'none'"
)
HEADERS = {
    "Content-Security-Policy": POLICY,
    "X-Content-Type-Options": "nosniff",
    "X-Frame-Options": "DENY",
    "Referrer-Policy": "same-origin",  # else browsers send `Origin: null` for our own forms
    "Cross-Origin-Opener-Policy": "same-origin",
    "Cross-Origin-Resource-Policy": "same-origin",
    "Cache-Control": "no-store",
}


class Misdirected(HTTPException):
    """A request for another name than this server's."""

    code = 421
    name = "Misdirected Request"


@dataclass
class Secrets:
    """What only who may come in knows: the path of this server, and what a known browser sends."""

    host: str = ""  # and port, as browsers name it; set once the port is known
    path: str = field(default_factory=lambda: "/" + secrets.token_urlsafe(16))
    key: str = field(default_factory=lambda: secrets.token_urlsafe(32))

    @property
    def origin(self) -> str:
        """What browsers name as the origin of our pages."""
        return f"http://{self.host}"


def same(given: str, due: str) -> bool:
    """Whether two texts are the same, in a time that doesn't tell how much of them is."""
    return secrets.compare_digest(given.encode("utf-8", "surrogateescape"), due.encode())


class Below:
    """Passes requests below a path on, without it; of all others that they are outside."""

    def __init__(self, inner: WSGIApplication, path: str) -> None:
        self._inner, self._path = inner, path

    def __call__(self, environ: WSGIEnvironment, start: StartResponse) -> Iterable[bytes]:
        """One request."""
        head, rest = (
            environ["PATH_INFO"][: len(self._path)],
            environ["PATH_INFO"][len(self._path) :],
        )
        environ[OUTSIDE] = not (same(head, self._path) and rest.startswith("/"))
        if not environ[OUTSIDE]:
            environ["SCRIPT_NAME"], environ["PATH_INFO"] = self._path, rest
        return self._inner(environ, start)


def guard(app: Flask, known: Secrets) -> None:
    """Puts the guard before all pages of the application, which is called through `Below`."""
    app.before_request(lambda: checked(known))
    app.after_request(with_headers)


def checked(known: Secrets) -> None:
    """Refuses a request that mustn't come in, by an error that has a page."""
    if request.headers.get("Host") != known.host:
        raise Misdirected(f"This is desk at {known.origin}, and it answers to no other name.")
    if request.environ[OUTSIDE]:
        raise NotFound
    site = request.headers.get("Sec-Fetch-Site", "same-origin")
    if request.endpoint == ENTER:
        return
    if not same(request.cookies.get(COOKIE, ""), known.key):
        raise Forbidden("This browser isn't known to desk, or no longer.")
    if request.method not in ("GET", "HEAD"):
        if request.headers.get("Origin") != known.origin or site != "same-origin":
            raise Forbidden("Another page than desk's own has sent this. Nothing was changed.")
    elif site not in ("same-origin", "none"):
        raise Forbidden("Another page than desk's own leads here.")


def with_headers(response: Response) -> Response:
    """What a browser may do with a page: nothing but what desk itself puts into it."""
    for name, value in HEADERS.items():
        response.headers.setdefault(name, value)
    return response
