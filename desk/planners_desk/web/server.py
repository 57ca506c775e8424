"""The server itself: its address, its sittings, and how it ends."""

from __future__ import annotations

import contextlib
import logging
import os
import subprocess
import sys

from waitress.server import create_server  # type: ignore[import]

from ..case.model import Fault
from ..program.talk import Program
from . import opening
from .app import application
from .entrance import Entrance
from .folder import Folder
from .forecast import Forecasts
from .refusing import MOST_SENT, Channel
from .security import Below, Secrets
from .sheets import Sheet
from .sittings import Owner, Sittings

LOOPBACK = "127.0.0.1"
THREADS = 8  # that serve requests
LIBRARIES = ("waitress", "waitress.queue", "werkzeug", "flask.app", "planners_desk.web.app")


def serve(place: str, port: int, browser: bool, program: Program, budget: int | None) -> None:
    """Serves the cases of a folder until a signal or Ctrl-C."""
    folder = Folder(place)

    def work(path: str, owner: Owner) -> Sheet:
        """A sitting in front of a case."""
        return opening.sitting(path, owner, program, budget)

    quiet()
    known, sittings, forecasts = Secrets(), Sittings(work), Forecasts(program)
    entrance = Entrance(known)
    app = application(known, folder, sittings, entrance)
    app.extensions["desk_program"], app.extensions["desk_forecasts"] = program, forecasts
    try:
        server = create_server(
            Below(app, known.path),
            host=LOOPBACK,
            port=port,
            threads=THREADS,
            max_request_body_size=MOST_SENT + 1,  # from which on it is too large
            ident=None,
            clear_untrusted_proxy_headers=True,
        )
    except OSError as error:
        raise Fault(
            f"port {port} of {LOOPBACK}: {error.strerror}; take another one, or leave --port out"
        ) from None
    server.channel_class = Channel
    known.host = f"{LOOPBACK}:{server.effective_port}"
    with entrance:
        print(
            f"desk: the cases of {folder.path} are shown on a page, "
            "and nobody else on this machine can see it.\n"
            f"desk: this file leads there: {entrance.file}\n"
            f"desk: and so does this address, once: {entrance.address}\n"
            "desk: Ctrl-C ends it; all answers are kept",
            flush=True,
        )
        if browser:
            opened(entrance.file)
        try:
            server.run()
        finally:
            forecasts.close()
            sittings.close()
            with contextlib.suppress(OSError):
                server.close()


def opened(file: str) -> None:
    """Opens a browser, where there is a screen. What it prints isn't ours, and the token is in the
    file, not among its words."""
    if sys.platform.startswith("linux") and not (
        os.environ.get("DISPLAY") or os.environ.get("WAYLAND_DISPLAY") or os.environ.get("BROWSER")
    ):
        print("desk: no screen is known here, so no browser was opened", flush=True)
        return
    code = "import sys, webbrowser; webbrowser.open(sys.argv[1])"
    subprocess.Popen(
        [sys.executable, "-c", code, f"file://{file}"],
        stdin=subprocess.DEVNULL,
        stdout=subprocess.DEVNULL,
        stderr=subprocess.DEVNULL,
        start_new_session=True,
    )


def quiet() -> None:
    """Nothing of the libraries' own notes comes to the terminal."""
    for name in LIBRARIES:
        logger = logging.getLogger(name)
        logger.handlers = [logging.NullHandler()]
        logger.propagate = False
