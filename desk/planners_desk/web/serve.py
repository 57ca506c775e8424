"""`desk web`: starts the server on the loopback, and leads a browser to it."""

from __future__ import annotations

import argparse
import contextlib
import importlib.util
import os
import shutil
import signal
import subprocess
import sys
from collections.abc import Iterator
from types import FrameType
from typing import NoReturn

from ..case.model import Fault
from ..program.talk import Program

LIBRARIES = ("flask", "waitress")
PACKAGES = "python3-flask python3-waitress"
ANOTHER = "DESK_WEB_PYTHON"  # set where this Python was taken since another one lacks the libraries


def main(options: argparse.Namespace) -> int:
    """Serves until it is ended."""
    libraries()
    # what follows needs them
    from .server import serve

    program = Program.found(options.acquire)
    with ended_by_signals():
        serve(options.place, options.port, not options.no_browser, program, options.budget)
    return 0


def libraries() -> None:
    """Sees to it that the libraries are there: goes on with another Python that has them, or says
    what to install."""
    if all(importlib.util.find_spec(name) is not None for name in LIBRARIES):
        return
    if not os.environ.get(ANOTHER):
        for python in dict.fromkeys(filter(None, ("/usr/bin/python3", shutil.which("python3")))):
            if has_libraries(python):
                go_on_with(python)
    raise Fault(f"the libraries that serve pages aren't installed: `apt-get install {PACKAGES}`")


def has_libraries(python: str) -> bool:
    """Whether another Python has them."""
    words = [python, "-c", f"import {', '.join(LIBRARIES)}"]
    try:
        return subprocess.run(words, capture_output=True, check=False).returncode == 0
    except OSError:
        return False


def go_on_with(python: str) -> NoReturn:
    """Begins the same command anew by another Python, in place of this one."""
    os.environ[ANOTHER] = python
    sys.stdout.flush()
    package = os.path.dirname(os.path.dirname(os.path.realpath(__file__)))
    start = (
        f"import sys; sys.path.insert(0, {os.path.dirname(package)!r}); "
        "from planners_desk.__main__ import main; sys.exit(main())"
    )
    os.execv(python, [python, "-c", start, *sys.argv[1:]])


@contextlib.contextmanager
def ended_by_signals() -> Iterator[None]:
    """A signal that ends the server lets it put all sessions down."""

    def ended(number: int, _: FrameType | None) -> None:
        raise SystemExit(128 + number)

    before = {number: signal.signal(number, ended) for number in (signal.SIGTERM, signal.SIGHUP)}
    try:
        yield
    finally:
        for number, handler in before.items():
            signal.signal(number, handler)
