"""The program of the repository in which desk lies, proved or without proof, and what is said
before a proof begins."""

from __future__ import annotations

import os
import re
import shutil
import subprocess
import sys

from ..case.model import Fault

DESK = os.path.realpath(os.path.join(os.path.dirname(__file__), "..", ".."))
TOP = os.path.dirname(DESK)
SCRIPT = os.path.join(TOP, "acquire")
UNPROVED = "ACQUIRE_UNPROVED"  # where it is set, the script takes a program without proof
# what it ends with, once it is built, where it is asked about a session that isn't there
NO_SESSION = 3


def is_there() -> bool:
    """Whether desk lies in a repository with the script that builds the program."""
    return os.path.isfile(SCRIPT) and os.access(SCRIPT, os.X_OK)


def take_unproved(named: str | None) -> None:
    """From now on the program without proof is taken; a fault where another one is named, or where
    there is no repository."""
    if named:
        raise Fault(
            f"--unproved takes the program of a repository, and here {named} is named: leave one of"
            " the two out"
        )
    if not is_there():
        raise Fault(
            "--unproved takes the program of a repository, and this desk lies in none: leave it "
            "out, or name a program by --acquire PROGRAM"
        )
    os.environ[UNPROVED] = "1"


def program() -> str:
    """Where the program is. The script is called once, which builds it where need be and tells on
    standard error how far it is."""
    unproved = bool(os.environ.get(UNPROVED))
    if not unproved:
        _tell_of_a_proof()
    called = subprocess.run(
        [SCRIPT, ":memory:", "show"],
        stdin=subprocess.DEVNULL,
        stdout=subprocess.DEVNULL,
        check=False,
    )
    if called.returncode != NO_SESSION:
        raise Fault(
            f"{SCRIPT} couldn't be built; the lines above say why. Another build is taken by "
            "--acquire PROGRAM or DESK_ACQUIRE"
        )
    built = os.path.join(
        TOP, "crates", "acquire", "out", "acquire-unproved" if unproved else "acquire"
    )
    return built if os.path.exists(built) else SCRIPT


def _tell_of_a_proof() -> None:
    """Says how long a proof takes, and how to do without, where the script would begin one: where
    the proved program isn't what the source would give now, and the tool that proves it is
    there."""
    quiet = subprocess.DEVNULL
    current = subprocess.run(
        [os.path.join(TOP, "tools", "proved.sh")],
        stdin=quiet,
        stdout=quiet,
        stderr=quiet,
        check=False,
    )
    if current.returncode == 0 or shutil.which("rt") is None:
        return
    with open(os.path.join(TOP, "tools", "shares"), encoding="utf-8") as shares:
        measured = dict(re.findall(r"^([A-Z_]+) ([0-9]+)$", shares.read(), re.MULTILINE))
    on_four, on_one = (int(measured[name]) // 60 for name in ("SECONDS", "OF_ONE"))
    print(
        (
            f"desk: the program is proved and built first, which takes up to {on_four} minutes on "
            f"four processors and {on_one} on one; `desk --unproved COMMAND ..` takes one without "
            "proof, built in some two minutes"
        ),
        file=sys.stderr,
        flush=True,
    )
