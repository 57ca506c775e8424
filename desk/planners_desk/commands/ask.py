"""`desk ask`: the questions of a session, one at a time, put to a person."""

from __future__ import annotations

import argparse
import importlib.util
import os
import signal
import sys
from types import FrameType

from ..case import casefile
from ..case.model import Ending, Fault
from ..faces import end, ways
from ..faces.face import Face, moving
from ..faces.plain import Lines
from ..faces.questions import Questions
from ..hints import trials
from ..program.talk import Clock, Program
from ..sitting.answers import contradicted
from ..sitting.asking import Asking
from ..sitting.session import Session
from . import streams

STATUS = {"converged": 0, "collapsed": 4, "undecided": 5, "suspended": 6}


def main(path: str, options: argparse.Namespace) -> int:
    """Puts the questions of a case; the status to end with."""
    case = casefile.read(path)
    streams.can_show(case)
    program = Program.found(options.acquire)
    before = {number: signal.signal(number, _hung_up) for number in (signal.SIGTERM, signal.SIGHUP)}
    face = face_for(options.plain)
    try:
        face.wait("opening the session; for a new one the best way of asking is looked for ..")
        clock = Clock(
            trials.SECONDS_AT_FIRST if options.seconds is None else options.seconds, moving(face)
        )
        with Session.opened(case, program, options.plan, options.budget, clock=clock) as session:
            try:
                ending = asked(session, face)
                face.close()
                end.print_last(session, ending, not face.stays)
                if session.against():
                    print(*ways.lines(contradicted(session)))
                sys.stdout.flush()
            except Exception as error:
                raise Fault(f"{streams.reason(error)}; {kept(session)}") from error
            return STATUS["suspended"] if ending is None else STATUS.get(ending.word, 1)
    except KeyboardInterrupt:
        return STATUS["suspended"]
    finally:
        face.close()
        for number, handler in before.items():
            signal.signal(number, handler)


def kept(session: Session) -> str:
    """How many answers are kept: those that the program itself has in the journal once it has
    ended."""
    given = len(session.answers)
    try:
        session.reload()
    except Fault:
        return f"what is kept stands in {session.journal}"
    stand = len(session.answers)
    return "all answers are kept" if stand >= given else f"{stand} of {given} answers are kept"


def _hung_up(number: int, _: FrameType | None) -> None:
    """The terminal is put back before the program ends."""
    raise SystemExit(128 + number)


def asked(session: Session, face: Face) -> Ending | None:
    """One sitting; None where it was ended by Ctrl-C."""
    try:
        with session.sit() as sitting:
            return Questions(Asking(session, sitting), face).run()
    except KeyboardInterrupt:
        return None


def face_for(plain: bool) -> Face:
    """A screen where the terminal is one that can move its cursor, and else lines."""
    dumb = os.environ.get("TERM", "dumb") in ("dumb", "unknown", "")
    if plain or dumb or not (sys.stdin.isatty() and sys.stdout.isatty()):
        return Lines()
    if importlib.util.find_spec("rich") is None:
        raise Fault(
            "the library that draws the screen isn't installed: `apt-get install python3-rich`, or "
            "take --plain"
        )
    from ..faces import screen  # needs that library

    return screen.opened()
