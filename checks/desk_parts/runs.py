"""Sessions over real files and pipes: stopped and gone on with, taken back, locked, killed, changed. No answer that was
acknowledged is lost, and no process is left behind."""

from __future__ import annotations

import fcntl
import os
import random
import re
import shutil
import signal
import subprocess
import sys
import tempfile
from collections.abc import Callable

from planners_desk.case import casefile
from planners_desk.faces import ways
import drawn
from planners_desk.case.model import Answer, Fault, Values
from planners_desk.sitting.session import Session, journal_of
from planners_desk.program.talk import Program

CASE = """title: runs
things: day Mon Tue Wed x shift early late
values: Ann Ben Cas
ask: same day, late to next day early, next day
words: different, before
"""
PLANTED = [
    ("sitting/lock.py", "fcntl.flock(file, fcntl.LOCK_EX | fcntl.LOCK_NB)", "pass"),
    ("sitting/session.py", '            self._run.say("back")\n            if not self._next():', '            self._run.say("back")\n            self._run.say("back")\n            if not self._next():'),
    ("sitting/kept.py", '("its values are others", before.values, now.values)', '("its values are others", 0, 0)'),
    # a line that contradicts an answer is taken into the session's text, so that it can't be taken out again
    ("sitting/session.py", "if began != self.case.text and not self.against():", "if began != self.case.text:"),
    # an empty journal stays behind
    ("sitting/lock.py", "    if os.fstat(lock).st_size == 0 and _is_there(lock, journal):", "    if False:"),
    # what was moved away is worked on
    ("sitting/lock.py", "            if _is_there(file, journal):\n                return file\n", "            return file\n"),
    # a line that is gone doesn't change a session
    ("sitting/kept.py", "if any((rule.word.text, rule.things) not in said for rule in before.always):", "if False:"),
    # one byte more is cut off than is damaged
    ("sitting/session.py", "place, file = int(damaged[1]), shlex.quote(journal)", "place, file = int(damaged[1]) - 1, shlex.quote(journal)"),
]


def truth(values: Values) -> bool:
    """Neighbouring shifts differ."""
    return all(values[thing] != values[thing + 1] for thing in values if thing + 1 in values)


def sat(session: Session, until: int = 10**6) -> list[tuple[Values, bool]]:
    """Answers so many questions; the answers that stand then."""
    with session.sit() as sitting:
        sitting.advance()
        while sitting.question is not None and until > 0:
            sitting.answer(truth(sitting.question.values))
            until -= 1
            sitting.advance()
        sitting.stop()
    return plain(session.answers)


def plain(answers: list[Answer]) -> list[tuple[Values, bool]]:
    """Answers without their marks."""
    return [(answer.question.values, answer.yes) for answer in answers]


def fresh(folder: str, text: str = CASE) -> str:
    """A case of its own in a folder."""
    path = os.path.join(folder, f"{len(os.listdir(folder))}.case")
    with open(path, "w", encoding="utf-8") as file:
        file.write(text)
    return path


def stopped(program: Program, folder: str) -> list[str]:
    """Stopped anywhere, and gone on with: as if it had been one sitting."""
    faults = []
    for plan in ("scopes", "quacq", "multi"):
        with Session.opened(casefile.read(fresh(folder)), program, plan) as session:
            whole = sat(session)
        draw, path, last = random.Random(plan), fresh(folder), []
        while len(last) < len(whole):
            with Session.opened(casefile.read(path), program, plan) as session:
                if plain(session.answers) != last:
                    faults.append(f"{plan}: {len(last)} answers were given, and {len(session.answers)} stand")
                last = sat(session, draw.randint(1, 5))
        if last != whole:
            faults.append(f"{plan}: in several sittings other answers stand than in one")
    return faults


def taken_back(program: Program, folder: str) -> list[str]:
    """Back shows the question again, and leaves the counts as they were."""
    faults = []
    with Session.opened(casefile.read(fresh(folder)), program, "multi") as session, session.sit() as sitting:
        sitting.advance()
        if sitting.back():
            faults.append("back at the first question takes something back")
        for _ in range(6):
            question, before = sitting.question, (session.possible.most, session.possible.settled)
            sitting.answer(not truth(question.values))
            sitting.advance()
            if not sitting.back() or sitting.question != question:
                faults.append(f"back shows {sitting.question} again and not {question}")
            if (session.possible.most, session.possible.settled) != before:
                faults.append("back leaves other counts")
            sitting.answer(truth(question.values))
            sitting.advance()
        while sitting.question is not None:
            sitting.answer(truth(sitting.question.values))
            sitting.advance()
        count = len(session.answers)
        if sitting.ending is None or sitting.ending.word != "converged" or not sitting.back() or len(session.answers) != count - 1:
            faults.append("back after the end doesn't take the last answer back")
    return faults


def killed(program: Program, folder: str) -> list[str]:
    """The program is killed between an answer and the next question: the sitting says so, and all acknowledged answers stand."""
    faults = []
    for count in range(1, 7):
        path = fresh(folder)
        with Session.opened(casefile.read(path), program, "quacq") as session, session.sit() as sitting:
            sitting.advance()
            for _ in range(count):
                acknowledged = plain(session.answers)
                sitting.answer(truth(sitting.question.values))
                if _ < count - 1:
                    sitting.advance()
            os.kill(sitting._run._process.pid, signal.SIGKILL)
            given = plain(session.answers)
            sitting.advance()
            if sitting.question is not None:        # the next question was on its way already
                acknowledged = given
                sitting.answer(truth(sitting.question.values))
                given = plain(session.answers)
                sitting.advance()
            if sitting.ending is None or sitting.ending.word != "failed":
                faults.append(f"a killed program ends as {sitting.ending}")
        with Session.opened(casefile.read(path), program) as session:
            stand = plain(session.answers)
        if stand not in (acknowledged, given):
            faults.append(f"after a kill {len(stand)} answers stand; {len(acknowledged)} were acknowledged, and {len(given)} given")
    return faults


def locked(program: Program, folder: str) -> list[str]:
    """A second desk is kept off, also from another process, as long as the first or its program lives."""
    path, faults = fresh(folder), []
    look = f"import sys; sys.path.insert(0, {drawn.DESK!r}); from planners_desk.case import casefile\n" \
           "from planners_desk.program import talk\nfrom planners_desk.sitting import session\n" \
           f"session.Session.opened(casefile.read({path!r}), talk.Program({program.path!r}), 'scopes')"
    def second() -> str:
        return subprocess.run([sys.executable, "-c", look], capture_output=True, text=True, check=False).stderr
    with Session.opened(casefile.read(path), program, "scopes") as session, session.sit() as sitting:
        sitting.advance()
        if "another desk works on it" not in second():
            faults.append(f"a second desk isn't kept off: {second()[-200:]}")
        session.close()
        if "another desk works on it" not in second():
            faults.append("a second desk comes in as long as the first one's program lives")
    if second():
        faults.append(f"the lock stays behind: {second()[-200:]}")
    return faults


def changed(program: Program, folder: str) -> list[str]:
    """A changed case under a session is refused with the reason; other words for the same thing aren't a change."""
    path, faults = fresh(folder, CASE + "always: different on same day\n"), []
    with Session.opened(casefile.read(path), program, "scopes") as session:
        sat(session, 3)
    def opened(change: Callable[[str], str]) -> str:
        with open(path, "w", encoding="utf-8") as file:
            file.write(change(CASE + "always: different on same day\n"))
        try:
            with Session.opened(casefile.read(path), program):
                return ""
        except Fault as fault:
            return "; ".join(ways.lines(fault))
    for said, change in (
            ("its values are others", lambda text: text.replace("Ann Ben", "Ben Ann")),
            ("its values are others", lambda text: text.replace("Ann", "Anna")),
            ("its things are others", lambda text: text.replace("early late", "late early").replace("late to next day early", "early to next day late")),
            ("its words are others", lambda text: text.replace("before", "after")),
            ("other groups are asked about", lambda text: text.replace(", next day", "")),
            ("a rule that was said beforehand is gone", lambda text: text.replace("always: different on same day", "")),
            ("has plan scopes", lambda text: text + "plan: multi\n"),
            ("", lambda text: text.replace("title: runs", "title: other  # a comment")),
            ("", lambda text: text + "always: different on next day\n")):
        told = opened(change)
        if (said not in told) if said else told:
            faults.append(f"a case that changed is answered by {told!r}, and not for: {said}")
        if said and said != "has plan scopes" and "desk carry" not in told:
            faults.append(f"{told!r} doesn't name the way on")
    return faults


def moved(program: Program, folder: str) -> list[str]:
    """A journal that another desk moves away while this one opens it: the one that is there then is locked, not the one that was."""
    path = fresh(folder)
    with Session.opened(casefile.read(path), program, "scopes") as session:
        answers = sat(session, 3)
    really, calls = fcntl.flock, []
    def meanwhile(file: int, how: int) -> None:
        calls.append(file)
        if len(calls) == 1:
            shutil.copy(journal_of(path), path + ".copy")
            os.replace(path + ".copy", journal_of(path))
        really(file, how)
    fcntl.flock = meanwhile
    try:
        with Session.opened(casefile.read(path), program) as session:
            there = os.path.samestat(os.fstat(session._lock), os.stat(journal_of(path)))
            stand = plain(session.answers)
    finally:
        fcntl.flock = really
    return [] if there and stand == answers else ["a journal is locked that has another name now"]


def damaged(program: Program, folder: str) -> list[str]:
    """Files that are no journal, no session or may not be written are told, and stay as they were."""
    faults = []
    for content in (b"something else that is long enough", b"QUACQJ1\n\x01S\x00\x00\x00\x05\x01{}"):
        path = fresh(folder)
        with open(journal_of(path), "wb") as file:
            file.write(content)
        try:
            with Session.opened(casefile.read(path), program, "scopes"):
                faults.append(f"{content!r} is taken for a session")
        except Fault as fault:
            if "refused journal" not in str(fault):
                faults.append(f"of {content!r} it says {fault}")
        with open(journal_of(path), "rb") as file:
            if file.read() != content:
                faults.append(f"{content!r} was changed")
    path = fresh(folder)
    with open(journal_of(path), "wb"):
        pass
    try:
        with Session.opened(casefile.read(path), program, make=False):
            faults.append("a session is there that nobody began")
    except Fault as fault:
        if "has no session yet" not in str(fault) or os.path.exists(journal_of(path)):
            faults.append(f"of no session it says {fault}")
    return faults


def mended(program: Program, folder: str) -> list[str]:
    """A journal that was cut off: what is told to do about it is done by a shell, and keeps all answers but the last."""
    path = fresh(folder)
    with Session.opened(casefile.read(path), program, "scopes") as session:
        answers = sat(session, 4)
    os.truncate(journal_of(path), os.path.getsize(journal_of(path)) - 2)
    try:
        with Session.opened(casefile.read(path), program):
            return ["a journal that was cut off is taken"]
    except Fault as fault:
        told = re.search(r"`(cp .*)`", str(fault))
    if told is None:
        return ["nothing is told to do about a journal that was cut off"]
    subprocess.run(["sh", "-c", told[1]], check=True)
    with Session.opened(casefile.read(path), program) as session:
        return [] if plain(session.answers) == answers[:-1] else [f"of {len(answers)} answers {len(session.answers)} are kept"]


def contradicted(program: Program, folder: str) -> list[str]:
    """An `always` line that says otherwise than an answer is told as long as it stands; taken out, all is as it was; where the
    person goes back, the line answers, and the later answers are given again as far as it lets them."""
    path, line = fresh(folder), "always: different on Mon early - Mon late\n"
    with Session.opened(casefile.read(path), program, "scopes") as session, session.sit() as sitting:
        sitting.advance()
        for yes in (True, False, False, True):      # the first is about Mon early and Mon late, with the same value
            sitting.answer(yes)
            sitting.advance()
        before = plain(session.answers)
    for text, wanted in ((CASE + line, [0]), (CASE, []), (CASE + line, [0]), (CASE + line, [0])):
        with open(path, "w", encoding="utf-8") as file:
            file.write(text)
        with Session.opened(casefile.read(path), program) as session:
            if [place for place, _ in session.against()] != wanted or plain(session.answers) != before:
                return [f"of {text!r} it tells {session.against()}"]
    with Session.opened(casefile.read(path), program) as session, session.sit() as sitting:
        sitting.back_to(0)
        sitting.advance()
        now = plain(session.answers)
        if now[0] != (before[0][0], False) or session.against() or session.answers[0].said is None:
            return [f"after going back {now} stands"]
    with Session.opened(casefile.read(path), program) as session:
        return [] if plain(session.answers) == now and not session.against() else [f"on another day {plain(session.answers)} stands and not {now}"]


def run(program: str) -> list[str]:
    """Faults of all these sessions."""
    faults: list[str] = []
    with tempfile.TemporaryDirectory() as folder:
        for part in (stopped, taken_back, killed, locked, moved, changed, contradicted, damaged, mended):
            faults += [f"{part.__name__}: {fault}" for fault in part(Program(program), folder)]
    try:
        os.waitpid(-1, os.WNOHANG)
        faults.append("a process is left behind")
    except ChildProcessError:
        pass
    print("runs: sessions stopped, taken back, killed, locked, changed, contradicted and damaged")
    return faults
