"""How long desk takes from a key to the next question, beside the program's own time: 100 exams, 4,950 groups, with the question
drawn. Processor time of desk alone, so that other work on the machine counts little.

And how long `desk check` and the first `desk ask` take where exams are put into 30 slots, each two asked about: processor time
of desk and of all that it starts, which is never more than what a quiet machine takes by the clock.
"""

from __future__ import annotations

import os
import resource
import subprocess
import tempfile
import time

from planners_desk.case import casefile
from planners_desk.faces import drawing
import drawn
from planners_desk.case.model import Values
from planners_desk.sitting.session import Session
from planners_desk.program.talk import Program

LIMIT = 0.050       # seconds, of the middle key; a key that changes all 4,950 groups at once may take three times as long
SOME = 60           # questions
FOR_CHECK = 40.0    # seconds of processor for `desk check` of the largest case, twice what a quiet machine may take (20):
FOR_FIRST = 10.0    # where others use the processor too, the same work costs more; and until its first question (5)
NO_END = 180        # seconds by the clock after which a call counts as one without an end, also on a busy machine
PLANTED = [
    ("hints/trials.py", "SECONDS = 10.0 ", "SECONDS = 60.0 "),
    ("hints/trials.py", "SECONDS_AT_FIRST = 3.0 ", "SECONDS_AT_FIRST = 40.0 "),
    ("sitting/outlook.py", "reply = program.call([made, *call], given, clock)", "reply = program.call([made, *call], given, Clock(60))"),
    ("hints/trials.py", "if words.lifted or any(one.late for one in some):", "if words.lifted:"),
]
EXAMS = f"title: Exams\nthings: {' '.join(f'exam{k}' for k in range(100))}\nvalues: 1 .. 15\nask: all\nwords: different, at least 2 apart, before\n"


def slots(count: int) -> str:
    """So many exams in 30 slots of a week, each two of them asked about."""
    return (f"title: Exams\nthings: {' '.join(f'exam{k}' for k in range(1, count + 1))}\nvalues: day Mon .. Fri x hour 8 .. 13\n"
            "ask: all\nwords: different, different day, next to\n")


def truth(values: Values) -> bool:
    """Exams whose numbers differ by 7 are on different days."""
    return all(values[thing] != values[thing + 7] for thing in values if thing + 7 in values)


def keys(program: Program, folder: str, plan: str) -> tuple[list[float], float]:
    """Seconds of desk's processor time for each key, rising, and those for opening the session."""
    path = os.path.join(folder, f"{plan}.case")
    with open(path, "w", encoding="utf-8") as file:
        file.write(EXAMS)
    taken = []
    began = time.process_time()
    with Session.opened(casefile.read(path), program, plan) as session, session.sit() as sitting:
        sitting.advance()
        opened = time.process_time() - began
        while sitting.question is not None and len(taken) < SOME:
            began = time.process_time()
            sitting.answer(truth(sitting.question.values))
            sitting.advance()
            if sitting.question is not None:
                drawing.plan_lines(session.case, sitting.question.values, 80)
            taken.append(time.process_time() - began)
    return sorted(taken), opened


def called(program: str, folder: str, *words: str) -> tuple[str, float]:
    """What a call of desk prints, and the seconds of processor that it and its children take."""
    def used() -> float:
        all_of = resource.getrusage(resource.RUSAGE_CHILDREN)
        return all_of.ru_utime + all_of.ru_stime
    environment = {**os.environ, "DESK_ACQUIRE": os.path.abspath(program), "TERM": "dumb", "LC_ALL": "C.UTF-8"}
    before = used()
    ran = subprocess.run(["/usr/bin/python3", os.path.join(drawn.DESK, "desk"), *words], stdin=subprocess.DEVNULL, capture_output=True,
                         text=True, cwd=folder, env=environment, timeout=NO_END, check=False)
    return ran.stdout + ran.stderr, used() - before


def waits(program: str, counts: tuple[int, ...]) -> list[str]:
    """Faults where the comparison of plans takes too long, or doesn't say that its time was over."""
    faults, said = [], []
    for count in counts:
        with tempfile.TemporaryDirectory() as folder:
            path = os.path.join(folder, "slots.case")
            with open(path, "w", encoding="utf-8") as file:
                file.write(slots(count))
            for words, limit in (("check",), FOR_CHECK), (("ask", "--plain"), FOR_FIRST):
                try:
                    text, took = called(program, folder, *words, path)
                except subprocess.TimeoutExpired:
                    faults.append(f"{count} exams: `{words[0]}` isn't done after {NO_END} s")
                    continue
                said.append(f"{words[0]} of {count} {took:.1f} s")
                if took > limit:
                    faults.append(f"{said[-1]}: more than {limit:.0f} s of processor")
                wanted = ["question 1"] if words[0] == "ask" else ["when the time was over", "Advice: scopes, one group at a time, because the time was over"]
                faults += [f"{count} exams: `{words[0]}` doesn't say `{one}`" for one in wanted
                           if count == max(counts) and one not in " ".join(text.split())]
    print(f"pace: processor time with 30 slots: {', '.join(said)}")
    return faults


STUCK = """#!/bin/sh
# a program that never comes to an end where it plays
case "$2" in play) echo q1 exam1=1 exam2=1 yes; exec sleep 1000;; *) exec PROGRAM "$@";; esac
"""


def stuck(program: str) -> list[str]:
    """Where the program never ends, `check` does after its 18 seconds and the first question comes after 3, by the clock; the
    limits leave room for a busy machine."""
    faults = []
    with tempfile.TemporaryDirectory() as folder:
        it, path = os.path.join(folder, "stuck"), os.path.join(folder, "slots.case")
        for name, text in ((it, STUCK.replace("PROGRAM", os.path.abspath(program))), (path, slots(20))):
            with open(name, "w", encoding="utf-8") as file:
                file.write(text)
        os.chmod(it, 0o755)
        for words, most, wanted in ((("check",), 45.0, "more than 1 when the time was over"), (("ask", "--plain"), 25.0, "question 1")):
            began = time.monotonic()
            try:
                text, _ = called(it, folder, *words, path)
            except subprocess.TimeoutExpired:
                text = ""
            took = time.monotonic() - began
            if took > most or wanted not in " ".join(text.split()):
                faults.append(f"with a program that is stuck `{words[0]}` takes {took:.0f} s and says {text[-300:]!r}")
    return faults


def quick(program: str) -> list[str]:
    """The largest case alone, and a program that is stuck."""
    return waits(program, (100,)) + stuck(program)


def run(program: str) -> list[str]:
    """Faults where a key or the first question takes too long."""
    faults, said = [], []
    with tempfile.TemporaryDirectory() as folder:
        for plan in ("scopes", "quacq", "multi"):
            taken, opened = keys(Program(program), folder, plan)
            middle, worst = taken[len(taken) // 2], taken[-1]
            said.append(f"{plan} {1000 * middle:.1f} ms a key, the longest {1000 * worst:.1f}, opened in {opened:.2f} s")
            if middle > LIMIT or worst > 3 * LIMIT:
                faults.append(f"{said[-1]}: more than {1000 * LIMIT:.0f} ms")
    print(f"pace: 100 exams, {SOME} keys: {'; '.join(said)}")
    return faults + waits(program, (100,) if drawn.TIMES == 1 else (20, 40, 60, 100)) + stuck(program)
