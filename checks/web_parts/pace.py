"""What a click costs: processor time of desk and of the program, from a click to the next question."""

from __future__ import annotations

import os
import random
from collections.abc import Callable, Iterator

from people import EVERY
from served import Web, processes

EXAMS = ("title: Exams\nthings: exam1 .. exam100\nvalues: day Mon .. Sat x hour 1 .. 5\nask: all\n"
         "words: different, different day, earlier day\nplan: scopes\n")
MOST, MOST_OF_MANY = 0.050, 0.250       # seconds of a processor for a click
ROOM = 1.5                              # for a machine that does much else, whose caches are others'
CLICKS = 40
TICKS = os.sysconf("SC_CLK_TCK")

Faults = Iterator[str]


def used(web: Web) -> float:
    """The seconds of a processor that the server, its ended programs and those that run have used."""
    total = 0.0
    for number in {web.process.pid, *processes(web.folder)}:
        try:
            with open(f"/proc/{number}/stat", encoding="ascii", errors="replace") as file:
                times = file.read().rpartition(")")[2].split()[11:15]
        except OSError:
            continue
        total += sum(map(int, times[:4] if number == web.process.pid else times[:2])) / TICKS
    return total


def clicks(web: Web, name: str, yes: Callable[[], bool], count: int) -> tuple[float, int]:
    """The seconds of a processor that so many clicks took, and how many questions came."""
    page = web.settled(name)
    before, done = used(web), 0
    while done < count and "question" in page.head:
        page = web.does(name, "y" if yes() else "n", page.number)
        done += 1
    return used(web) - before, done


def of_cases(program: str) -> Faults:
    """The cases of people."""
    draw = random.Random(1)
    with Web(program, {person.name: person.text for person in EVERY}) as web:
        web.enter()
        said = []
        for person in EVERY:
            web.begin(person.name)
            took, count = clicks(web, person.name, lambda: draw.random() < 0.6, CLICKS)
            each = took / max(count, 1)
            said.append(f"{person.name} {1000 * each:.0f}")
            if each > ROOM * MOST:
                yield f"a click in {person.name} takes {1000 * each:.0f} ms of a processor, and {1000 * MOST:.0f} are due"
        print(f"pace: ms of a processor from a click to the next question, {CLICKS} each: {', '.join(said)}")


def of_many(program: str) -> Faults:
    """A hundred exams, at the beginning and after hundreds of rules."""
    draw = random.Random(2)
    with Web(program, {"exams.case": EXAMS}) as web:
        web.enter()
        web.begin("exams.case")
        first, count = clicks(web, "exams.case", lambda: draw.random() < 0.5, CLICKS)
        clicks(web, "exams.case", lambda: draw.random() < 0.5, 400)
        later, more = clicks(web, "exams.case", lambda: draw.random() < 0.5, CLICKS)
        print(f"pace: with 100 exams {1000 * first / count:.0f} ms at first, and {1000 * later / more:.0f} after {400 + count} questions")
        for each in (first / count, later / more):
            if each > ROOM * MOST_OF_MANY:
                yield f"a click with 100 exams takes {1000 * each:.0f} ms of a processor, and {1000 * MOST_OF_MANY:.0f} are due"


TESTS = (of_cases, of_many)
PLANTED = (
    ("questions.py", "        if settled != self._settled:\n", "        for _ in range(80):\n", of_cases),
)
