"""The four cases from `desk check` to the end of `desk ask --plain`, compared to the byte with what is kept in checks/desk_captures.

Without a SAT solver, whose plans would differ from one solver to the other. DESK_CAPTURE=write writes them anew.
"""

from __future__ import annotations

import itertools
import os
import shutil
import subprocess
import tempfile
from collections.abc import Callable

from planners_desk.case import casefile
import drawn
from planners_desk.sitting.session import Session
from planners_desk.program.talk import Program

KEPT = os.path.join(drawn.TOP, "checks", "desk_captures")
PLANS = {"ward": "scopes", "school": "quacq", "bicycle": "multi", "garden": "scopes"}
PLANTED = [
    ("sitting/outlook.py", "best = trials.best(words, some)", "best = some[1]"),
    ("hints/trials.py", "noticed += slipped(", "noticed += 1 - slipped("),
]
DAYS = ["Mon", "Tue", "Wed", "Thu", "Fri", "Sat", "Sun"]


def ward(named: dict[str, str]) -> bool:
    """Nobody has two shifts on one day, or an early or late one after a night; Ann has no nights."""
    at = {(DAYS.index(name.split()[0]), name.split()[1]): who for name, who in named.items()}
    for (day, shift), who in at.items():
        if (who, shift) == ("Ann", "night"):
            return False
        if any(other == who and (next_day == day and kind != shift or next_day == day + 1 and shift == "night" and kind != "night")
               for (next_day, kind), other in at.items()):
            return False
    return True


def school(named: dict[str, str]) -> bool:
    """No two lessons at once, maths and english on two days, maths before physics, art and sport on one day."""
    day = {name: DAYS.index(value.split()[0]) for name, value in named.items()}
    return (len(set(named.values())) == len(named) and day.get("maths", -1) != day.get("english", -2)
            and day.get("maths", -1) < day.get("physics", 9) and len({day[name] for name in ("art", "sport") if name in day}) < 2)


def bicycle(named: dict[str, str]) -> bool:
    """What doesn't go together."""
    wrong = [("frame", "carbon", "rack", "heavy"), ("motor", "hub", "battery", "none"), ("motor", "mid", "battery", "none"),
             ("brakes", "rim", "motor", "mid"), ("gears", "belt", "motor", "hub"), ("gears", "hub", "motor", "hub"), ("motor", "none", "battery", "large")]
    return not any(named.get(one) == a and named.get(other) == b for one, a, other, b in wrong)


def garden(named: dict[str, str]) -> bool:
    """Nothing twice running, no tomatoes beside potatoes in time, beans in each three years, no two beds at rest in a year."""
    beds = [[named.get(f"{bed} Y{year}") for year in (1, 2, 3, 4)] for bed in ("north", "south", "east")]
    for bed in beds:
        for one, other in itertools.pairwise(bed):
            if None not in (one, other) and (one == other or {one, other} == {"tomatoes", "potatoes"}):
                return False
        if any(None not in three and "beans" not in three for three in (bed[:3], bed[1:])):
            return False
    return all(year.count("rest") < 2 for year in zip(*beds, strict=True))


OWNERS: dict[str, Callable[[dict[str, str]], bool]] = {"ward": ward, "school": school, "bicycle": bicycle, "garden": garden}


def keys_of(program: str, path: str, name: str) -> str:
    """What the person types, a line a question."""
    keys = []
    with Session.opened(casefile.read(path), Program(program), PLANS[name]) as session, session.sit() as sitting:
        sitting.advance()
        while sitting.question is not None:
            yes = OWNERS[name]({session.case.things[thing].name: session.case.values[value] for thing, value in sitting.question.values.items()})
            keys.append("y" if yes else "n")
            sitting.answer(yes)
            sitting.advance()
    return "".join(key + "\n" for key in keys)


def captures(program: str, name: str, folder: str) -> dict[str, str]:
    """What is printed for a case."""
    for copy in (name, "keys"):
        shutil.copy(os.path.join(drawn.DESK, "cases", f"{name}.case"), os.path.join(folder, f"{copy}.case"))
    keys = keys_of(program, os.path.join(folder, "keys.case"), name)
    nowhere = os.path.join(folder, "nothing")
    os.makedirs(nowhere, exist_ok=True)
    environment = {"PATH": nowhere, "TERM": "dumb", "COLUMNS": "80", "LC_ALL": "C.UTF-8", "HOME": folder, "DESK_ACQUIRE": program}
    desk = ["/usr/bin/python3", os.path.join(drawn.DESK, "desk")]
    def printed(*words: str, given: str = "") -> str:
        ran = subprocess.run([*desk, *words], input=given, capture_output=True, text=True, cwd=folder, env=environment, check=False)
        return ran.stdout + ran.stderr + f"status {ran.returncode}\n"
    return {"check": printed("check", "--seconds", "600", f"{name}.case"), "ask": printed("ask", f"{name}.case", "--plain", "--plan", PLANS[name], given=keys)}


def run(program: str) -> list[str]:
    """Faults where something else is printed."""
    faults = []
    for name in PLANS:
        with tempfile.TemporaryDirectory() as folder:
            made = captures(os.path.abspath(program), name, folder)
        for what, text in made.items():
            path = os.path.join(KEPT, f"{name}.{what}")
            if os.environ.get("DESK_CAPTURE") == "write":
                os.makedirs(KEPT, exist_ok=True)
                with open(path, "w", encoding="utf-8") as file:
                    file.write(text)
            with open(path, encoding="utf-8") as file:
                lines = list(itertools.zip_longest(file.read().split("\n"), text.split("\n")))
            other = next((k for k, (one, two) in enumerate(lines) if one != two), None)
            if other is not None:
                faults.append(f"{name}.{what}, line {other + 1}: {lines[other][1]!r}, and {lines[other][0]!r} is kept")
    print(f"captured: check and ask of {len(PLANS)} cases")
    return faults
