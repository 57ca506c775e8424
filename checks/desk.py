#!/usr/bin/python3
"""desk, the companion for planners, beside the built program.

usage: checks/desk.py PROGRAM [PART ..]
       checks/desk.py PROGRAM planted [PART ..]      some bugs planted in desk, each of which a part has to notice
       checks/desk.py PROGRAM all-planted [PART ..]  each bug that a part lists

Each part is a file in checks/desk_parts and says in a line what it looked at. DESK_TIMES=8 plays eight times as many drawn sessions
and times the comparison of plans for smaller cases as well, DESK_CASES=1000 lets that many cases change, and DESK_KILLS=200 kills as
often. What the parts need is installed by apt-get where that is possible: python3-rich, tmux, a SAT solver, chromium and poppler-utils.
That is said before, and NO_INSTALL=1 forbids it; what can't be had is passed over. Parts run side by side, each in a
process of its own, and the last line says how much time of a processor all took, and what was passed over; things within a part
are counted there, and each has a line of its own above.
"""

from __future__ import annotations

import importlib
import importlib.util
import os
import resource
import shutil
import subprocess
import sys
import tempfile
from collections import Counter
from concurrent.futures import ThreadPoolExecutor

HERE = os.path.dirname(os.path.realpath(__file__))
PARTS_FOLDER = os.path.join(HERE, "desk_parts")
DESK = os.environ.get("DESK_FOLDER", os.path.join(os.path.dirname(HERE), "desk"))
CLIENT = os.path.join(os.path.dirname(HERE), "python")     # through which desk talks to the program

# those that take longest first
PARTS = ("terminal", "kept", "captured", "pages", "changes", "refusals", "suspects", "known", "bounds", "sitting",
         "cases", "starts", "lacking", "taught", "plans", "screens", "says", "unseen", "meanings", "runs", "faults",
         "forecast", "pace", "bare")
NEEDS_RICH = ("terminal", "captured", "screens", "pace")
# the bugs that the gate plants: a part, and which of its list
GATE = (("bounds", 0), ("bounds", 1), ("suspects", 1), ("meanings", 0), ("meanings", 2), ("known", 0), ("changes", 0), ("kept", 0), ("runs", 0),
        ("faults", 0), ("starts", 0), ("unseen", 0), ("screens", 0), ("pages", 0), ("bare", 3))
# a command, and the Debian package that has it
TOOLS = {"tmux": "tmux", "cadical": "cadical", "minisat": "minisat", "clasp": "clasp", "chromium": "chromium", "pdfinfo": "poppler-utils"}
SOLVERS = ("cadical", "minisat", "clasp")
# what isn't looked at where a command isn't there
WANTED = {
    "tmux": "no terminal is looked at",
    "chromium": "no browser is looked at",
    "pdfinfo": "no page is counted",
}
PATIENCE = 1800     # seconds for a part
OVER = "PASSED OVER "   # how a line of a part begins that says what it can't look at here


def install() -> None:
    """Installs what is missing where that can be, and says so before."""
    missing = [package for command, package in TOOLS.items() if not shutil.which(command)]
    if importlib.util.find_spec("rich") is None:
        missing.append("python3-rich")
    if missing and (os.environ.get("NO_INSTALL") or os.geteuid() != 0 or not shutil.which("apt-get")):
        print(f"desk: not installed, and parts that want them pass over what they can't do: {' '.join(missing)}", flush=True)
    elif missing:
        print(f"desk: installing by apt-get, which NO_INSTALL=1 would forbid: {' '.join(missing)}", flush=True)
        called("update")
        for package in missing:     # one by one, so that what isn't to be had keeps no other off
            called("install", "-y", "--no-install-recommends", package)
    importlib.invalidate_caches()


def passed_over() -> list[str]:
    """What can't be looked at here, and why."""
    found = [f"{TOOLS[command]} isn't installed, so {what}"
             for command, what in WANTED.items() if not shutil.which(command)]
    if not any(map(shutil.which, SOLVERS)):
        found.append("no SAT solver is installed, so no plan is drawn")
    if importlib.util.find_spec("rich") is None:
        parts = ", ".join(NEEDS_RICH)
        found.append(f"python3-rich isn't installed, so the parts {parts} aren't run")
    return found


def summary(over: list[str], in_parts: list[str]) -> str:
    """The end of the last line: what the machine lacks, and how much of which parts was passed
    over."""
    said = list(over)
    counts = Counter(line.partition(":")[0] for line in in_parts)
    if counts:
        things = ", ".join(f"{name} {count}" for name, count in counts.items())
        said.append(f"within parts, each in a line above: {things}")
    return f"; passed over: {'; '.join(said)}" if said else ""


def called(*words: str) -> None:
    """Calls apt-get, which may fail: what is missing then is passed over."""
    subprocess.run(["apt-get", *words, "-o", "DPkg::Lock::Timeout=300"],
                   env={**os.environ, "DEBIAN_FRONTEND": "noninteractive"}, stdin=subprocess.DEVNULL,
                   stdout=subprocess.DEVNULL, stderr=subprocess.DEVNULL, check=False)


def part(
    name: str, program: str, call: str = "run", folder: str = DESK, enough: int = 20
) -> tuple[str, list[str], list[str]]:
    """Runs a part in a process of its own: what it said, its faults, and what it passed over."""
    code = (f"import sys; sys.path[:0] = [{folder!r}, {PARTS_FOLDER!r}]; import {name} as it\n"
            f"faults = (getattr(it, {call!r}, None) or it.run)({program!r})\n"
            "print(*('FAULT ' + str(fault).replace(chr(10), ' | ') for fault in faults), sep=chr(10))")
    environment = {**os.environ, "DESK_FOLDER": folder, "DESK_ENOUGH": str(enough), "PYTHONDONTWRITEBYTECODE": "1"}
    environment.pop("DESK_ACQUIRE", None)
    try:
        ran = subprocess.run([sys.executable, "-c", code], env=environment, stdin=subprocess.DEVNULL, capture_output=True, text=True, timeout=PATIENCE, check=False)
    except subprocess.TimeoutExpired:
        return "", [f"{name}: it isn't done after {PATIENCE} s"], []
    lines = ran.stdout.splitlines()
    faults = [line.removeprefix("FAULT ") for line in lines if line.startswith("FAULT ")]
    if ran.returncode:
        faults.append(f"{name} broke off: {ran.stderr.strip()[-600:]}")
    over = [line.removeprefix(OVER) for line in lines if line.startswith(OVER)]
    said = "\n".join(line for line in lines if line and not line.startswith(("FAULT ", OVER)))
    return said, faults, over


def planted(program: str, bugs: list[tuple[str, int]]) -> list[str]:
    """Plants bugs in copies of desk, one each; those that their part doesn't notice."""
    def one(bug: tuple[str, tuple[str, str, str]]) -> str | None:
        name, (file, old, new) = bug
        with tempfile.TemporaryDirectory() as folder:
            copy = os.path.join(folder, "desk")
            for it in (DESK, CLIENT):
                shutil.copytree(it, os.path.join(folder, os.path.basename(it)), ignore=shutil.ignore_patterns("__pycache__"))
            path = os.path.join(copy, "planners_desk", file)
            with open(path, encoding="utf-8") as source:
                text = source.read()
            if old not in text:
                return f"{name} plants a bug in {file} where there is no such text any more: {old.strip()}"
            with open(path, "w", encoding="utf-8") as source:
                source.write(text.replace(old, new, 1))
            _, faults, _ = part(name, program, "quick", copy, 0)
        return None if faults else f"{name} doesn't notice that in {file} `{old.strip()}` is `{new.strip()}`"
    # The parts are imported here: threads that import side by side may see a module that isn't whole yet.
    changes = [(name, importlib.import_module(name).PLANTED[place]) for name, place in bugs]
    with ThreadPoolExecutor(4) as pool:
        return [fault for fault in pool.map(one, changes) if fault]


def bugs_of(wanted: list[str]) -> list[tuple[str, int]]:
    """Which bugs are planted: those of the gate, or each that a part lists; where parts are named, theirs alone."""
    rich = importlib.util.find_spec("rich") is not None
    # those that can be imported here
    parts = [name for name in PARTS if rich or name not in NEEDS_RICH]
    every = [(name, place) for name in parts
             for place in range(len(importlib.import_module(name).PLANTED))]
    bugs = [bug for bug in every if "all-planted" in wanted or bug in GATE]
    named = [name for name in wanted if name in PARTS]
    return [bug for bug in bugs if not named or bug[0] in named]


def main() -> int:
    """Status 0 where no part has a fault."""
    if len(sys.argv) < 2 or not set(sys.argv[2:]) <= {*PARTS, "planted", "all-planted"}:
        print(__doc__)
        print(f"The parts are {', '.join(PARTS)}.")
        return 1
    program, wanted = os.path.abspath(sys.argv[1]), sys.argv[2:]
    sys.path[:0] = [DESK, PARTS_FOLDER]
    install()
    over = passed_over()
    for what in over:
        print(f"desk: passed over: {what}", flush=True)
    rich = importlib.util.find_spec("rich") is not None
    plants = "planted" in wanted or "all-planted" in wanted
    names = [] if plants else [name for name in wanted or PARTS if rich or name not in NEEDS_RICH]
    faults: list[str] = []
    in_parts: list[str] = []
    with ThreadPoolExecutor(4) as pool:
        for said, found, passed in pool.map(lambda name: part(name, program), names):
            if said:
                print(said, flush=True)
            for what in passed:
                print(f"desk: passed over: {what}", flush=True)
            faults += found
            in_parts += passed
    if plants or not wanted:
        bugs = bugs_of(wanted)
        unnoticed = planted(program, bugs)
        faults += unnoticed
        print(f"planted: {len(bugs)} bugs in desk, one at a time, and {len(bugs) - len(unnoticed)} were noticed")
    for fault in faults:
        print(f"FAULT {fault}", file=sys.stderr)
    used = resource.getrusage(resource.RUSAGE_CHILDREN)
    seconds = used.ru_utime + used.ru_stime
    said = summary(over, in_parts)
    print(f"desk: {len(faults)} faults, after {seconds:.0f} s of a processor{said}")
    return 1 if faults else 0


if __name__ == "__main__":
    sys.exit(main())
