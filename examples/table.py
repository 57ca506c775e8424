#!/usr/bin/env python3
"""A solution of a learned network, found by a SAT solver and printed as a table.

usage: examples/table.py PROGRAM EXAMPLE
       examples/table.py PROGRAM JOURNAL

An EXAMPLE is `roster` or `timetable`. A journal is made of its vocabulary (`new`), its target answers the questions (`play`),
and the network that was learned goes to the solver (`cnf`). What the solver prints is read back as a solution (`model`), which
the table shows. A JOURNAL is the file of a session of your own: its network, as far as it is learned, goes the same way, and
the table has a line for each variable.

The solver is the first of cadical, kissat, minisat and clasp that is installed. Where none is, a line says so, and nothing else
is done.
"""

import os
import shutil
import subprocess
import sys
import tempfile

HERE = os.path.dirname(os.path.abspath(__file__))
DAYS = ["Mon", "Tue", "Wed", "Thu", "Fri", "Sat", "Sun"]
# the words behind a solver's name; minisat writes its model to a file, the others print it
SOLVERS = {"cadical": ["-q"], "kissat": ["-q"], "minisat": ["-verb=0"], "clasp": ["--verbose=0"]}


def solver():
    """The name of an installed solver, if one is."""
    return next((name for name in SOLVERS if shutil.which(name)), None)


def solved(name, cnf):
    """What a solver says of clauses in DIMACS: its model, or that there is none, as bytes."""
    with tempfile.TemporaryDirectory() as folder:
        clauses = os.path.join(folder, "clauses")
        model = os.path.join(folder, "model")
        with open(clauses, "wb") as file:
            file.write(cnf)
        words = [name, *SOLVERS[name], clauses, *([model] if name == "minisat" else [])]
        ran = subprocess.run(words, capture_output=True, check=False)
        # 10: satisfiable, 20: not
        if ran.returncode not in (10, 20):
            raise SystemExit(f"{name} ended with status {ran.returncode}: {ran.stderr.decode(errors='replace')}")
        if name != "minisat":
            return ran.stdout
        with open(model, "rb") as file:
            return file.read()


def run(program, words, given=b""):
    """What the program prints; it has to end with status 0."""
    ran = subprocess.run([program, *words], input=given, capture_output=True, check=False)
    if ran.returncode != 0:
        raise SystemExit(f"acquire {' '.join(words)} ended with status {ran.returncode}: {ran.stdout.decode(errors='replace')}")
    return ran.stdout


def solution(program, journal, name):
    """The values of a solution of the journal's network, by variable, in the order of the vocabulary."""
    model = solved(name, run(program, [journal, "cnf"]))
    line = run(program, [journal, "model"], model).decode()
    return dict(pair.split("=") for pair in line.split()[1:])


def roster(values):
    """Who rests on which days of the week."""
    yield "      " + " ".join(DAYS)
    for person, begin in values.items():
        rest = [int(begin), int(begin) + 1]
        yield f"{person:6}" + " ".join(" x " if day in rest else " . " for day in range(1, 8))


def timetable(values):
    """What there is in each hour."""
    for hour in range(1, 7):
        yield f"{hour}  " + ", ".join(thing for thing, at in values.items() if int(at) == hour)


def plain(values):
    """Each variable's value."""
    for variable, value in values.items():
        yield f"{variable} {value}"


def main():
    if len(sys.argv) != 3:
        raise SystemExit("\n".join(__doc__.splitlines()[2:4]))
    program, what = os.path.realpath(sys.argv[1]), sys.argv[2]
    name = solver()
    if name is None:
        print(f"no SAT solver is installed: none of {', '.join(SOLVERS)}")
        return
    if what not in ("roster", "timetable"):
        print("\n".join(plain(solution(program, what, name))))
        return
    with tempfile.TemporaryDirectory() as folder:
        journal = os.path.join(folder, "journal")
        for command, stored in (("new", "vocabulary.json"), ("play", "target.json")):
            with open(os.path.join(HERE, what, stored), "rb") as file:
                run(program, [journal, command], file.read())
        show = roster if what == "roster" else timetable
        print("\n".join(show(solution(program, journal, name))))


if __name__ == "__main__":
    main()
