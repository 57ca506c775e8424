#!/usr/bin/env python3
"""No line of sources and specifications is over 100 columns, but for named ones. Python gets no wider.

usage: checks/width.py

- A line of a source or a specification has 100 columns at most; proofs may be wider. EXCEPTIONS
  names those that can't be broken, 50 at most, each by its file and how it begins, with the reason;
  none is over 120, but an attribute of 132. One that isn't over 100 any more is no exception.
  `tools/width.py --without-proofs` breaks the others.
- At most MOST_PYTHON lines of Python are over 100 columns: those of before. The number only falls.
- A line with a column too much is noticed in a source, a specification, a script and a named line,
  and one with a column less isn't.
"""

import os
import sys
import tempfile

TOP = os.path.realpath(os.path.join(os.path.dirname(os.path.abspath(__file__)), ".."))
WIDTH, WIDEST, MOST, MOST_PYTHON = 100, 120, 50, 1_894
ATTRIBUTE = "`rt fmt` keeps an attribute on one line"
LONGEST_ATTRIBUTE = 132
EDITED = "a wrong body names the whole line"
TABLE = "a row of a table"
TEXT = "a text that the program makes, on one line as it comes out"
EXCEPTIONS = {
    ("crates/acq_cli/src/top.rt", "#[tactic("): ATTRIBUTE,
    ("crates/acq_said/src/lib.rt", "//! | say something of a journal's session"): TABLE,
    ("crates/acquire/src/main.rt", "\"acquire: {journal} can't be opened"): TEXT,
    ("crates/rel_table/src/lib.rt", "//! | learn a table's size"): TABLE,
    ("trials/samples/src/languages.rs", 'r#"{{"variables"'): TEXT,
    ("trials/store_trials/src/random.rs", 'r#"{{"variables"'): TEXT,
    ("trials/store_trials/src/random.rs", '"{} answers'): TEXT,
    ("crates/voc_read/specs/Rules.antt", "use Rattle.voc_read.specs.declared"): EDITED,
    ("crates/voc_read/src/reading.rt", "#[tactic("): ATTRIBUTE,
}
PARTS = ("src", "specs")


def files(top):
    """The sources, specifications and scripts below a folder, by their names from there."""
    for where, folders, names in os.walk(top):
        folders[:] = [it for it in folders if it not in (".git", "out", "__pycache__")]
        for name in sorted(names):
            path = os.path.relpath(os.path.join(where, name), top)
            places = path.split(os.sep)
            is_proved = places[0] == "crates" and len(places) > 3 and places[2] in PARTS
            is_trial = places[0] == "trials" and name.endswith(".rs")
            if name.endswith(".py") or is_trial or is_proved and name.endswith((".rt", ".antt")):
                yield path


def long_lines(top, path):
    with open(os.path.join(top, path), encoding="utf-8") as file:
        for number, line in enumerate(file, 1):
            if len(line.rstrip("\n")) > WIDTH:
                yield number, line.rstrip("\n")


def widest(reason):
    return LONGEST_ATTRIBUTE if reason == ATTRIBUTE else WIDEST


def look(top, exceptions, most_python):
    """What is wrong below a folder, and how many lines of Python are over."""
    faults, python, met = [], 0, set()
    for path in files(top):
        for number, line in long_lines(top, path):
            if path.endswith(".py"):
                python += 1
                continue
            named = [it for it in exceptions if it[0] == path and line.lstrip().startswith(it[1])]
            met.update(named)
            if len(line) > max([WIDTH, *(widest(exceptions[it]) for it in named)]):
                faults.append(f"{path}:{number}: {len(line)} columns")
    faults += [f"{it[0]}: no long line begins with {it[1]}" for it in exceptions if it not in met]
    if python > most_python:
        faults.append(f"{python} lines of Python are over {WIDTH} columns, more than {most_python}")
    return faults, python


def planted():
    """What is seen wrongly of lines as long as they may be, and of those with a column more."""
    named = "crates/low/src/lib.rt"
    paths = ["crates/low/src/plain.rt", "crates/low/specs/A.antt"]
    for more in (0, 1):
        for wide in (*paths, named, "tools/long.py"):
            with tempfile.TemporaryDirectory() as room:
                for path in (*paths, named, "tools/long.py"):
                    os.makedirs(os.path.dirname(os.path.join(room, path)), exist_ok=True)
                    most = WIDEST if path == named else WIDTH
                    with open(os.path.join(room, path), "w", encoding="utf-8") as file:
                        file.write("-- " + "→" * (most - 3 + (more if path == wide else 0)) + "\n")
                faults, _ = look(room, {(named, "-- →"): TABLE}, 0)
                if len(faults) != more:
                    yield f"planted: {more} columns more in {wide} and {len(faults)} faults"


def main():
    faults, python = look(TOP, EXCEPTIONS, MOST_PYTHON)
    if len(EXCEPTIONS) > MOST:
        faults.append(f"{len(EXCEPTIONS)} exceptions, more than {MOST}")
    faults += planted()
    for fault in faults:
        print(f"width: {fault}")
    print(
        f"width: {len(faults)} faults; {len(EXCEPTIONS)} named lines over {WIDTH} columns;"
        f" {python} of Python, at most {MOST_PYTHON}"
    )
    sys.exit(1 if faults else 0)


if __name__ == "__main__":
    main()
