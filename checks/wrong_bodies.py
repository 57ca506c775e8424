#!/usr/bin/env python3
"""Each wrong body is noticed by a row of a table or by one of the checks, or no run can show it.

usage: checks/wrong_bodies.py [--write] [--every] [--room FOLDER] [--jobs N] [NAME ..]
       checks/wrong_bodies.py --plants [--of N] [--seed N] [--room FOLDER] [--jobs N] CRATE ..

A wrong body is an edit of crates/*/must-fail, which the prover refuses too, or of
checks/wrong_bodies/CRATE; NAME chooses those of a crate, or one, as CRATE/SENTENCE. They are
compiled together into each program with a table, without proof, each behind a switch that is read
at the start. Every row has to hold with the right bodies; then the program is run with each wrong
one up to the first row that doesn't hold. What no table notices goes through the other checks on
the program itself.

checks/wrong_bodies/noticed.tsv has a line for each body: the table and its first row that doesn't
hold, or the check that fails, or `no run` and the reason why none shows it. Each body is run where
its line says. Those that no run shows are put on together and go through every table and check,
and one by one where anything comes of that. The edits of checks/wrong_bodies/same/CRATE write a
body otherwise and mean the same, so nothing may notice them.

It fails where a line isn't as it comes, lacks, or is about no edit, and where an edit doesn't fit
the sources or compile. --write writes lines that lack or don't come anew. With --every no line is
believed: each body goes through the tables in turn, and then the checks, until one notices it.
With --room the programs are kept in a folder, and each is used again where no source and no body
of its crates has changed, as after a row was added; what passed is kept there too, and tried again
only where something has changed on which it depends (wrong_bodies_parts/kept.py). Side by side is
done what tools/lanes.sh says, or --jobs. Where a build of the kit calls its tools in another way
than is known here, nothing is tried, and the last line says so.

With --plants the bodies are those that `rt plant` writes for all functions of these crates, also
where it would not ask the prover; with --of N of each crate, drawn by --seed. Those that no table
notices are listed: one that means another thing than the right one wants a row, and is worth an
edit then.
"""

from __future__ import annotations

import argparse
import collections
import os
import random
import shutil
import sys
import tempfile
import time
from concurrent.futures import ThreadPoolExecutor
from typing import IO

HERE = os.path.dirname(os.path.realpath(__file__))
sys.dont_write_bytecode = True
sys.path[:0] = [f"{HERE}/wrong_bodies_parts", HERE]

# pylint: disable=wrong-import-position
from edits import (BadEdit, Edit, Sources, find_edits, number, read_bodies, switch_of,
                   together)
from kept import Kept, sum_of_edit, sum_of_runs, sum_of_texts
from plants import find_plants
from programs import Program, Table, ask, build, check, numbers_in, run
from trial_room import TABLES, OtherKit, lanes, lay_out

STORED = f"{HERE}/wrong_bodies/noticed.tsv"
HEAD = ("# What notices each wrong body: a table and its first row that doesn't hold, a check and "
        "its words, or `no run` and why none shows it.\n")
PROGRAM = "acquire"
# in the order in which they are tried: those that see much in little time first
CHECKS = {"walks.py": "100", "owners.py": "200", "certs.py": "250", "journals.py": "",
          "backs.py": "", "models.py": "", "tables.py": "", "kills.py": "30", "demos.py": "60",
          "faults.py": "", "memory.py": ""}
SLOW = ("memory.py",)       # it is run only where a line names it
NO_RUN = "no run"
Line = tuple[str, str]      # what notices a body, and the row, the check's words, or the reason


def read_lines() -> dict[str, Line]:
    """What is stored, by the name of the edit."""
    found = {}
    with open(STORED, encoding="utf-8") as file:
        for line in file:
            if not line.startswith("#"):
                name, by, what = line.rstrip("\n").split("\t")
                found[name] = (by, what)
    return found


def write_lines(lines: dict[str, Line]) -> None:
    """Stores the lines, sorted by name, so that a change shows as a difference of few lines."""
    with open(STORED, "w", encoding="utf-8") as file:
        file.write(HEAD)
        for name, (by, what) in sorted(lines.items()):
            file.write(f"{name}\t{by}\t{what}\n")


def is_unshown(edit: Edit, lines: dict[str, Line]) -> bool:
    """Whether nothing may notice it."""
    return edit.same or lines.get(edit.name, ("",))[0] == NO_RUN


def program_of(name: str) -> str:
    """The program with a table or for a check."""
    return TABLES[name][0] if name in TABLES else PROGRAM


def gather(names: list[str], faults: dict[str, str]) -> list[Edit]:
    """The edits that are chosen, with their bodies. One that doesn't fit is a fault."""
    edits: dict[str, Edit] = {}
    for edit in find_edits():
        if names and edit.name not in names and edit.crate not in names:
            continue
        try:
            if edit.name in edits:
                raise BadEdit("its name stands twice")
            read_bodies(edit)
            edits[edit.name] = edit
        except BadEdit as fault:
            faults[edit.name] = f"a bad edit: {fault}"
    return list(edits.values())


class Bench:
    """The programs with the wrong bodies in them, and what comes of runs."""

    def __init__(self, room: str, jobs: int):
        self.room, self.pool = room, ThreadPoolExecutor(jobs)
        self.top = lay_out(room)
        self.programs: dict[str, Program] = {}
        self.tables = {name: Table(name) for name in TABLES}
        self.right: dict[str, tuple[str, str]] = {}  # what comes of a table with the right bodies
        self.called: dict[str, set[int]] = {}   # the functions that a table calls then
        self.seconds: dict[str, int] = {}   # that a run of a table may take of a processor
        self.used = {"compile": 0.0, "tables": 0.0}     # seconds of a processor

    def compile(self, names: list[str], edits: list[Edit], faults: dict[str, str]) -> list[Edit]:
        """Builds those of these programs that link a crate with a body, and runs their tables with
        the right bodies. Edits that the compiler refuses are faults, and none of what is given
        back."""
        crates = {edit.crate for edit in edits}
        # the last ones take longest
        names = names[::-1]
        asked = self.pool.map(lambda name: ask(name, f"{self.room}/{name}", self.top), names)
        left = {name: it for name, it in zip(names, asked) if not it.linked.isdisjoint(crates)}
        while left:
            sources = Sources(f"{self.room}/sources", edits)
            said = self.pool.map(lambda program: self.make(program, sources), left.values())
            refused: dict[str, str] = {}
            for name, text in list(zip(left, said)):
                blamed = sources.blamed(text)
                if not text:
                    del left[name]
                elif not blamed and ": error" in text:
                    raise SystemExit(f"wrong_bodies: {name} doesn't compile: {text[:600]}")
                elif not blamed:
                    raise OtherKit(f"{name} isn't built: {text.strip()[-300:]}")
                refused.update(blamed)
            for name, why in refused.items():
                faults[name] = f"a bad edit: it doesn't compile: {why}"
            edits = [edit for edit in edits if edit.name not in refused]
        self.used["compile"] = sum(os.times()[:4]) - self.used["tables"]
        return edits

    def make(self, program: Program, sources: Sources) -> str:
        """Builds a program and runs its tables with the right bodies. Gives what the compiler says
        where nothing comes of it."""
        said = build(program, sources)
        if not said:
            self.programs[program.crate] = program
            for name, table in self.tables.items():
                if table.program == program.crate:
                    with tempfile.TemporaryFile() as calls:
                        self.right[name] = self.first_row(name, [], calls)
                        self.called[name] = numbers_in(calls)
        return said

    def first_row(self, name: str, edits: list[Edit],
                  calls: IO[bytes] | None = None) -> tuple[str, str]:
        """The first row of a table that doesn't hold with these bodies, and what came instead."""
        table, seconds = self.tables[name], self.seconds.get(name, 600)
        row, came, used = run(self.programs[table.program], table, switch_of(edits), seconds, calls)
        self.used["tables"] += used
        if not edits:
            self.seconds[name] = 5 + int(4 * used)
        return row, came

    def fails(self, name: str, edits: list[Edit]) -> bool:
        """Whether one of the checks fails with these bodies."""
        return check(self.programs[PROGRAM], [name, *CHECKS[name].split()], switch_of(edits))

    def links(self, name: str, edits: list[Edit]) -> bool:
        """Whether the program, or that of the table, is built and has the crate of one of these
        bodies."""
        program = self.programs.get(program_of(name))
        return program is not None and any(edit.crate in program.linked for edit in edits)

    def calls(self, name: str, edits: list[Edit]) -> bool:
        """Whether a table calls a function that one of these bodies changes."""
        return name in self.called and any(
            not self.called[name].isdisjoint(edit.functions.values()) for edit in edits)

    def right_faults(self, checks: bool) -> dict[str, str]:
        """What doesn't hold with the right bodies, by the tables, and by the checks too, which
        the gate itself runs elsewhere."""
        found = {name: f"with the right bodies `{row}` doesn't hold: {came[:300]}"
                 for name, (row, came) in self.right.items() if row}
        names = CHECKS if checks and PROGRAM in self.programs else {}
        failed = self.pool.map(lambda name: self.fails(name, []), names)
        found.update({name: "it fails with the right bodies"
                      for name, one in zip(names, failed) if one})
        return found

    def lookers(self, edits: list[Edit]) -> list[str]:
        """The tables and checks that may notice one of these bodies, in turn."""
        checks = [name for name in CHECKS if name not in SLOW and self.links(PROGRAM, edits)]
        return [name for name in TABLES if self.calls(name, edits)] + checks

    def sees(self, name: str, edits: list[Edit]) -> Line | None:
        """What a table or a check notices of these bodies."""
        if name in self.tables:
            row = self.first_row(name, edits)[0]
            return (name, row) if row else None
        return (name, CHECKS[name]) if self.fails(name, edits) else None

    def notices(self, edits: list[Edit]) -> Line | None:
        """What notices these bodies first."""
        return next(filter(None, (self.sees(name, edits) for name in self.lookers(edits))), None)

    def differs(self, edit: Edit, line: Line) -> str:
        """How what comes differs from the line of a body that something notices, or nothing."""
        by, what = line
        if by in self.tables:
            if not self.links(by, [edit]):
                return f"{by} doesn't link its crate"
            row, came = self.first_row(by, [edit])
            if not row:
                return f"every row of {by} holds"
            if row != what:
                return f"{by}: `{row}` notices it first, and not `{what}`: {came[:200]}"
            return ""
        if CHECKS.get(by) != what:
            return f"there is no check {by} {what}".rstrip()
        return "" if self.fails(by, [edit]) else f"{by} passes with it"


def judge_by_lines(bench: Bench, edits: list[Edit], lines: dict[str, Line]) -> dict[str, str]:
    """What is wrong with the lines of these edits, by name."""
    wrong = {edit.name: "it has no line" for edit in edits
             if not edit.same and edit.name not in lines}
    # what takes longest is begun first
    groups = together([edit for edit in edits if is_unshown(edit, lines)])
    looks = [(group, name) for group in groups for name in bench.lookers(group)]
    seen = bench.pool.map(lambda look: bench.sees(look[1], look[0]), looks)
    order = [*TABLES, *CHECKS]
    shown = sorted((edit for edit in edits if edit.name in lines and not is_unshown(edit, lines)),
                   key=lambda edit: -order.index(lines[edit.name][0]))
    said = bench.pool.map(lambda edit: bench.differs(edit, lines[edit.name]), shown)
    noted = [group for (group, _), line in zip(looks, seen) if line]
    alone = [edit for group in groups if group in noted for edit in group]
    for edit, line in zip(alone, bench.pool.map(lambda edit: bench.notices([edit]), alone)):
        if line:
            wrong[edit.name] = f"nothing should notice it, and {' '.join(line).strip()} does"
    wrong.update({edit.name: why for edit, why in zip(shown, said) if why})
    return wrong


def judge_anew(bench: Bench, edits: list[Edit], lines: dict[str, Line]) -> dict[str, str]:
    """Puts what notices each body into the lines, and gives what is wrong then, by name: one that
    nothing notices wants a reason, and one that has a reason, or means the same, nothing that
    notices it."""
    def one(edit: Edit) -> Line | None:
        line = bench.notices([edit])
        print(f"{edit.name}: {' '.join(line).strip() if line else 'not noticed'}", flush=True)
        return line

    wrong = {}
    for edit, line in zip(edits, bench.pool.map(one, edits)):
        if line and is_unshown(edit, lines):
            wrong[edit.name] = f"nothing should notice it, and {' '.join(line).strip()} does"
        elif line:
            lines[edit.name] = line
        elif not is_unshown(edit, lines):
            lines.pop(edit.name, None)
            wrong[edit.name] = "nothing notices it, and no reason is given"
    return wrong


def programs_for(edits: list[Edit], lines: dict[str, Line], anew: bool) -> list[str]:
    """The programs in which these edits are run."""
    by = {NO_RUN if edit.same else lines.get(edit.name, ("",))[0] for edit in edits}
    if anew or NO_RUN in by:
        by = {*TABLES, *CHECKS}
    return [*dict.fromkeys(program_of(name) for name in [*TABLES, *CHECKS] if name in by)]


def sums_of(edits: list[Edit], lines: dict[str, Line]) -> dict[str, str]:
    """What the answer of each edit depends on, as a checksum, by name. Those that nothing may
    notice are put on together, so they depend on each other too, and on all tables and checks."""
    tables = {name: sum_of_runs(name, True) for name in TABLES}
    checks = sum_of_runs(PROGRAM, False)
    unshown = [edit for edit in edits if is_unshown(edit, lines)]
    all_of = sum_of_texts([checks, *tables.values(), *(
        sum_of_edit(edit, lines.get(edit.name, ("", ""))) for edit in unshown)])
    return {edit.name: all_of if is_unshown(edit, lines) else sum_of_texts(
        [tables.get(lines[edit.name][0], checks), sum_of_edit(edit, lines[edit.name])])
        for edit in edits if edit.same or edit.name in lines}


def judge(said: argparse.Namespace, bench: Bench) -> tuple[int, int, dict[str, str]]:
    """Looks at all that is chosen: how many edits there are, how many of them passed before, and
    what is wrong, by name."""
    faults: dict[str, str] = {}
    edits, lines = gather(said.names, faults), read_lines()
    number(edits)
    known = {edit.name: edit for edit in find_edits()}
    kept, sums = Kept(f"{bench.room}/kept"), sums_of(edits, lines)
    anew = said.every or said.write
    due = [edit for edit in edits if anew or not kept.has(edit.name, sums.get(edit.name, ""))]
    count, before = len(edits) + len(faults), len(edits) - len(due)
    if due:
        lacks = any(not edit.same and edit.name not in lines for edit in due)
        names = programs_for(due, lines, said.every or said.write and lacks)
        built = bench.compile(names, edits, faults)
        due = [edit for edit in due if edit in built]
    right = bench.right_faults(anew)
    if right:
        return count, before, {**faults, **right}
    wrong = {} if said.every else judge_by_lines(bench, due, lines)
    if anew:
        wrong = judge_anew(bench, [it for it in due if said.every or it.name in wrong], lines)
    if said.write:
        write_lines({name: line for name, line in lines.items()
                     if name in known and not known[name].same})
    # (with the lines as they came)
    sums = sums_of(edits, lines)
    kept.write({it.name: sums[it.name] for it in due if it.name not in wrong}, set(known))
    if not said.names:
        wrong.update({name: "it has a line, and is no edit" for name in set(lines) - set(known)})
    return count, before, {**faults, **wrong}


def tell_plants(said: argparse.Namespace, bench: Bench) -> None:
    """Lists the plants of some crates that no table notices, and counts all."""
    edits = []
    for crate in said.names:
        plants = find_plants(crate)
        chosen = random.Random(f"{said.seed} {crate}").sample(range(len(plants)), len(plants))
        edits += [plants[place] for place in sorted(chosen[:said.of])]
    number(edits)
    refused: dict[str, str] = {}
    # Many don't compile, which one program tells of all.
    edits = bench.compile(["program_rows"], edits, refused)
    edits = bench.compile(programs_for(edits, {}, True)[:-1], edits, refused)
    if faults := bench.right_faults(False):
        raise SystemExit("\n".join(f"wrong_bodies: {it}: {why}" for it, why in faults.items()))
    count: collections.Counter[str] = collections.Counter()
    for edit, line in zip(edits, bench.pool.map(lambda edit: bench.notices([edit]), edits)):
        by = line[0] if line else "nothing" if bench.lookers([edit]) else "no table calls it"
        count[by] += 1
        if not line:
            print(f"{edit.name}: {by}", flush=True)
    told = ", ".join(f"{by} {many}" for by, many in count.most_common())
    print(f"wrong_bodies: {len(edits)} plants by what notices them: {told}; "
          f"{len(refused)} that don't compile")


def read_words() -> argparse.Namespace:
    """The words of the command line."""
    words = argparse.ArgumentParser(
        description=__doc__, formatter_class=argparse.RawDescriptionHelpFormatter)
    words.add_argument("--write", action="store_true")
    words.add_argument("--every", action="store_true")
    words.add_argument("--plants", action="store_true")
    words.add_argument("--of", type=int)
    words.add_argument("--seed", type=int, default=1)
    words.add_argument("--room")
    words.add_argument("--jobs", type=int, default=lanes())
    words.add_argument("names", nargs="*")
    return words.parse_args()


def main() -> int:
    """Status 0 where each body is noticed as its line says."""
    said = read_words()
    begun = time.monotonic()
    room = os.path.abspath(said.room) if said.room else tempfile.mkdtemp()
    os.makedirs(room, exist_ok=True)
    os.chmod(room, 0o755)
    bench = Bench(room, said.jobs)
    try:
        if said.plants:
            tell_plants(said, bench)
            return 0
        count, before, faults = judge(said, bench)
    except OtherKit as fault:
        print(f"wrong_bodies: passed over: {fault}")
        print(f"wrong_bodies: 0 passed, 0 failed, {len(find_edits())} passed over")
        return 0
    finally:
        if not said.room:
            shutil.rmtree(room)
    for name, why in sorted(faults.items()):
        print(f"wrong_bodies: {name}: {why}")
    spent = sum(os.times()[:4])
    checks = max(0.0, spent - sum(bench.used.values()))
    print(f"wrong_bodies: {count} bodies, {before} of them passed before with all as it is now; "
          f"{time.monotonic() - begun:.0f} s, {spent:.0f} s of a processor: compiling "
          f"{bench.used['compile']:.0f}, tables {bench.used['tables']:.0f}, checks {checks:.0f}")
    print(f"wrong_bodies: {count - len(faults)} passed, {len(faults)} failed")
    return 1 if faults or not count else 0


if __name__ == "__main__":
    sys.exit(main())
