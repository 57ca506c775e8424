#!/usr/bin/env python3
"""Each table of trials/ comes out as it should, row for row.

usage: checks/trials.py [--jobs N] [PROGRAM]

PROGRAM isn't looked at: a trial is a program of its own.

The crates of trials/crates are compiled without proof over the project's own, in a room of their
own (trial_room.py). Each table is run on its `stdin`, and what is printed has to be its `stdout`,
to the byte, with status 0. Each crate's sources are in the layout of `rt fmt`.

They are compiled with tests of addresses, and with traps at an index that is out of range, a sum
that wraps and the like, so a call that breaks what is required of it is mostly seen here, though no
proof rules it out. The kit's interpreter can't run them: it lacks the C functions by which they
read. A program is compiled once for all its tables where the kit lets one be kept, as
tools/unproved.sh says, and else by `rt try` for each.
"""

from __future__ import annotations

import argparse
import glob
import os
import resource
import subprocess
import sys
import tempfile
import time
from concurrent.futures import ThreadPoolExecutor

sys.dont_write_bytecode = True

# pylint: disable=wrong-import-position
from trial_room import (TABLES, TOP, OtherKit, crates_below, lanes, lay_out, lay_out_kit,
                        trial_crates)

MOST_SECONDS = 1800     # of the clock, for a run; the machine may have other work
# The compiler and the linker of the copy of the kit: it optimizes, and the tests of addresses stay.
COMPILER = """\
#!/bin/sh
for word; do
    shift
    [ "$word" != -O0 ] || word=-O1
    set -- "$@" "$word"
done
exec "${0%/*}/../../../from/toolchain/bin/clang" "$@"
"""
LINKER = """\
#!/bin/sh
room=${0%/*}/../../..
"$room/from/toolchain/bin/ld.lld" "$@" || exit
last=
for word; do
    [ "$last" != -o ] || [ -e "$room/linked" ] || cp "$word" "$room/linked"
    last=$word
done
"""


class Trials:
    """The room, and what comes of the programs in it."""

    def __init__(self, room: str):
        self.room = room
        self.top = lay_out(room)
        self.programs: dict[str, str] = {}      # the file of each one that is kept
        self.why: dict[str, str] = {}           # why one isn't

    def compile(self, name: str) -> None:
        """Compiles a program with tests of addresses, and keeps it where the kit allows that."""
        room = f"{self.room}/{name}"
        try:
            lay_out_kit(room)
        except OtherKit as fault:
            self.why[name] = str(fault)
            return
        for tool, text in (("clang", COMPILER), ("ld.lld", LINKER)):
            with open(f"{room}/kit/toolchain/bin/{tool}", "w", encoding="utf-8") as file:
                file.write(text)
        # (it gets no table, so its run ends at once)
        said = subprocess.run([f"{room}/kit/bin/rt", "try", "--", "nothing"], check=False,
                              cwd=f"{self.top}/crates/{name}", stdin=subprocess.DEVNULL,
                              capture_output=True, text=True, errors="replace")
        if os.path.exists(f"{room}/linked"):
            self.programs[name] = f"{room}/linked"
        else:
            self.why[name] = (said.stderr + said.stdout).strip()[-400:]

    def run(self, table: str) -> tuple[bytes, str]:
        """What a table prints, and what else is to be said of its run, or nothing."""
        name, words = TABLES[table]
        kept = self.programs.get(name)
        command = [kept] if kept else ["rt", "try", "--seconds", str(MOST_SECONDS), "--"]
        folder = f"{self.top}/crates/{name}"
        with open(f"{TOP}/trials/{table}/stdin", "rb") as given:
            try:
                ran = subprocess.run([*command, *words], stdin=given, capture_output=True,
                                     cwd=folder, timeout=2 * MOST_SECONDS, check=False)
            except (OSError, subprocess.TimeoutExpired) as fault:
                return b"", f"it doesn't run: {fault}"
        said = ran.stderr.decode(errors="replace").strip()
        if ran.returncode:
            why = "" if kept else f"; it couldn't be kept: {self.why.get(name, '')}"
            return ran.stdout, f"status {ran.returncode}: {said[-400:]}{why}"
        return ran.stdout, ""


def layout(crate: str, top: str) -> str:
    """Which of a crate's sources isn't laid out as `rt fmt` does it, or nothing."""
    files = sorted(glob.glob(f"{top}/crates/{crate}/src/**/*.rt", recursive=True))
    said = subprocess.run(["rt", "fmt"], cwd=f"{top}/crates/{crate}", capture_output=True,
                          text=True, check=False)
    if said.returncode:
        return f"rt fmt fails: {(said.stderr + said.stdout).strip()[-300:]}"
    for file in files:
        name = f"trials/{os.path.relpath(file, f'{top}/crates')[:-3]}.rs"
        with open(file, "rb") as new, open(f"{TOP}/{name}", "rb") as old:
            if new.read() != old.read():
                return f"{name} isn't in the layout of rt fmt"
    return ""


def difference(came: bytes, table: str) -> str:
    """The first line that isn't as expected, or nothing."""
    with open(f"{TOP}/trials/{table}/stdout", "rb") as file:
        wanted = file.read()
    if came == wanted:
        return ""
    pairs = zip(came.splitlines(True) + [b""], wanted.splitlines(True) + [b""])
    number, (one, other) = next(it for it in enumerate(pairs, 1) if it[1][0] != it[1][1])
    return (f"line {number} is `{one.decode(errors='replace').rstrip()[:300]}` and not "
            f"`{other.decode(errors='replace').rstrip()[:300]}`")


def unread() -> list[str]:
    """What lies in trials/ that no check reads, and what is listed and isn't there."""
    folders = set(trial_crates())
    listed = {it for it in crates_below() if not os.path.isdir(f"{TOP}/crates/{it}")}
    tables = {os.path.basename(os.path.dirname(it)) for it in glob.glob(f"{TOP}/trials/*/std*")}
    return [*(f"trials/crates doesn't list {it}" for it in sorted(folders - listed)),
            *(f"there is no crate {it}" for it in sorted(listed - folders)),
            *(f"no run reads the table {it}" for it in sorted(tables - set(TABLES))),
            *(f"no row is left of the table {it}" for it in sorted(set(TABLES) - tables))]


def read_words() -> argparse.Namespace:
    """The words of the command line."""
    words = argparse.ArgumentParser(
        description=__doc__, formatter_class=argparse.RawDescriptionHelpFormatter)
    words.add_argument("--jobs", type=int, default=lanes())
    words.add_argument("program", nargs="?")
    return words.parse_args()


def used() -> float:
    """The seconds of a processor that have gone into programs so far."""
    of = resource.getrusage(resource.RUSAGE_CHILDREN)
    return of.ru_utime + of.ru_stime


def main() -> int:
    """Status 0 where each run answers with what is expected."""
    said = read_words()
    begun = time.monotonic()
    faults = unread()
    rows = answered = 0
    with tempfile.TemporaryDirectory() as room, ThreadPoolExecutor(said.jobs) as pool:
        trials = Trials(room)
        for why in pool.map(lambda crate: layout(crate, trials.top), trial_crates()):
            faults += [why] if why else []
        names = [name for name, _ in TABLES.values()]
        list(pool.map(trials.compile, dict.fromkeys(names)))
        compiled = used()
        # (that of answer_trials takes longest)
        tables = [it for it in reversed(TABLES) if os.path.exists(f"{TOP}/trials/{it}/stdout")]
        for table, (came, why) in zip(tables, pool.map(trials.run, tables)):
            why = "; ".join(filter(None, [difference(came, table), why]))
            if why:
                faults.append(f"{table}: {why}")
            else:
                answered += 1
                rows += came.count(b"\n")
        how = "kept" if len(trials.programs) == len(set(names)) else "compiled by each run"
    for why in faults:
        print(f"trials: {why}")
    print(f"trials: {rows} lines of rows, {answered} of {len(TABLES)} runs answered, of programs "
          f"that were {how}; {time.monotonic() - begun:.0f} s, of a processor compiling "
          f"{compiled:.0f} and running {used() - compiled:.0f}")
    print(f"trials: {answered} passed, {len(faults)} failed")
    return 1 if faults or answered != len(TABLES) else 0


if __name__ == "__main__":
    sys.exit(main())
