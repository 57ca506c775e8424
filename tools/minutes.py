#!/usr/bin/env python3
"""Where the processor time of a gate goes, by crate and step.

usage: tools/minutes.py PID FILE

Looks twice a second at what the process PID has started, until that ends or this one is told to (SIGTERM), and then writes a table
into FILE: for each crate the minutes of its proof, of the proof before its must-fail edits, of the edits, of compiling and of running
its program, and the seconds of each of the project's own checks. It looks from outside, so nothing runs another way for it; what
begins and ends between two looks is counted where its parent has waited for it.
"""

import collections
import os
import re
import signal
import sys
import time

PAUSE = 0.5
STEPS = ["proof", "second proof", "edits", "compile", "run"]
TICK = os.sysconf("SC_CLK_TCK")


class Process:
    """What one look shows of a process: its parent, when it began, its words, its folder, and its seconds."""

    def __init__(self, number):
        with open(f"/proc/{number}/stat", encoding="utf-8", errors="replace") as file:
            fields = file.read().rsplit(")", 1)[1].split()
        self.parent = int(fields[1])
        self.begun = fields[19]
        self.own = (int(fields[11]) + int(fields[12])) / TICK
        self.with_ended = self.own + (int(fields[13]) + int(fields[14])) / TICK
        with open(f"/proc/{number}/cmdline", "rb") as file:
            self.words = file.read().decode(errors="replace").split("\0")[:-1]
        self.folder = os.readlink(f"/proc/{number}/cwd")


def processes():
    """All processes that can be looked at, by number."""
    found = {}
    for name in os.listdir("/proc"):
        if name.isdigit():
            try:
                found[int(name)] = Process(name)
            except OSError:
                # (it has ended meanwhile)
                continue
    return found


def step_of(process):
    """The crate and the step that a process works for, where it is one of the kit's."""
    line = " ".join(process.words)
    crate = re.search(r"--crate-name (\w+)", line)
    if crate and "/rattle " in line:
        kept = re.search(r"--incremental (\S+)", line)
        if "--backend" in line and "--crate-checked" in line:
            return crate[1], "compile"
        if "/rt-edit-" in process.folder:
            return crate[1], "second proof" if kept and kept[1].endswith("/seed") else "edits"
        return crate[1], "proof"
    made = re.search(r"crates/(\w+)/out/(\w+)", line)
    if made and made[1] == made[2]:
        return made[1], "run"
    return None


def check_of(process):
    """The name of the check that a process is, run by its own file or by an interpreter."""
    for word in process.words[:3]:
        if check := re.search(r"(?:^|/)checks/([\w.]+)$", word):
            return check[1]
    return None


class Minutes:
    """What was seen so far: the seconds of each process by its number and begin, with its crate and step or its check."""

    def __init__(self, top):
        self.top = top
        self.steps = {}
        self.checks = {}

    def look(self):
        """Whether the process at the top is still there; notes what those below it have used."""
        found = processes()
        if self.top not in found:
            return False
        for number, process in found.items():
            if not self.is_below(number, found) or self.is_of_check(process.parent, found):
                continue
            if check := check_of(process):
                self.checks[number, process.begun] = check, process.with_ended
            elif step := step_of(process):
                self.steps[number, process.begun] = step, process.own
        return True

    def is_below(self, number, found):
        while number in found and number != self.top:
            number = found[number].parent
        return number == self.top

    def is_of_check(self, number, found):
        """Whether a process works for a check. What this starts in its turn is no check, and no step of a crate."""
        while number in found and number != self.top:
            if check_of(found[number]):
                return True
            number = found[number].parent
        return False

    def table(self):
        """The lines of the table: crates by what they took, then the checks."""
        of = collections.defaultdict(collections.Counter)
        for (crate, step), seconds in self.steps.values():
            of[crate][step] += seconds
        rows = sorted(of.items(), key=lambda it: (-it[1].total(), it[0]))
        rows.append(("all", sum(of.values(), collections.Counter())))
        yield f"{'processor minutes':20}" + "".join(f"{step:>14}" for step in [*STEPS, "sum"])
        for crate, steps in rows:
            minutes = [steps[step] / 60 for step in STEPS] + [steps.total() / 60]
            yield f"{crate:20}" + "".join(f"{it:14.1f}" for it in minutes)
        checks = collections.Counter()
        for check, seconds in self.checks.values():
            checks[check] += seconds
        if checks:
            told = ", ".join(f"{check} {seconds:.0f}" for check, seconds in checks.most_common())
            yield f"checks, in seconds of a processor: {told}"


def main():
    if len(sys.argv) != 3 or not sys.argv[1].isdigit():
        sys.exit(__doc__)
    minutes, is_wanted = Minutes(int(sys.argv[1])), True

    def end(*_):
        nonlocal is_wanted
        is_wanted = False

    signal.signal(signal.SIGTERM, end)
    while minutes.look() and is_wanted:
        time.sleep(PAUSE)
    with open(sys.argv[2], "w", encoding="utf-8") as file:
        file.writelines(f"{line}\n" for line in minutes.table())


main()
