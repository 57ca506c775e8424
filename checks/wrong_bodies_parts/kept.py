"""Which bodies have been noticed as their lines say, kept from run to run.

What is kept of a body is a checksum of all that its answer depends on: the body, its line, the
sources of the program that was run with it, the table or the checks, these scripts and the kit. So
an answer is valid as long as none of that changes, and a tree that hasn't changed costs nothing.
"""

from __future__ import annotations

import functools
import glob
import hashlib
import json
import os
import subprocess

from edits import TOP, Edit, lines_of
from programs import OtherKit
from trial_room import TABLES, crates_below
from trial_room import sources_of as sources_of_crate

SCRIPTS = ("checks/wrong_bodies.py", "checks/wrong_bodies_parts/*.py", "checks/trial_room.py",
           "tools/unproved.sh", "crates.txt", "trials/crates")
# the checks, and what they take from elsewhere
CHECKS = ("checks/*.py", "checks/*.c", "python/acquire/*.py", "examples/**/*")


def sum_of_texts(texts: list[str]) -> str:
    """One checksum of all these texts, of which none runs into the next."""
    return hashlib.sha256("\0".join(texts).encode()).hexdigest()


@functools.cache
def sum_of_files(patterns: tuple[str, ...]) -> str:
    """A checksum of the names and the contents of files, as seen from the top."""
    sums = hashlib.sha256()
    for pattern in patterns:
        for name in sorted(glob.glob(pattern, root_dir=TOP, recursive=True)):
            if os.path.isfile(f"{TOP}/{name}"):
                with open(f"{TOP}/{name}", "rb") as file:
                    content = hashlib.sha256(file.read()).hexdigest()
                sums.update(f"{name}\0{content}\0".encode())
    return sums.hexdigest()


@functools.cache
def kit() -> str:
    """What rt calls itself."""
    try:
        return subprocess.run(["rt", "version"], capture_output=True, text=True, check=True).stdout
    except (OSError, subprocess.CalledProcessError) as fault:
        raise OtherKit(f"rt version fails: {fault}") from fault


def sources_of(program: str) -> tuple[str, ...]:
    """The sources of a program and of all crates that it stands on, as patterns."""
    found, due = set(), [program]
    while due:
        crate = due.pop()
        if crate not in found:
            found.add(crate)
            due += crates_below()[crate]
    return tuple(sources_of_crate(crate) for crate in sorted(found))


def sum_of_runs(name: str, is_table: bool) -> str:
    """A checksum of what a run of a table shows with the right bodies, or of what all checks of a
    program do."""
    program = TABLES[name][0] if is_table else name
    read = (f"trials/{name}/stdin", f"trials/{name}/stdout") if is_table else CHECKS
    return sum_of_texts([kit(), sum_of_files((*SCRIPTS, *sources_of(program), *read))])


def sum_of_edit(edit: Edit, line: tuple[str, str]) -> str:
    """A checksum of a body and of what its line says."""
    return sum_of_texts([edit.name, str(edit.same), *lines_of(edit.file), *line])


class Kept:
    """The checksums of the bodies that passed, by name, in a file."""

    def __init__(self, file: str):
        self.file = file
        self.sums: dict[str, str] = {}
        if os.path.exists(file):
            with open(file, encoding="utf-8") as kept:
                self.sums = json.load(kept)

    def has(self, name: str, wanted: str) -> bool:
        """Whether the body passed when all was as this checksum says."""
        return self.sums.get(name) == wanted

    def write(self, passed: dict[str, str], known: set[str]) -> None:
        """Keeps what has passed, beside what was kept of other bodies that are still known."""
        left = {name: it for name, it in self.sums.items() if name in known}
        with open(f"{self.file}.new", "w", encoding="utf-8") as kept:
            json.dump({**left, **passed}, kept, indent=0, sort_keys=True)
        os.replace(f"{self.file}.new", self.file)
