"""A room where the crates of trials stand beside the project's own, to be compiled without proof.

The sources of trials end in .rs in the repository, since a .rt file is one that is proved. In the
room they end in .rt, as the compiler wants them.
"""

from __future__ import annotations

import functools
import glob
import os
import shutil
import subprocess

TOP = os.path.realpath(os.path.join(os.path.dirname(os.path.abspath(__file__)), ".."))
# The tables, each with the program that reads it and that one's words.
TABLES: dict[str, tuple[str, list[str]]] = {
    "language_trials": ("tables", ["language_trials"]),
    "edge_trials": ("tables", ["edge_trials"]),
    "store_trials": ("tables", ["store_trials"]),
    "program_rows": ("program_rows", []),
    "answer_trials": ("tables", ["answer_trials"]),
}


class OtherKit(Exception):
    """The kit calls its tools in another way than is known here."""


def lists() -> str:
    """The crates of the project and those of trials, as crates.txt has them."""
    texts = []
    for name in ("crates.txt", "trials/crates"):
        with open(f"{TOP}/{name}", encoding="utf-8") as file:
            texts.append(file.read())
    return "\n".join(texts)


@functools.cache
def crates_below() -> dict[str, list[str]]:
    """The crates that each crate takes from, those of the kit left out."""
    lines = (line.split("#")[0].partition(":") for line in lists().split("\n"))
    uses = {name.strip(): below.split() for name, colon, below in lines if colon}
    return {name: [it for it in below if it in uses] for name, below in uses.items()}


def trial_crates() -> list[str]:
    """The folders of trials."""
    return sorted(os.path.basename(it) for it in glob.glob(f"{TOP}/trials/*") if os.path.isdir(it))


def sources_of(crate: str) -> str:
    """The sources of a crate, as a pattern seen from the top."""
    if crate in trial_crates():
        return f"trials/{crate}/src/**/*.rs"
    return f"crates/{crate}/src/**/*.rt"


def lay_out(room: str) -> str:
    """Lays the crates out in a room, and gives the folder that is the top of their repository."""
    top = f"{room}/tree"
    shutil.rmtree(top, ignore_errors=True)
    os.makedirs(top)
    for crate in crates_below():
        place = "trials" if crate in trial_crates() else "crates"
        for file in glob.glob(f"{TOP}/{sources_of(crate)}", recursive=True):
            below = os.path.relpath(file, f"{TOP}/{place}/{crate}")
            new = f"{top}/crates/{crate}/{os.path.splitext(below)[0]}.rt"
            os.makedirs(os.path.dirname(new), exist_ok=True)
            shutil.copyfile(file, new)
    with open(f"{top}/crates.txt", "w", encoding="utf-8") as file:
        file.write(lists())
    shutil.copy(f"{TOP}/HANDLES", top)
    return top


def lay_out_kit(room: str) -> None:
    """Makes a copy of the kit, of links, that leaves a program as `linked` in the room."""
    os.makedirs(room, exist_ok=True)
    for name in ("kit", "from", "words", "linked"):
        if os.path.isdir(f"{room}/{name}") and not os.path.islink(f"{room}/{name}"):
            shutil.rmtree(f"{room}/{name}")
        elif os.path.lexists(f"{room}/{name}"):
            os.remove(f"{room}/{name}")
    copy = '. "$1/tools/unproved.sh"; room=$2; lay_out_kit'
    try:
        subprocess.run(["sh", "-c", copy, "sh", TOP, room], check=True, capture_output=True)
    except (OSError, subprocess.CalledProcessError) as fault:
        raise OtherKit(f"the kit isn't laid out: {fault}") from fault


def lanes() -> int:
    """How many programs are compiled side by side where no number is given."""
    said = subprocess.run([f"{TOP}/tools/lanes.sh"], capture_output=True, text=True, check=True)
    return int(said.stdout)
