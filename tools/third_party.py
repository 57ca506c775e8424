#!/usr/bin/env python3
"""Lists what the program links besides this repository's own crates, with the licence of each part.

usage: tools/third_party.py > THIRD-PARTY.md
       tools/third_party.py --texts FOLDER      puts the texts of these licences into FOLDER, for whoever gets the program alone

The libraries are those that crates.txt names for the program and the crates below it, and those that stand below these in the kit. A
library's licences are read from its folder in the kit; of one that has none there, that is said. checks/documents.py holds the page
to this where the kit that made it is there.
"""

import os
import re
import shutil
import subprocess
import sys

TOP = os.path.join(os.path.dirname(os.path.abspath(__file__)), "..")
HEAD = """# Third parties

What the program `acquire` links besides the crates of this repository, which are under [MIT](LICENSE-MIT) or
[Apache 2.0](LICENSE-APACHE) as you choose. Made by `tools/third_party.py` with `{kit}`:
the libraries are the kit's, ports of Rust crates or its own, and each one's licence is the one that lies beside its sources
there. A release has these texts in share/doc/acquire/licences. The C library is the system's. `desk` links nothing; it calls
Python's `rich` (MIT), `flask` (BSD 3-clause) and `waitress` (ZPL 2.1), which the system installs.

| library | what the kit says of it | licence texts in the kit |
|---|---|---|
"""


def kit_folder():
    page = subprocess.run(["rt", "doc"], capture_output=True, text=True, check=True).stdout.strip()
    return os.path.dirname(page)


def used_by_program():
    """The names of the libraries that crates.txt gives the program and the crates below it."""
    below = {}
    with open(f"{TOP}/crates.txt", encoding="utf-8") as file:
        for line in file:
            name, colon, words = line.partition("#")[0].partition(":")
            if colon:
                below[name.split()[0]] = words.split()
    found, left = set(), ["acquire"]
    while left:
        name = left.pop()
        for word in below[name]:
            if word in below:
                left.append(word)
            found.add(word)
    return found - set(below)


def with_those_below(kit, names):
    """The libraries of these names and all that stand below them in the kit, in order. std's own parts are one."""
    found, left = set(), [*names, "std"]
    while left:
        name = left.pop()
        if name not in found:
            found.add(name)
            below = f"{kit}/rlibs/{name}.rlib/below"
            left += os.listdir(below) if os.path.isdir(below) else []
    return sorted(found)


def licences_of(kit, name):
    folder = f"{kit}/rattle/{name}"
    return sorted(it for it in os.listdir(folder) if it.startswith("LICENSE")) if os.path.isdir(folder) else []


def row_of(kit, name):
    """A library's row: what its page says in its first sentences of prose, and its licence files."""
    folder = f"{kit}/rattle/{name}"
    said = ""
    if os.path.isfile(f"{folder}/README.md"):
        with open(f"{folder}/README.md", encoding="utf-8") as file:
            paragraphs = [it.replace("\n", " ").strip() for it in file.read().split("\n\n")]
        prose = next((it for it in paragraphs if it and not it.startswith(("#", "```"))), "")
        said = " ".join(re.split(r"(?<=[.:]) ", prose)[:2]).rstrip(":").replace("|", "\\|")
    licences = ", ".join(f"`{it}`" for it in licences_of(kit, name))
    return f"| `{name}` | {said or 'a part of the kit'} | {licences or 'none of its own'} |"


def put_texts(kit, names, to):
    """Copies each library's licence texts into a folder of its name."""
    for name in names:
        for licence in licences_of(kit, name):
            os.makedirs(f"{to}/{name}", exist_ok=True)
            shutil.copyfile(f"{kit}/rattle/{name}/{licence}", f"{to}/{name}/{licence}")


def main():
    if sys.argv[1:2] not in ([], ["--texts"]) or len(sys.argv) == 2:
        sys.exit(__doc__)
    kit = kit_folder()
    names = with_those_below(kit, used_by_program())
    if len(sys.argv) == 3:
        put_texts(kit, names, sys.argv[2])
        return
    version = subprocess.run(["rt", "version"], capture_output=True, text=True, check=True).stdout.strip()
    print(HEAD.format(kit=version), end="")
    for name in names:
        print(row_of(kit, name))


main()
