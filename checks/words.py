#!/usr/bin/env python3
"""What the script `acquire` answers without a build is what the program says.

usage: checks/words.py PROGRAM [NUMBER]

NUMBER lists of words (800) are drawn: some plain, some with a word more, less or changed, and some
with `--`. Each is given to PROGRAM, and to a copy of the script beside which nothing is built and no
kit is there. Where the program prints the usage line, or finds no session since no file has the
journal's name, the script prints the same, with the same status; and else it says that it can't
build. For half of the lists each word is the name of a file, without a byte. The script's own words
are left out.
"""

import os
import random
import shutil
import subprocess
import sys
import tempfile

TOP = os.path.join(os.path.dirname(os.path.abspath(__file__)), "..")
OPTIONS = {
    "new": ["--plan"], "run": ["--budget"], "play": ["--budget"], "show": [], "back": [], "reduce": ["--budget"], "cnf": [], "model": [],
    "certify": ["--budget"], "check": [], "try": ["--plan", "--budget"], "demo": ["--number", "--budget"],
}
IN_MEMORY = ["check", "try", "demo"]
VALUES = {
    "--plan": ["multi", "scopes", "quacq", "fast", "", "Quacq"],
    "--budget": ["1", "1000000000", "1000000001", "0", "007", "+7", "-7", "five", "", "99999999999999999999", "+"],
    "--number": ["0", "4294967295", "4294967296", "000", "+5", "x", "1_0"],
}
JOURNALS = ["j", "run", "help", ":memory:", ":memory:", "some journal", "-j", "-"]
OTHERS = ["more", "--fast", "-x", "--plan", "--budget", "--number", "--plan=", "-", "shwo", *["--"] * 2]
NO_SESSION = ("refused journal no session\n", 3)
NOT_BUILT = ("", 70)


def drawn(draws):
    """A list of words, most often one that is right or nearly so."""
    command = draws.choice(list(OPTIONS))
    options = []
    for name in draws.sample(sorted(VALUES), 1) if draws.random() < 0.2 else OPTIONS[command]:
        value = draws.choice(VALUES[name][: draws.choice([2, 2, 2, None])])
        options.append([f"{name}={value}"] if draws.random() < 0.4 else [name, value])
    journal = ":memory:" if command in IN_MEMORY else draws.choice(JOURNALS)
    words = [[journal], [command], *options]
    if draws.random() < 0.2:
        draws.shuffle(words)
    if draws.random() < 0.2:
        words.insert(draws.randrange(len(words) + 1), [draws.choice(OTHERS)])
    if draws.random() < 0.1:
        del words[draws.randrange(len(words))]
    return [word for some in words for word in some]


def unbuilt(room):
    """A copy of the script beside which nothing is built, and an environment without a kit."""
    os.makedirs(f"{room}/top/crates/acquire/src")
    os.makedirs(f"{room}/tools")
    shutil.copy(f"{TOP}/acquire", f"{room}/top/acquire")
    shutil.copytree(f"{TOP}/tools", f"{room}/top/tools")
    for name in ("crates.txt", "HANDLES"):
        shutil.copy(f"{TOP}/{name}", f"{room}/top/{name}")
    with open(f"{room}/top/crates/acquire/src/main.rt", "w", encoding="utf-8"):
        pass
    for name in ("sh", "awk", "sed", "find", "head", "sort", "dirname", "readlink", "rm", "cat", "sha256sum", "touch", "date", "mkdir"):
        os.symlink(shutil.which(name), f"{room}/tools/{name}")
    return f"{room}/top/acquire", {"PATH": f"{room}/tools"}


def with_files(room):
    """A folder in which each word that may come is a file without a byte."""
    folder = f"{room}/files"
    os.mkdir(folder)
    values = {value for some in VALUES.values() for value in some}
    for name in {*JOURNALS, *OPTIONS, *OTHERS, *values} - {":memory:", ""}:
        with open(f"{folder}/{name}", "wb"):
            pass
    return folder


def main():
    if len(sys.argv) not in (2, 3):
        sys.exit(__doc__)
    program = os.path.abspath(sys.argv[1])
    number = int(sys.argv[2]) if len(sys.argv) == 3 else 800
    draws, failed, refused, missed = random.Random(20), 0, 0, 0
    with tempfile.TemporaryDirectory() as room:
        script, environment = unbuilt(room)
        folder = with_files(room)
        how = {"stdin": subprocess.DEVNULL, "capture_output": True, "text": True, "timeout": 120}
        for _ in range(number):
            words, there = drawn(draws), draws.random() < 0.5
            if words in ([], ["help"]):
                continue
            at = folder if there else room
            ran = subprocess.run([program, *words], cwd=at, **how)
            said = subprocess.run([script, *words], cwd=at, env=environment, **how)
            due = (ran.stdout, ran.returncode)
            is_refused = due[0].startswith("usage: ")
            is_missed = due == NO_SESSION and not there and ":memory:" not in words
            refused += is_refused
            missed += is_missed
            if (said.stdout, said.returncode) != (due if is_refused or is_missed else NOT_BUILT):
                failed += 1
                printed = f"{said.stdout + said.stderr!r}, status {said.returncode}"
                print(f"words: {words}, {'' if there else 'no '}files: {due}, and the script: {printed}")
    told = f"{refused} of which the program refuses, {missed} without a file"
    print(f"words: {number} lists of words, {told}; {failed} failed")
    sys.exit(1 if failed else 0)


main()
