#!/usr/bin/env python3
"""An import names what is there: `rt ci` finds one that doesn't after an hour, and this in a second.

usage: checks/imports.py

Of each name that a specification, a proof or a contract takes from a module of this repository:

- the crate is the own one or stands below it in crates.txt;
- the module's file is there, and another crate's module is public;
- the module defines the name, publicly, or passes it on by `pub use`.

What the prover makes by itself, as `specs.declared` and a function's `Goals`, is passed over.
"""

import glob
import os
import re
import sys

TOP = os.path.realpath(os.path.join(os.path.dirname(os.path.abspath(__file__)), ".."))
USE = re.compile(r"^[ \t]*(?P<marks>(?:(?:pub|ghost|unfoldable|abbrev|pattern) )*)use Rattle\.(?P<path>[\w.+\-]+?)\.?(?:\{(?P<names>[^}]*)\}|(?P<whole> as [\w\-]+)?;?$)", re.M)
MADE = re.compile(r"\.(?:declared|contracts|TheConstants|TheVariants|Ghosts)\b|\.(?:Goals|Given|Named|Code)$")
PRIVATE = re.compile(r"^(?:(?:pattern|unfoldable|abbrev) )*(?:data |record )?((?!(?:pub|data|record|pattern|unfoldable|abbrev) )[^\s(){}:;,]+)(?: [^:=]*)? : ", re.M)


def crates_below():
    """For each crate the crates that it may take from, itself among them."""
    lists = {}
    with open(f"{TOP}/crates.txt", encoding="utf-8") as file:
        for line in file:
            name, colon, below = line.split("#")[0].partition(":")
            if colon:
                lists[name.strip()] = below.split()
    found = {}
    for name, below in lists.items():
        found[name], left = {name}, list(below)
        while left:
            it = left.pop()
            if it in lists and it not in found[name]:
                found[name].add(it)
                left += lists[it]
    return found


class Module:
    """What a file of specifications or lemmas defines publicly, passes on, and only takes."""

    def __init__(self, path):
        with open(path, encoding="utf-8") as file:
            text = re.sub(r"^[ \t]*--.*$", "", file.read(), flags=re.M)
        self.passed, self.taken = set(), set()
        for use in USE.finditer(text):
            names = {it.split(" as ")[-1].strip() for it in (use["names"] or "").split(",")} - {""}
            (self.passed if "pub" in use["marks"].split() else self.taken).update(names)
        rest = USE.sub("", text)
        self.words = set(re.findall(r"[^\s(){}\[\],;.\"]+", rest))
        self.own = set(PRIVATE.findall(rest))

    def has(self, name):
        return name in self.passed or name in self.words and name not in self.taken | self.own


def public_modules(crate, kind):
    path = f"{TOP}/crates/{crate}/{kind}/Lib.antt"
    if not os.path.exists(path):
        return set()
    with open(path, encoding="utf-8") as file:
        return set(re.findall(r"^pub mod (\S+)", file.read(), re.M))


def main():
    below = crates_below()
    modules, public, faults, count = {}, {}, [], 0
    for path in sorted(glob.glob(f"{TOP}/crates/*/*/**/*.antt", recursive=True) + glob.glob(f"{TOP}/crates/*/src/**/*.rt", recursive=True)):
        where = os.path.relpath(path, TOP)
        crate, kind = where.split(os.sep)[1:3]
        if kind not in ("specs", "proofs", "src"):
            continue
        with open(path, encoding="utf-8") as file:
            text = file.read()
        for use in USE.finditer(text):
            parts = use["path"].split(".")
            if parts[0] not in below or MADE.search(use["path"]):
                continue
            count += 1
            place = f"{where}:{text.count(chr(10), 0, use.start()) + 1}"
            if parts[0] not in below[crate]:
                faults.append(f"{place}: {parts[0]} doesn't stand below {crate}")
                continue
            file = f"{TOP}/crates/{'/'.join(parts)}.antt"
            if not os.path.exists(file):
                faults.append(f"{place}: there is no {use['path']}")
                continue
            if parts[0] != crate:
                key = parts[0], parts[1]
                if parts[2] not in public.setdefault(key, public_modules(*key)):
                    faults.append(f"{place}: {use['path']} isn't public")
            if file not in modules:
                modules[file] = Module(file)
            module = modules[file]
            for name in (use["names"] or "").split(","):
                name = name.split(" as ")[0].strip()
                if name and not module.has(name):
                    faults.append(f"{place}: {use['path']} has no {name}")
    for fault in faults:
        print(fault)
    print(f"imports: {count} looked at, {len(faults)} faults")
    return 1 if faults or not count else 0


if __name__ == "__main__":
    sys.exit(main())
