#!/usr/bin/env python3
"""Which functions are dear to prove, of crates that `rt check` has proved.

usage: tools/dear.py CRATE..

A check keeps a file for each module of a function's proof in the crate's out/incremental, and a file's time says when it was done. A
row has the size in MB of what the prover made of the function's steps and exits (`Lts`: some second for each MB, more where it is
large), the seconds that went into what its `Proof` searches for, and the function. Other work makes the seconds longer, and not the
sizes. A function that calls itself is done at the end, so its seconds mean nothing.

Large steps and exits come of many early ends beside many values that have a drop: make the values in one function, and look at them
in another, which borrows. Long searches end where an answer cites what the goal follows from.
"""
import collections
import os
import re
import sys

TOP = os.path.dirname(os.path.dirname(os.path.abspath(__file__)))
MOST = 40


def rows_of(crate):
    kept = os.path.join(TOP, "crates", crate, "out", "incremental")
    folders = [os.path.join(kept, it) for it in os.listdir(kept) if it.startswith("antt-checked")] if os.path.isdir(kept) else []
    if not folders:
        sys.exit(f"{crate}: nothing is kept; call `rt check` in its folder first")
    folder = max(folders, key=os.path.getmtime)
    form = re.compile(rf"Rattle-{crate}-proofs\.(.*)\.(Lts|Proof|Layout|Tie|Answers|Named|Code)\.oantt$")
    parts = collections.defaultdict(dict)
    for name in os.listdir(folder):
        if found := form.match(name):
            parts[found[1]][found[2]] = os.stat(os.path.join(folder, name))
    for function, files in parts.items():
        if "Proof" in files:
            end = files["Proof"].st_mtime
            begun = max([it.st_mtime for part, it in files.items() if part != "Proof" and it.st_mtime <= end], default=end)
            yield (files["Lts"].st_size / 1e6 if "Lts" in files else 0.0), end - begun, f"{crate}::{function}"


def main():
    if not sys.argv[1:]:
        sys.exit(__doc__)
    rows = sorted((row for crate in sys.argv[1:] for row in rows_of(crate)), key=lambda row: -row[0] - row[1])
    for size, seconds, function in rows[:MOST]:
        print(f"{size:6.2f} MB {seconds:6.1f} s  {function}")
    print(f"{sum(it[0] for it in rows):6.1f} MB {sum(it[1] for it in rows):6.1f} s  {len(rows)} functions in all")


main()
