#!/usr/bin/env python3
"""How many constraints `reduce` leaves of what was learned, and what that costs.

usage: bench/reduced.py PROGRAM [--budget N] [--case WORD]

PROGRAM is the built program, as crates/acquire/out/acquire. The cases of bench/search.py are learned by `play` over a journal, each in
its plan, the long ones too; then `reduce` is called, under the default budget where no other is named. A table in Markdown comes: the
constraints that were learned, those that remain, the seconds of a processor for `reduce` and its status. Where it is refused since a
search was spent, its line is shown in place of the number.

Seen to: what remains is a part of what was learned, in the same order. Where that isn't so the status is 1. Nothing is asserted of
the times.
"""

import json
import os
import subprocess
import sys
import tempfile

sys.dont_write_bytecode = True
from journals import Cost
from printed import table, words_of
from search import cases, milliseconds

SPENT = 20


def is_part(part, whole):
    """Whether these lines stand in the others, in this order."""
    rest = iter(whole)
    return all(line in rest for line in part)


def row_of(program, case, budget):
    options = list(zip(case.words[::2], case.words[1::2]))
    words_of = lambda name: [word for option in options if option[0] == name for word in option]
    target = json.dumps(
        [text.split(" ") for text in case.task.constraints], separators=(",", ":")
    ).encode()
    with tempfile.TemporaryDirectory(
        dir="/dev/shm" if os.path.isdir("/dev/shm") else None
    ) as folder:
        journal = os.path.join(folder, "journal")
        made = Cost(
            [program, journal, "new", *words_of("--plan")],
            case.vocabulary.encode(),
            subprocess.DEVNULL,
        )
        assert made.status == 0, "new is refused"
        played = Cost([program, journal, "play", *words_of("--budget")], target, subprocess.PIPE)
        lines = [
            line
            for line in played.text.splitlines()
            if line[:1] != "q" and not line.startswith("open ")
        ]
        learned = lines[1:]
        cost = Cost([program, journal, "reduce", *budget], b"", subprocess.PIPE)
    said = cost.text.splitlines()
    if cost.status == SPENT:
        left = said[0]
    else:
        assert cost.status == 0, f"reduce ends with status {cost.status}"
        assert said[0] == f"reduced {len(said) - 1} of {len(learned)}", said[0]
        assert is_part(said[1:], learned), "what remains is no part of what was learned"
        left = f"{len(said) - 1:,}"
    return [
        case.name,
        lines[0].split(" ")[0],
        f"{len(learned):,}",
        left,
        milliseconds(cost.processor),
    ]


def main():
    given = words_of(
        __doc__,
        "bench/reduced.py PROGRAM [--budget N] [--case WORD]",
        (["--budget"], {}),
        (["--case"], {"default": ""}),
    )
    budget = ["--budget", given.budget] if given.budget else []
    rows = (
        (case.name, lambda case=case: row_of(given.program, case, budget))
        for case in (make() for _, make in cases())
        if given.case in case.name
    )
    table(["case", "ending", "learned", "left", "ms of reduce"], rows)


if __name__ == "__main__":
    main()
