#!/usr/bin/env python3
"""What a certificate of a learned network costs: to make, to keep, and to check.

usage: bench/certs.py PROGRAM [--budget N] [--case WORD]

PROGRAM is the built program, as crates/acquire/out/acquire. The cases of bench/search.py are learned by `play` over a journal, each in
its plan; then `certify` writes the certificate and `check` checks it, on one processor and on all of them, since its list is checked in
eight parts. The budget of `certify` is 1,000,000 where no other is named, as a tree may have more branches than the search that
found nothing has steps. A table in Markdown comes: how many constraints were learned, how many candidates the certificate lists, its
bytes, the seconds of a processor for `certify` and for `check`, and the seconds that `check` takes on one processor and on all.
Where `certify` refuses, its line is shown in place of the number of candidates.

Seen to: `check` confirms each certificate, and prints the network that was learned. Where that isn't so the status is 1. Nothing is
asserted of the times.
"""

import json
import os
import subprocess
import sys
import tempfile
import time

sys.dont_write_bytecode = True
from journals import Cost
from printed import table, words_of
from search import cases, milliseconds

REFUSED = (16, 17)
BUDGET = "1000000"


def elapsed(words, given):
    """The seconds that a run takes."""
    begun = time.monotonic()
    subprocess.run(words, input=given, stdout=subprocess.DEVNULL, check=False)
    return time.monotonic() - begun


def row_of(program, case, budget):
    options = list(zip(case.words[::2], case.words[1::2]))
    words_of = lambda name: [word for option in options if option[0] == name for word in option]
    target = json.dumps(
        [text.split(" ") for text in case.task.constraints], separators=(",", ":")
    ).encode()
    with tempfile.TemporaryDirectory(
        dir="/dev/shm" if os.path.isdir("/dev/shm") else None
    ) as folder:
        journal = os.path.join(folder, "journal")
        made = Cost(
            [program, journal, "new", *words_of("--plan")],
            case.vocabulary.encode(),
            subprocess.DEVNULL,
        )
        assert made.status == 0, "new is refused"
        played = Cost([program, journal, "play", *words_of("--budget")], target, subprocess.PIPE)
        learned = [
            line
            for line in played.text.splitlines()
            if line[:1] != "q" and not line.startswith("open ")
        ]
        cost = Cost([program, journal, "certify", "--budget", budget], b"", subprocess.PIPE)
    head = [case.name, learned[0].split(" ")[0], f"{len(learned) - 1:,}"]
    if cost.status in REFUSED:
        return [*head, cost.text.splitlines()[0], "", milliseconds(cost.processor), "", "", ""]
    assert cost.status == 0, f"certify ends with status {cost.status}"
    listed = next(
        line for line in cost.text.splitlines()[::-1] if line.startswith("implied ")
    ).split(" ")[1]
    words = [program, ":memory:", "check"]
    text = cost.text.encode()
    checked = Cost(words, text, subprocess.PIPE)
    assert checked.status == 0, f"check ends with status {checked.status}"
    assert checked.text.splitlines()[1:] == learned[1:], "check prints another network"
    alone = elapsed(["taskset", "-c", "0", *words], text)
    together = elapsed(words, text)
    return [
        *head,
        f"{int(listed):,}",
        f"{len(text):,}",
        milliseconds(cost.processor),
        milliseconds(checked.processor),
        milliseconds(alone),
        milliseconds(together),
    ]


def main():
    given = words_of(
        __doc__,
        "bench/certs.py PROGRAM [--budget N] [--case WORD]",
        (["--budget"], {"default": BUDGET}),
        (["--case"], {"default": ""}),
    )
    heads = ["case", "ending", "learned", "listed", "bytes", "ms of certify", "ms of check"]
    heads += ["waited on one", "waited on all"]
    rows = (
        (case.name, lambda case=case: row_of(given.program, case, given.budget))
        for case in (make() for _, make in cases())
        if given.case in case.name
    )
    table(heads, rows)


if __name__ == "__main__":
    main()
