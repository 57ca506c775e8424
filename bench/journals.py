#!/usr/bin/env python3
"""What a journal costs: an answer that is kept in a file, and the opening of long files.

usage: bench/journals.py PROGRAM [FOLDER]

PROGRAM is the built program, as crates/acquire/out/acquire. The files are made in FOLDER, or where temporary files go. The
session is one of plan scopes, with 128 variables, all pairs of them and 64 relations, which holds after 520,192 answers that
nothing has to hold: the longest that was found. Its files are written here by the form in docs/formats.md. Beyond it there is
no place for a further answer, and beyond 1,000,000 records there are too many.

First comes what an answer takes that is kept in a file, and one of `try`, each over a pipe, and of `try` where the input is a file;
and, where strace is there, the system calls for one that is kept. Then come for each file the seconds, those of a processor and,
where GNU time is there, the most memory that `run` takes without any answer, and what it prints, and those of `show`. Nothing is
asserted of the times; a file for which another line comes than the expected one is marked, and then the status is 1.
"""

import itertools
import json
import os
import resource
import shutil
import subprocess
import sys
import tempfile
import time

import small_stacks  # (for what it sets)

MAGIC = b"QUACQJ1\n"
VARIABLES = 128
VALUES = 8
RELATIONS = 64
ANSWERS = VARIABLES * (VARIABLES - 1) // 2 * RELATIONS
# How many answers are timed, in a file and of `try`.
FILED, TRIED = 1_000, 100_000


def vocabulary():
    """Relation number i accepts the first i pairs of values. So each scope is settled after 64 answers, all of them yes."""
    place = ["+", ["*", VALUES, "$0"], "$1"]
    whole = {
        "variables": [f"v{i}" for i in range(VARIABLES)],
        "domain": [0, VALUES - 1],
        "relations": [{"name": f"r{i}", "arity": 2, "formula": ["<", place, i]} for i in range(RELATIONS)],
        "scopes": "all",
    }
    return json.dumps(whole, separators=(",", ":")).encode()


def answers():
    """The records of the answers, and after the last one some that have no place."""
    scopes = list(itertools.combinations(range(VARIABLES), 2))
    for one, other in itertools.chain(scopes, scopes):
        for x, y in itertools.product(range(VALUES), repeat=2):
            yield b"\1A\0\0\0\6" + bytes([1, 2, one, x, other, y])


def write_journal(path, records):
    with open(path, "wb") as file:
        payload = b"\1" + vocabulary()
        file.write(MAGIC + b"\1S" + len(payload).to_bytes(4, "big") + payload)
        for record in itertools.islice(answers(), records - 1):
            file.write(record)
        file.write(b"\0")


class Cost:
    """What one start of the program took. Its input are the given bytes over a pipe, or a file that is open."""

    def __init__(self, words, given, out):
        is_file = hasattr(given, "fileno")
        timed = shutil.which("time")
        with tempfile.NamedTemporaryFile("r") as told:
            before, begun = resource.getrusage(resource.RUSAGE_CHILDREN), time.monotonic()
            run = subprocess.Popen(
                ([timed, "-f", "%M", "-o", told.name] if timed else []) + words,
                stdin=given if is_file else subprocess.PIPE,
                stdout=out,
            )
            text, _ = run.communicate(None if is_file else given)
            self.seconds = time.monotonic() - begun
            after = resource.getrusage(resource.RUSAGE_CHILDREN)
            memory = told.read().split()
        self.processor = after.ru_utime + after.ru_stime - before.ru_utime - before.ru_stime
        self.memory = f"{int(memory[-1]) / 1024:.1f} MB" if memory else "? MB"
        self.text = (text or b"").decode()
        self.status = run.returncode

    def __str__(self):
        return f"{self.seconds:.2f} s, {self.processor:.2f} of a processor, {self.memory}"


def calls(words, given):
    """How often each system call was made. None at all where strace isn't there."""
    tracer = shutil.which("strace")
    if tracer is None:
        return {}
    with tempfile.NamedTemporaryFile("r") as told:
        subprocess.run([tracer, "-f", "-c", "-o", told.name, *words], input=given, stdout=subprocess.DEVNULL, check=False)
        rows = [line.split() for line in told]
    return {row[-1]: int(row[3]) for row in rows if len(row) >= 5 and row[3].isdigit() and row[-1] != "total"}


def answer_costs(program, folder):
    """What many answers take more than one, for each of them, and each the least of five times."""
    journal = os.path.join(folder, "answers")
    kept, loose = [program, journal, "run"], [program, ":memory:", "try", "--plan", "scopes"]
    first = vocabulary() + b"\n"

    def in_file(given):
        write_journal(journal, 1)
        return Cost(kept, given, subprocess.DEVNULL)

    def in_memory(given):
        return Cost(loose, first + given, subprocess.DEVNULL)

    def from_file(given):
        with tempfile.TemporaryFile(dir=folder) as file:
            file.write(first + given)
            file.seek(0)
            return Cost(loose, file, subprocess.DEVNULL)

    rows = [
        (f"that is kept in a file in {folder}", in_file, FILED),
        ("of `try`, which keeps none", in_memory, TRIED),
        ("of `try`, where the input is a file", from_file, TRIED),
    ]
    for name, start, more in rows:
        costs = [(start(b"yes\n"), start(b"yes\n" * (1 + more))) for _ in range(5)]
        seconds, processor = (
            min(spent(long) for _, long in costs) - min(spent(short) for short, _ in costs)
            for spent in (lambda cost: cost.seconds, lambda cost: cost.processor)
        )
        print(f"an answer {name}: {seconds / more * 1e6:,.1f} us, {processor / more * 1e6:,.1f} us of a processor")
    counts = []
    for given in [b"yes\n", b"yes\n" * (1 + FILED)]:
        write_journal(journal, 1)
        counts.append(calls(kept, given))
    more = {name: (count - counts[0].get(name, 0)) / FILED for name, count in counts[1].items()}
    told = ", ".join(f"{name} {count:g}" for name, count in sorted(more.items()) if count > 0.5)
    print(f"system calls for an answer: {told or 'strace is not there'}")


def main():
    if len(sys.argv) < 2:
        print(__doc__)
        sys.exit(2)
    program = os.path.realpath(sys.argv[1])
    right = True
    with tempfile.TemporaryDirectory(dir=sys.argv[2] if len(sys.argv) > 2 else None) as folder:
        answer_costs(program, folder)
        journal = os.path.join(folder, "journal")
        for records, expected in [
            (1, "suspended 0"),
            (1_000, "suspended 999"),
            (10_000, "suspended 9999"),
            (100_000, "suspended 99999"),
            (ANSWERS + 1, f"converged {ANSWERS}"),
            (ANSWERS + 2, f"refused journal stray {ANSWERS + 1}"),
            (1_000_000, f"refused journal stray {ANSWERS + 1}"),
            (1_000_001, "refused journal too many records"),
        ]:
            write_journal(journal, records)
            size = os.path.getsize(journal)
            run = Cost([program, journal, "run"], b"", subprocess.PIPE)
            show = Cost([program, journal, "show"], b"", subprocess.DEVNULL)
            line = run.text.rstrip("\n").split("\n")[-1]
            mark = "" if line == expected else f"   expected: {expected}"
            right = right and not mark
            print(f"{records:9,} records {size:10,} bytes   run {run}   show {show}   {line}{mark}", flush=True)
    sys.exit(0 if right else 1)


if __name__ == "__main__":
    main()
