"""A table in Markdown, a row a case, as the benches print it while they go."""

import argparse
import os
import sys


def words_of(script, usage, *options):
    """The words of a bench, which prints its own page where there are none.

    `script` is the page, and `usage` the line in it behind the name of the program. An option is
    its names and what argparse takes for it.
    """
    words = argparse.ArgumentParser(usage=usage)
    words.add_argument("program")
    for names, kinds in options:
        words.add_argument(*names, **kinds)
    if len(sys.argv) < 2:
        print(script)
        sys.exit(2)
    given = words.parse_args()
    given.program = os.path.realpath(given.program)
    return given


def head(*names):
    """Prints the head of a table."""
    print(f"| {' | '.join(names)} |\n|{'---|' * len(names)}", flush=True)


def row(*cells):
    """Prints a row."""
    print(f"| {' | '.join(map(str, cells))} |", flush=True)


def table(names, rows):
    """Prints a table and ends the program, with status 1 where a row isn't right.

    `rows` gives for each a name and a function that makes its cells. Where that fails by an
    assertion, the name and the reason stand in place of the row.
    """
    head(*names)
    right = True
    for name, make in rows:
        try:
            row(*make())
        except AssertionError as fault:
            print(f"{name}: {fault}", flush=True)
            right = False
    sys.exit(0 if right else 1)
