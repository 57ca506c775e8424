#!/usr/bin/env python3
"""docs/vocabulary.schema.json beside the program, which judges vocabularies.

usage: checks/schema.py PROGRAM

The schema takes each example's vocabulary, finds each usual mistake of the list below at its place, and never refuses what the program
takes: that is tried over the examples with 600 changes at random places. It needs python3-jsonschema; without it that is said in a
line and nothing is done.
"""

import copy
import glob
import json
import os
import random
import subprocess
import sys

TOP = os.path.join(os.path.dirname(os.path.abspath(__file__)), "..")
CHANGES = 600
PAIR = {"variables": ["a", "b"], "domain": [1, 3], "relations": [{"name": "ne", "arity": 2, "formula": ["!=", "$0", "$1"]}], "scopes": "all"}
# What is put at a place of PAIR, and the place at which the schema finds it. Without a value the place is taken away.
MISTAKES = [
    (("domain",), None, ()),
    (("scope",), [["a", "b"]], ()),
    (("variables",), "a b", ("variables",)),
    (("variables", 1), "b c", ("variables", 1)),
    (("variables", 1), "b=1", ("variables", 1)),
    (("variables", 1), "a", ("variables",)),
    (("domain",), [1, 2, 3], ("domain",)),
    (("domain", 1), 2.5, ("domain", 1)),
    (("domain", 1), "3", ("domain", 1)),
    (("scopes",), "All", ("scopes",)),
    (("relations", 0, "arity"), 5, ("relations", 0, "arity")),
    (("relations", 0, "tuples"), [[1, 2]], ("relations", 0)),
    (("relations", 0, "formula"), None, ("relations", 0)),
    (("relations", 0, "formula"), ["==", "$0", "$1"], ("relations", 0, "formula")),
    (("relations", 0, "formula"), ["!=", "$0", "$4"], ("relations", 0, "formula")),
    (("relations", 0, "formula"), ["!=", "$0"], ("relations", 0, "formula")),
    (("relations", 0, "formula"), ["+", "$0", "$1"], ("relations", 0, "formula")),
    (("ranges",), [["a", 1]], ("ranges", 0)),
]
VALUES = [None, True, -1, 0, 2, 65, 1.5, 2**63, "", "a", "$0", "all", "x y", [], ["a"], [1, 2], {}, ["not", ["=", "$0", 1]], ["abs", "$1"]]


def changed(vocabulary, place, value):
    """A copy with another value at a place, or without what is there."""
    found = copy.deepcopy(vocabulary)
    at = found
    for step in place[:-1]:
        at = at[step]
    if value is None and place[-1] in at:
        del at[place[-1]]
    else:
        at[place[-1]] = value
    return found


def places(value, at=()):
    """All places within a value."""
    steps = value.items() if isinstance(value, dict) else enumerate(value) if isinstance(value, list) else ()
    for step, inner in steps:
        yield (*at, step)
        yield from places(inner, (*at, step))


def takes(program, vocabulary):
    ran = subprocess.run([program, ":memory:", "new"], input=json.dumps(vocabulary).encode(), capture_output=True, check=False)
    return ran.returncode == 0


def drawn(examples, draws):
    """An example with one value changed, taken away, or put where none was."""
    vocabulary = draws.choice(examples)
    place = draws.choice([it for it in places(vocabulary) if it != ("scopes",)])
    return changed(vocabulary, place, draws.choice(VALUES))


def main():
    if len(sys.argv) != 2:
        sys.exit(__doc__)
    program = os.path.abspath(sys.argv[1])
    try:
        from jsonschema import Draft202012Validator
    except ImportError:
        print("schema: passed over: python3-jsonschema isn't there, so no vocabulary is tried")
        print("schema: 0 vocabularies, 0 failed")
        return 0
    with open(f"{TOP}/docs/vocabulary.schema.json", encoding="utf-8") as file:
        schema = json.load(file)
    Draft202012Validator.check_schema(schema)
    judge, failed = Draft202012Validator(schema), []
    examples = []
    for path in sorted(glob.glob(f"{TOP}/examples/*/vocabulary.json")):
        with open(path, encoding="utf-8") as file:
            examples.append(json.load(file))
        failed += [f"{path}: {it.message}" for it in judge.iter_errors(examples[-1])]
    for place, value, due in MISTAKES:
        wrong = changed(PAIR, place, value)
        found = {tuple(it.absolute_path) for it in judge.iter_errors(wrong)}
        if due not in found or takes(program, wrong):
            failed.append(f"{value!r} at {place}: the schema finds faults at {found}, and not at {due}, or the program takes it")
    draws, refused = random.Random(3), 0
    for _ in range(CHANGES):
        vocabulary = drawn(examples, draws)
        if not judge.is_valid(vocabulary):
            refused += 1
            if takes(program, vocabulary):
                failed.append(f"the program takes what the schema refuses: {json.dumps(vocabulary)[:300]}")
    print("".join(f"schema: {it}\n" for it in failed), end="")
    print(f"schema: {len(examples) + len(MISTAKES) + CHANGES} vocabularies, {refused} changed ones refused by it, {len(failed)} failed")
    return 1 if failed else 0


raise SystemExit(main())
