#!/usr/bin/env python3
"""Times the reading of large and of hostile vocabularies.

usage: bench/vocabularies.py PROGRAM

PROGRAM is the built program, as crates/acquire/out/acquire. Each vocabulary is given on the first line of its input, and
no answer after it: what is timed is the reading of the vocabulary, and the first question where it is taken. A row shows
the seconds of a processor where the input is a file and where it is a pipe, from which each byte is asked for by itself; the most
memory, where GNU time is there; the status, and the first line that the program wrote. Nothing is asserted of the times; a row
whose first line isn't the expected one is marked, and then the status is 1.
"""

import json
import subprocess
import sys
import tempfile

sys.dont_write_bytecode = True
from journals import Cost

MOST = 4_194_304


def vocabulary(variables=None, domain=(1, 2), relations=None, scopes="all"):
    if variables is None:
        variables = ["a", "b"]
    if relations is None:
        relations = [relation("none")]
    whole = {
        "variables": variables,
        "domain": list(domain),
        "relations": relations,
        "scopes": scopes,
    }
    return json.dumps(whole, separators=(",", ":")).encode()


def relation(name, arity=2, **rule):
    return {"name": name, "arity": arity, **(rule or {"tuples": []})}


def names(count):
    return [f"v{i}" for i in range(count)]


def padded(piece, around=(b"", b""), between=b",", most=MOST):
    """As many copies of a piece as fit into the largest vocabulary."""
    room = most - len(around[0]) - len(around[1]) + len(between)
    return around[0] + between.join([piece] * (room // (len(piece) + len(between)))) + around[1]


def split(whole, mark):
    before, behind = whole.split(mark)
    return before, behind


def pairs(count, variables=128):
    """So many scopes of two variables each, in order."""
    all_pairs = ((i, j) for i in range(variables) for j in range(i + 1, variables))
    return [[f"v{i}", f"v{j}"] for (i, j), _ in zip(all_pairs, range(count))]


def triples(count, variables):
    found = []
    for i in range(variables):
        for j in range(i + 1, variables):
            for k in range(j + 1, variables):
                if len(found) == count:
                    return found
                found.append([f"v{i}", f"v{j}", f"v{k}"])
    return found


def deep_formula(nodes):
    """A formula of about so many nodes that evaluates all of them."""
    operands = [["=", "$0", "$3"]] * ((nodes - 1) // 3)
    return ["and", *operands]


def inputs():
    small = vocabulary()
    yield "one byte too many", b" " * (MOST + 1), "refused vocabulary too long"
    yield "blanks before a small one", b" " * (MOST - len(small)) + small, "q1"
    yield "open arrays", b"[" * MOST, "refused vocabulary not json"
    yield "128 nested arrays", b"[" * 128 + b"]" * 128, "refused vocabulary not json"
    yield "numbers in one array", padded(b"1", (b"[", b"]")), "refused vocabulary wrong kind whole"
    yield "empty arrays in one array", padded(b"[]", (b"[", b"]")), "refused vocabulary wrong kind whole"
    yield "a string", b'"' + b"a" * (MOST - 2) + b'"', "refused vocabulary wrong kind whole"
    yield "escapes in a string", b'"' + b"\\u0061" * ((MOST - 2) // 6) + b'"', "refused vocabulary wrong kind whole"
    keys = b"{" + b",".join(b'"k%d":0' % i for i in range(100_000)) + b"}"
    yield "100,000 keys, rising", keys, "refused vocabulary unknown key whole"
    keys = b"{" + b",".join(b'"k%06d":0' % i for i in reversed(range(100_000))) + b"}"
    yield "100,000 keys, falling", keys, "refused vocabulary unknown key whole"
    yield "one key, again and again", padded(b'"scopes":0', (b"{", b"}")), "refused vocabulary missing variables"
    yield "60,000 equal names", vocabulary(["a"] * 60_000), "refused vocabulary name repeated 0 1"
    many = vocabulary([f"n{i}" for i in range(400_000)])
    yield "400,000 names", many, "refused vocabulary too many variables"
    # Many names with one sum of bytes each, for tables of numbers that mix badly.
    same = vocabulary([f"{i:06d}{999_999 - i:06d}" for i in range(250_000)])
    yield "250,000 names alike", same, "refused vocabulary too many variables"
    tuples = split(vocabulary(relations=[relation("r", tuples=["TUPLES"])]), b'"TUPLES"')
    yield "one tuple, again and again", padded(b"[1,2]", tuples), "q1"
    yield "empty tuples", padded(b"[]", tuples), "refused vocabulary relation 0 table tuple length 0"
    whole = split(vocabulary(relations=["RELATIONS"]), b'"RELATIONS"')
    rels = b",".join(b'{"name":"r%d","arity":2,"tuples":[]}' % i for i in range(100_000))
    yield "100,000 small relations", whole[0] + rels + whole[1], "q1"
    rels = b",".join(b'{"name":"r%d","arity":4,"tuples":[]}' % i for i in range(10_000))
    whole = split(vocabulary(domain=(1, 16), relations=["RELATIONS"]), b'"RELATIONS"')
    yield "10,000 relations of arity 4", whole[0] + rels + whole[1], "converged 0"
    wide = json.dumps(deep_formula(199), separators=(",", ":")).encode()
    rels = b",".join(b'{"name":"f%d","arity":4,"formula":%s}' % (i, wide) for i in range(20))
    yield "20 formulas of 199 nodes at 65,536 tuples", whole[0] + rels + whole[1], "converged 0"
    listed = split(vocabulary(scopes=["SCOPES"]), b'"SCOPES"')
    yield "one scope of many names", padded(b'"a"', (listed[0] + b"[", b"]" + listed[1])), "refused vocabulary scope order 0"
    yield "one scope, again and again", padded(b'["a","b"]', listed), "refused vocabulary too many scopes"
    yield "empty scopes", padded(b"[]", listed), "refused vocabulary scope order 0"
    scopes = [["v0", "v1", "v2"], *triples(8_191, 40)[1:], ["v0", "v1"]][:8_192]
    last = vocabulary(names(40), relations=[relation("r", 3), relation("s", 2)], scopes=[*scopes[:8_191], ["v0", "v1"]])
    yield "8,192 scopes, the last in the first", last, "refused vocabulary nested 0 8191"
    last = vocabulary(names(128), relations=[relation("r")], scopes=[*pairs(8_127), ["v0", "v1"]])
    yield "8,128 scopes, the last as the first", last, "refused vocabulary scope repeated 0 8127"
    yield "8,128 scopes, all of two", vocabulary(names(128), relations=[relation("r")]), "q1"
    yield "7,770 scopes, all of three", vocabulary(names(37), relations=[relation("r", 3)]), "q1"
    yield "too many scopes", vocabulary(names(128), relations=[relation("r", 4)]), "refused vocabulary too many scopes"


def main():
    if len(sys.argv) != 2:
        print(__doc__)
        sys.exit(2)
    words = [sys.argv[1], ":memory:", "try", "--plan", "scopes"]
    right = True
    for what, bytes_in, expected in inputs():
        with tempfile.TemporaryFile() as file:
            file.write(bytes_in + b"\n")
            file.seek(0)
            filed = Cost(words, file, subprocess.PIPE)
        piped = Cost(words, bytes_in + b"\n", subprocess.PIPE)
        line = filed.text.split("\n", 1)[0]
        fits = filed.text == piped.text and (line == expected or (expected == "q1" and line.startswith("q1 ")))
        right = right and fits
        mark = "" if fits else f"   expected: {expected}"
        times = f"{filed.processor:6.2f} s of a file, {piped.processor:6.2f} s of a pipe, {filed.memory:>9}"
        print(f"{times}  status {filed.status}  {len(bytes_in):9,} bytes  {what}: {line[:60]}{mark}", flush=True)
    sys.exit(0 if right else 1)


if __name__ == "__main__":
    main()
