#!/usr/bin/env python3
"""With the stack that docs/troubleshooting.md says is enough, the program ends as with 8 MB.

usage: checks/stacks.py PROGRAM [--least]

Tried are inputs with thousands of brackets within each other, a formula as deep as one may be, and
a session in each plan that is played over a file, shown, reduced, certified and written as clauses;
with the page's figure, and with the 1,024 KB that the scripts and the client set. Each is tried
six times, since the system lets a stack begin at a random place within its first 8 KB.

With --least the least stack is told, in steps of 8 KB, with which each of them ends so.
"""

from __future__ import annotations

import dataclasses
import os
import re
import sys
import tempfile
from collections.abc import Iterator

TOP = os.path.dirname(os.path.dirname(os.path.abspath(__file__)))
sys.path.insert(0, f"{TOP}/python")
# pylint: disable=wrong-import-position
from acquire import Program

AMPLE, SET, STEP = 8192, 1024, 8
TIMES = 6
LONGEST = 4_194_304     # bytes of a vocabulary or a network, as formats.md has it
FIGURE = re.compile(r"it needs some ([\d,]+) KB of stack")


@dataclasses.dataclass(frozen=True)
class Call:
    """What is tried: the words behind the journal's name, the input, and the journal's bytes, or
    None where there is no file."""

    name: str
    words: str
    given: bytes = b""
    journal: bytes | None = None
    in_memory: bool = False

    def end(self, program: str, stack: int) -> tuple[int, str, bytes | None]:
        """Its status, what it prints, and the journal that it leaves."""
        with tempfile.TemporaryDirectory() as room:
            file = f"{room}/journal"
            if self.journal is not None:
                write(file, self.journal)
            journal = ":memory:" if self.in_memory else file
            reply = Program(program, stack).call([journal, *self.words.split()], self.given)
            left = read(file) if os.path.exists(file) else None
            return reply.status, reply.text, left


def read(path: str) -> bytes:
    """All bytes of a file."""
    with open(path, "rb") as file:
        return file.read()


def write(path: str, data: bytes) -> None:
    """Makes a file of these bytes."""
    with open(path, "wb") as file:
        file.write(data)


def vocabulary(front: str, formula: str, levels: int) -> bytes:
    """One with a relation whose formula stands within so many brackets that begin like this."""
    deep = front * levels + formula + "]" * levels
    return ('{"variables": ["a", "b"], "domain": [0, 1], "scopes": "all", "relations": '
            f'[{{"name": "r", "arity": 2, "formula": {deep}}}]}}').encode()


def bracket_calls(journal: bytes) -> list[Call]:
    """Inputs that go deeper than any that is taken, and one that goes as deep as may be."""
    equal = '["=", "$0", "$1"]'
    return [
        Call("5,000 brackets", "new", vocabulary("[", "", 5000)),
        Call("5,000 operators", "new", vocabulary('["not", ', equal, 5000)),
        Call("brackets alone", "new", b"[" * LONGEST),
        Call("the deepest formula", "new", vocabulary('["not", ', equal, 30)),
        Call("brackets as a network", "play", b"[" * LONGEST, journal),
        Call("brackets as a certificate", "check", b"[" * LONGEST, in_memory=True),
    ]


def session_calls(program: str, plan: str) -> list[Call]:
    """A session in this plan, and what is asked of it once it has converged."""
    example = f"{TOP}/examples/roster"
    new = Call(f"{plan}: new", f"new --plan {plan}", read(f"{example}/vocabulary.json"))
    begun = new.end(program, AMPLE)[2]
    play = Call(f"{plan}: play", "play", read(f"{example}/target.json"), begun)
    played = play.end(program, AMPLE)[2]
    told = [Call(f"{plan}: {word}", word, b"", played)
            for word in ("run", "show", "reduce", "cnf", "certify")]
    certificate = told[-1].end(program, AMPLE)[1].encode()
    return [new, play, *told, Call(f"{plan}: check", "check", certificate, in_memory=True)]


def all_calls(program: str) -> list[Call]:
    """Everything that is tried."""
    sessions = [session_calls(program, plan) for plan in ("scopes", "quacq", "multi")]
    begun = sessions[0][1].journal
    assert begun is not None
    demo = Call("demo", "demo --number 7", in_memory=True)
    return [*bracket_calls(begun), *(call for calls in sessions for call in calls), demo]


def differing(program: str, calls: list[Call], right: dict, stack: int) -> Iterator[str]:
    """Those that end otherwise than with ample stack, and with what status."""
    for call in calls:
        for _ in range(TIMES):
            came = call.end(program, stack)
            if came != right[call]:
                yield f"{call.name}: status {came[0]}, and {right[call][0]} with {AMPLE} KB"
                break


def tell_least(program: str, calls: list[Call], right: dict) -> None:
    """Prints the least stack with which all end as they should, and one that doesn't with a step
    less."""
    stack, failed = STEP, "nothing fails"
    while found := next(differing(program, calls, right, stack), None):
        stack, failed = stack + STEP, found
    print(f"stacks: the least is {stack} KB; with {stack - STEP} KB: {failed}")


def said_on_page() -> int:
    """The figure of docs/troubleshooting.md."""
    page = FIGURE.search(read(f"{TOP}/docs/troubleshooting.md").decode())
    if not page:
        raise SystemExit("stacks: docs/troubleshooting.md doesn't say how much stack is needed")
    return int(page[1].replace(",", ""))


def main() -> int:
    """Status 0 where the page's figure and the scripts' are enough."""
    if sys.argv[2:] not in ([], ["--least"]) or len(sys.argv) < 2:
        print(__doc__)
        return 2
    # What the environment holds lies on the stack too.
    os.environ.clear()
    program = sys.argv[1]
    calls = all_calls(program)
    right = {call: call.end(program, AMPLE) for call in calls}
    if signals := [call.name for call, (status, _, _) in right.items() if status < 0]:
        print(f"stacks: ended by a signal with {AMPLE} KB: {', '.join(signals)}")
        return 1
    if sys.argv[2:]:
        tell_least(program, calls, right)
        return 0
    failed = [f"{stack} KB: {fault}" for stack in (said_on_page(), SET)
              for fault in differing(program, calls, right, stack)]
    for fault in failed:
        print(f"stacks: {fault}")
    print(f"stacks: {len(calls)} calls, each {TIMES} times, with {said_on_page()} and {SET} KB: "
          f"{len(failed)} failed")
    return 1 if failed else 0


if __name__ == "__main__":
    sys.exit(main())
