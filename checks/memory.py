#!/usr/bin/env python3
"""Each request for memory of the built program is refused.

usage: checks/memory.py PROGRAM

Each command below is run with its first request for memory refused, then with its second, and so on, until a run makes fewer;
and in the same way with all requests from that one on refused. checks/refuse.c, which is built with cc and loaded into the
program, refuses them. Where cc isn't there, that is said in a line and nothing is done.

Each time the status is 11, or the command's own; then nothing is missing. What was printed is a front of the command's text, of
whole lines. The file is, to the byte, what the same command leaves with fewer answers: with each one after which a further line
was printed, and at most one more. A `new` leaves the file as it was, or makes the session, and a `back` as it was, or with one answer
less; the commands that only read leave it as it was.

A command that the program doesn't have yet, which prints the usage line, is named in a line and passed over.
"""

import contextlib
import itertools
import json
import os
import shutil
import struct
import subprocess
import sys
import tempfile

TOP = os.path.join(os.path.dirname(os.path.abspath(__file__)), "..")
MEMORY = 11
ALL = 2**32
MOST_SHOWN = 10


def content_of(path):
    if not os.path.exists(path):
        return None
    with open(path, "rb") as file:
        return file.read()


def example(name):
    with open(os.path.join(TOP, "examples", name), "rb") as file:
        return file.read()


def vocabulary(variables, relations):
    """Variables of two values, and relations by the operator between two of them, on all pairs."""
    listed = [{"name": name, "arity": 2, "formula": [sign, "$0", "$1"]} for name, sign in relations.items()]
    whole = {"variables": list(variables), "domain": [1, 2], "relations": listed, "scopes": "all"}
    return json.dumps(whole, separators=(",", ":")).encode() + b"\n"


EQUAL_OR_NOT = vocabulary("ab", {"eq": "=", "ne": "!="})
ORDERS = vocabulary("ab", {"le": "<=", "ge": ">=", "ne": "!="})
DIFFER = vocabulary("abc", {"ne": "!="})
CREATED = "created variables 2 scopes 1 candidates 3\n"
BOTH = "q1 a=1 b=2\nq2 a=1 b=1\n"
CLAUSES = "c a=1 1\nc a=2 2\nc b=1 3\nc b=2 4\np cnf 4 6\n1 2 0\n3 4 0\n-1 -2 0\n-3 -4 0\n-1 -3 0\n-2 -4 0\n"
CERTIFICATE = (
    f"QUACQCERT1\nvocabulary {len(EQUAL_OR_NOT)}\n{EQUAL_OR_NOT.decode()}\n"
    "answers 2\nyes 0:0 1:1\nno 0:0 1:0\nnetwork 1\n0 1\nimplied 0\nend\n"
)

# Commands one after the other over one file: the words, the input, the text, the status. No text is any text.
ROWS = [
    [("try", EQUAL_OR_NOT + b"yes\nno\n", f"{BOTH}converged 2\nne a b\n", 0)],
    [
        ("new", EQUAL_OR_NOT, CREATED, 0),
        ("show", b"", "plan quacq\nanswers 0\nlearned 0\nstate idle\n", 0),
        ("run", b"yes", "q1 a=1 b=2\nsuspended 0\n", 6),
        ("run", b"yes\n", f"{BOTH}suspended 1\n", 6),
        ("new", EQUAL_OR_NOT, "refused journal session there\n", 3),
        ("run", b"no\n", "q2 a=1 b=1\nconverged 2\nne a b\n", 0),
        ("show", b"", "plan quacq\nq1 a=1 b=2 yes\nq2 a=1 b=1 no\nanswers 2\nlearned 1\nne a b\nstate idle\n", 0),
        ("cnf", b"", CLAUSES, 0),
        ("model", b"v 1 -2 -3 4 0\n", "solution a=1 b=2\n", 0),
        ("certify", b"", CERTIFICATE, 0),
        ("back", b"", "took back answer 2\n", 0),
        ("back", b"", "took back answer 1\n", 0),
        ("back", b"", "refused nothing to take back\n", 15),
    ],
    [("check", CERTIFICATE.encode(), "confirmed 2\nne a b\n", 0)],
    [("check", CERTIFICATE.replace("no 0:0 1:0", "no 0:0").encode(), "refused certificate answer 1\n", 18)],
    [("check", CERTIFICATE.replace("\n0 1\n", "\n0 3\n").encode(), "refused certificate form bad line 7\n", 19)],
    [("try", ORDERS + b"no\nno\nyes\n", "q1 a=2 b=1\nq2 a=1 b=1\nq3 a=1 b=2\nconverged 3\nle&ne a b\n", 0)],
    [
        ("new", EQUAL_OR_NOT, CREATED, 0),
        ("play", b'[["eq&ne","a","b"]]', "q1 a=1 b=2 no\nq2 a=1 b=1 no\nconverged 2\neq&ne a b\n", 0),
    ],
    [
        (
            "try --plan multi",
            DIFFER + b"no\nno\nno\nyes\n",
            "q1 a=1 b=1 c=1\nq2 a=1 b=1\nq3 b=1 c=1\nq4 a=1 c=1\nconverged 4\nne a b\nne b c\n",
            0,
        )
    ],
    [("demo --number 0", b"", "demo 0 variables 10 scopes 45 candidates 315\nconverged 119\nlearned 16\n", 0)],
    [("try --budget 1", EQUAL_OR_NOT, "undecided 0\nopen eq a b\nopen ne a b\nopen eq&ne a b\n", 5)],
    [("try", EQUAL_OR_NOT[:30] + b"\n", "refused vocabulary not json\n", 2)],
    [
        ("new --plan multi", example("timetable/vocabulary.json"), None, 0),
        ("run", example("timetable/answers"), None, None),
        ("show", b"", None, 0),
    ],
    [("try --plan scopes", example("product/input"), example("product/printed").decode(), 0)],
]


class Library:
    """What refuses the requests, and the file by which it is told and tells."""

    def __init__(self, folder):
        self.path = os.path.join(folder, "refuse.so")
        self.counts = os.path.join(folder, "counts")
        source = os.path.join(TOP, "checks", "refuse.c")
        subprocess.run(["cc", "-shared", "-fPIC", "-O1", "-o", self.path, source, "-ldl"], check=True)

    def run(self, words, given, first, many):
        """A command: what it prints, its status, how many requests it made and how many of these were refused."""
        with open(self.counts, "wb") as file:
            file.write(struct.pack("4Q", first, many, 0, 0))
        here = {**os.environ, "LD_PRELOAD": self.path, "REFUSE": self.counts}
        done = subprocess.run(words, input=given, stdout=subprocess.PIPE, stderr=subprocess.DEVNULL, env=here, timeout=300, check=False)
        _, _, made, refused = struct.unpack("4Q", content_of(self.counts))
        return done.stdout.decode(), done.returncode, made, refused


class Command:
    """A command over a file with some content, what it does where no request is refused, and what it leaves with fewer answers."""

    def __init__(self, program, journal, before, words, given):
        self.journal = journal
        self.before = before
        self.kind, *options = words.split()
        place = ":memory:" if self.kind in ("try", "demo", "check") else self.journal
        self.name = words
        self.words = [program, place, self.kind, *options]
        self.given = given

    def begin(self):
        with contextlib.suppress(FileNotFoundError):
            os.remove(self.journal)
        if self.before is not None:
            with open(self.journal, "wb") as file:
                file.write(self.before)

    def start(self, library, words, given, first=0, many=0):
        self.begin()
        return library.run(words, given, first, many)

    def look(self, library):
        """Runs it without a refusal, and then `run` with each number of its answers, if it adds some."""
        self.text, self.status, self.made, _ = self.start(library, self.words, self.given)
        assert self.made > 0, "no request is counted, so the library isn't loaded"
        last = content_of(self.journal)
        self.left = [self.before] if self.kind in ("new", "back") else []
        for count in range(len(answers := self.answers())):
            self.start(library, [*self.words[:2], "run"], "".join(answers[:count]).encode())
            self.left.append(content_of(self.journal))
        self.left.append(last)

    def answers(self):
        """The answers that it adds, each a line."""
        if self.kind == "run":
            return self.given.decode().splitlines(keepends=True)
        asked = [line for line in self.text.splitlines() if line.startswith("q")]
        return [line.split(" ")[-1] + "\n" for line in asked] if self.kind == "play" else []

    def acknowledged(self, text):
        """The number of the content that it has left for certain, once it has printed this."""
        lines = text.count("\n")
        return min(lines if self.kind in ("new", "back") else max(0, lines - 1), len(self.left) - 1)

    def refuse(self, library, first, many):
        """Runs it with some requests refused, and says how many were."""
        text, status, _, refused = self.start(library, self.words, self.given, first, many)
        content = content_of(self.journal)
        if status == self.status:
            assert text == self.text, f"status {status}, and it prints {text!r}"
            assert content == self.left[-1], f"status {status}, and the file is another one"
        else:
            assert status == MEMORY, f"it ends with status {status}"
            assert refused > 0, "memory was wanting, and no request was refused"
            assert self.text.startswith(text) and text[-1:] in ("", "\n"), f"it prints {text!r}"
            done = self.acknowledged(text)
            assert content in self.left[done : done + 2], f"it prints {text!r}, and the file is none of those that may be left"
        return refused


class Tally:
    def __init__(self):
        self.commands = self.runs = self.refused = self.failed = 0

    def fail(self, where, fault):
        self.failed += 1
        if self.failed <= MOST_SHOWN:
            print(f"memory: {where}: {fault}")

    def each_refusal(self, library, command):
        for many in (1, ALL):
            for first in itertools.count(1):
                try:
                    refused = command.refuse(library, first, many)
                except (AssertionError, subprocess.TimeoutExpired) as fault:
                    self.fail(f"{command.name}, {'' if many == 1 else 'all from '}request {first}", fault)
                    refused = first <= command.made
                if not refused:
                    break
                self.runs += 1
                self.refused += refused


def run_row(program, journal, library, row, tally):
    content = None
    for words, given, text, status in row:
        command = Command(program, journal, content, words, given)
        command.look(library)
        if command.status == 1:
            print(f"memory: passed over: {words}, which the program doesn't have")
            return
        tally.commands += 1
        if text not in (None, command.text) or status not in (None, command.status):
            tally.fail(words, f"it prints {command.text!r}, status {command.status}")
            return
        tally.each_refusal(library, command)
        content = command.left[-1]


def main():
    if len(sys.argv) != 2:
        print(__doc__)
        sys.exit(2)
    if not shutil.which("cc"):
        print("memory: passed over: cc isn't there, so no request for memory is refused")
        return
    program = os.path.realpath(sys.argv[1])
    tally = Tally()
    with tempfile.TemporaryDirectory() as folder:
        library = Library(folder)
        for number, row in enumerate(ROWS):
            try:
                run_row(program, os.path.join(folder, "journal"), library, row, tally)
            except Exception as fault:
                tally.fail(f"row {number}", repr(fault))
    print(f"memory: {tally.commands} commands, {tally.runs} runs, {tally.refused} requests refused, {tally.failed} failed")
    sys.exit(1 if tally.failed else 0)


main()
