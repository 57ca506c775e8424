"""What checks over real files have in common: a folder, the program, and rows that are counted."""

import os
import subprocess
import sys
import tempfile

TOP = os.path.realpath(os.path.join(os.path.dirname(os.path.abspath(__file__)), ".."))


class Room:
    """A folder, the program and the vocabulary, and how many rows were as they should be."""

    check = ""

    def __init__(self, folder, program):
        self.folder = folder
        self.program = os.path.abspath(program)
        with open(os.path.join(TOP, "examples/first/vocabulary.json"), "rb") as file:
            self.vocabulary = file.read().strip()
        self.passed = self.failed = 0

    def report(self, row, wanted, got):
        if wanted == got:
            self.passed += 1
        else:
            self.failed += 1
            print(f"{self.check}: {row}: {got!r} and not {wanted!r}")

    def path(self, name):
        return os.path.join(self.folder, name)

    def put(self, name, content):
        with open(self.path(name), "wb") as file:
            file.write(content)
        return self.path(name)

    def run(self, journal, words, given, **how):
        """A command that has ended. Where no input is given it is the vocabulary."""
        return subprocess.run(
            [self.program, journal, *words.split()],
            input=self.vocabulary if given is None else given,
            stdout=subprocess.PIPE,
            timeout=300,
            check=False,
            **how,
        )

    def look(self, journal, words, given=b""):
        """What a command prints, and its status."""
        done = self.run(journal, words, given)
        return done.stdout.decode(), done.returncode

    def look_at(self, number, journal, command):
        """Looks at a command of a list: its words, its input, what it prints and its status."""
        words, given, text, status = command
        got = self.look(journal, words, given)
        self.report(f"row {number}, {words}", (text, status), got)


def check(page, room_of, parts):
    """Calls each part with a room over the program that is named, and ends the check."""
    if len(sys.argv) != 2:
        print(page)
        sys.exit(2)
    with tempfile.TemporaryDirectory() as folder:
        room = room_of(folder, sys.argv[1])
        for part in parts:
            part(room)
    print(f"{room.check}: {room.passed} passed, {room.failed} failed")
    sys.exit(1 if room.failed else 0)
