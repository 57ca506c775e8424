#!/usr/bin/env python3
"""Answers that are taken back, over real files, and journals that are full.

usage: checks/backs.py PROGRAM

A full journal is made by hand: its vocabulary, the record that says that take-backs may follow, and answers with a take-back
between each two, 1,000,000 records besides that one. No run of such a length is needed to come there.
"""

import over_files

YES = bytes.fromhex("01 41 00 00 00 06 01 02 00 00 01 01")
RAISED = bytes.fromhex("01 55 00 00 00 01 02")
BACK = bytes.fromhex("01 42 00 00 00 00")
CLOSED = b"\0"

# Commands one after the other over one file: the words, the input (None is the vocabulary), what is printed, and the status.
COMMANDS = [
    ("back", b"", "refused journal no session\n", 3),
    ("new", None, "created variables 2 scopes 1 candidates 3\n", 0),
    ("back", b"", "refused nothing to take back\n", 15),
    ("run", b"back\nyes\n", "q1 a=1 b=2\nnot an answer\nq2 a=1 b=1\nsuspended 1\n", 6),
    ("run", b"back\n", "q2 a=1 b=1\nq1 a=1 b=2\nsuspended 0\n", 6),
    ("show", b"", "plan quacq\nanswers 0\ntaken back 1\nlearned 0\nstate idle\n", 0),
    ("run", b"no\nyes\n", "q1 a=1 b=2\nq2 a=1 b=1\nconverged 2\neq a b\n", 0),
    ("back", b"", "took back answer 2\n", 0),
    ("run", b"no\n", "q2 a=1 b=1\nconverged 2\neq&ne a b\n", 0),
    ("back --budget 1", b"", "usage: acquire JOURNAL COMMAND [--plan P] [--budget N] [--number N]\n", 1),
]


class Room(over_files.Room):
    """A room whose journals are raised."""

    check = "backs"

    def put(self, name, events):
        """A journal of the vocabulary, raised, with these events."""
        payload = b"\2" + self.vocabulary
        start = b"QUACQJ1\n" + b"\1S" + len(payload).to_bytes(4, "big") + payload
        return super().put(name, start + RAISED + events + CLOSED)


def over_one_file(room):
    for number, command in enumerate(COMMANDS):
        room.look_at(number, room.path("rows"), command)


def full(room):
    """One record short of a full journal an answer is kept; then nothing is, whatever is asked for."""
    almost = (YES + BACK) * 499_999
    full_text = ("refused journal full\n", 12)
    journal = room.put("full", almost + YES)
    for words in ["run", "back"]:
        room.report(f"full, {words}", full_text, room.look(journal, words, b"yes\n"))
    journal = room.put("almost", almost)
    room.report("almost, back", ("refused nothing to take back\n", 15), room.look(journal, "back"))
    room.report("almost, run", ("q1 a=1 b=2\nrefused journal full\n", 12), room.look(journal, "run", b"yes\nno\n"))
    room.report("then back", full_text, room.look(journal, "back"))
    shown = "plan quacq\nq1 a=1 b=2 yes\nanswers 1\ntaken back 499999\nlearned 0\nstate idle\n"
    room.report("then show", (shown, 0), room.look(journal, "show"))
    journal = room.put("more", almost + YES + BACK)
    room.report("one more", ("refused journal too many records\n", 3), room.look(journal, "run"))
    journal = room.put("stray", YES + BACK + BACK)
    room.report("a take-back of nothing", ("refused journal stray 3\n", 3), room.look(journal, "show"))


over_files.check(__doc__, Room, [over_one_file, full])
