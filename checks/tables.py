#!/usr/bin/env python3
"""Journals and vocabularies that somebody made by hand.

usage: checks/tables.py PROGRAM [all]

The file of 196 bytes of docs/formats.md is cut after each number of bytes, and each of its bytes is changed to some others, with
`all` to each other one. `show` says what a reader here says, which is written from that document and shares nothing with the
program, and leaves the file as it is. Of a changed vocabulary the reader tells only whether its text is JSON, as Python has it. The
rows that the document names, and some more, stand here as they are, and are tried with `run` too.

`new` gets the same vocabulary cut after each number of bytes, and formulas of as many levels and nodes as are taken and of one
more.
"""

import json
import os
import subprocess
import sys
import tempfile

TOP = os.path.join(os.path.dirname(os.path.abspath(__file__)), "..")
MAGIC = b"QUACQJ1\n"
PLANS = {1: "scopes", 2: "quacq", 3: "multi"}
VARIABLES, VALUES = 2, 2
MOST_SHOWN = 10

with open(os.path.join(TOP, "examples/first/vocabulary.json"), "rb") as file:
    VOCABULARY = file.read().strip()
RECORD = bytes.fromhex("01 41 00 00 00 06 01 02 00 00 01 01")
WORKED = MAGIC + b"\1S" + bytes.fromhex("00 00 00 a9 02") + VOCABULARY + RECORD + b"\0"


def changed(place, value, whole=WORKED):
    return whole[:place] + bytes([value]) + whole[place + 1 :]


# What the worked file becomes, and what is said of it. No refusal: it opens with these answers.
NAMED = [
    *((WORKED[:length], "no session", None) for length in range(10)),
    *((WORKED[:length], "damaged 8", None) for length in range(10, 184)),
    *((WORKED[:length], "damaged 183", None) for length in range(184, 196)),
    (WORKED, None, ["q1 a=1 b=2 yes"]),
    (changed(0, 0x78), "not a journal", None),
    (changed(8, 0), "no session", None),
    (changed(14, 4), "damaged 8", None),
    (changed(14, 1), "stray 1", None),
    (changed(14, 3), None, ["q1 a=1 b=2 yes"]),
    (changed(15, 0x78), "vocabulary not json", None),
    (changed(183, 0), None, []),
    (changed(189, 0), None, ["q1 a=1 b=2 no"]),
    (changed(189, 2), "damaged 183", None),
    (changed(190, 3), "damaged 183", None),
    (changed(193, 0), "damaged 183", None),
    (changed(194, 64), "damaged 183", None),
    (changed(193, 2), "stray 1", None),
    (changed(194, 2), "stray 1", None),
    (changed(194, 0), None, ["q1 a=1 b=1 yes"]),
    (changed(195, 1), "damaged 195", None),
    (changed(195, 2), None, ["q1 a=1 b=2 yes"]),
    (WORKED[:195] + RECORD + b"\0", "stray 2", None),
    (WORKED[:195] + changed(11, 0, changed(6, 0, RECORD)) + b"\0", None, ["q1 a=1 b=2 yes", "q2 a=1 b=1 no"]),
]


def is_json(text):
    """Whether bytes are a JSON text, as the standard has it."""

    def refuse(_):
        raise ValueError

    try:
        json.loads(text.decode(), parse_constant=refuse)
    except (ValueError, RecursionError):
        return False
    return True


def answer_in(payload):
    """The answer that a record's payload spells: yes or not, and its pairs. None where it has another form."""
    if len(payload) < 2 or payload[0] > 1 or not 1 <= payload[1] <= 128 or len(payload) != 2 + 2 * payload[1]:
        return None
    pairs = list(zip(payload[2::2], payload[3::2]))
    variables = [variable for variable, _ in pairs]
    rising = all(one < other for one, other in zip(variables, variables[1:]))
    fits = all(variable < 128 and value < 64 for variable, value in pairs)
    return (payload[0] == 1, pairs) if rising and fits else None


def record_at(content, gate, kind):
    """The payload of the record behind a gate, and where the next gate stands. None where there is no whole record."""
    if content[gate + 1 : gate + 2] != kind or gate + 6 > len(content):
        return None
    behind = gate + 6 + int.from_bytes(content[gate + 2 : gate + 6], "big")
    return (content[gate + 6 : behind], behind) if behind < len(content) else None


def reading(content):
    """What the bytes of a file are read as: a refusal, or the plan, the vocabulary and the answers."""
    if len(content) <= 9:
        return "no session"
    if content[:8] != MAGIC:
        return "not a journal"
    if content[8] != 1:
        return "no session"
    first = record_at(content, 8, b"S")
    if not first or not first[0] or first[0][0] not in PLANS:
        return "damaged 8"
    (plan, *_), gate = first
    answers = []
    while content[gate] == 1:
        record = record_at(content, gate, b"A")
        answer = record and answer_in(record[0])
        if answer is None:
            return f"damaged {gate}"
        answers.append(answer)
        gate = record[1]
    return PLANS[plan], first[0][1:], answers


def has_place(plan, pairs):
    """Whether the first answer of a session over the worked vocabulary has a place: plan scopes asks about the first tuple, and
    any values of both variables violate a relation."""
    if [variable for variable, _ in pairs] != list(range(VARIABLES)) or any(value >= VALUES for _, value in pairs):
        return False
    return plan != "scopes" or pairs == [(0, 0), (1, 0)]


def said_of(content):
    """What `show` says of a changed file: the line of a refusal, or how its text begins. None where the vocabulary is another one,
    and JSON."""
    read = reading(content)
    if isinstance(read, str):
        return f"refused journal {read}\n"
    plan, vocabulary, answers = read
    if not is_json(vocabulary):
        return "refused journal vocabulary not json\n"
    if vocabulary != VOCABULARY:
        return None
    if answers and not has_place(plan, answers[0][1]):
        return "refused journal stray 1\n"
    lines = [f"q1 a={a + 1} b={b + 1} {'yes' if yes else 'no'}" for yes, ((_, a), (_, b)) in answers]
    return "".join(f"{line}\n" for line in [f"plan {plan}", *lines, f"answers {len(answers)}"])


class Room:
    def __init__(self, program, folder):
        self.program = program
        self.journal = os.path.join(folder, "journal")
        self.cases = self.failed = 0

    def look(self, words, given=b""):
        done = subprocess.run(
            [self.program, self.journal, *words.split()], input=given, stdout=subprocess.PIPE, timeout=300, check=False
        )
        return done.stdout.decode(), done.returncode

    def content(self):
        with open(self.journal, "rb") as file:
            return file.read()

    def case(self, name, test, *given):
        self.cases += 1
        try:
            test(*given)
        except Exception as fault:
            self.failed += 1
            if self.failed <= MOST_SHOWN:
                print(f"tables: {name}: {fault!r}")

    def put(self, content):
        with open(self.journal, "wb") as file:
            file.write(content)


def named_journal(room, content, refusal, answers):
    room.put(content)
    for words in ("show", "run --budget 100000"):
        text, status = room.look(words)
        if refusal:
            assert (text, status) == (f"refused journal {refusal}\n", 3), f"{words} prints {text!r}, status {status}"
        elif words == "show":
            assert status == 0 and text.splitlines()[1 : len(answers) + 2] == [*answers, f"answers {len(answers)}"], text
        else:
            assert status in (0, 6) and text.count("\n") >= 1 and not text.startswith("refused"), f"run prints {text!r}"
    assert room.content() == content, "the file has changed"


def changed_journal(room, content):
    room.put(content)
    wanted = said_of(content)
    text, status = room.look("show")
    if wanted is None:
        assert text.startswith(("refused journal vocabulary ", "refused journal stray ", "plan ")), text
        assert not text.startswith("refused journal vocabulary not json"), "the vocabulary is JSON"
    elif wanted.startswith("refused"):
        assert text == wanted, f"it prints {text!r} for {wanted!r}"
    else:
        assert text.startswith(wanted), f"it prints {text!r} for {wanted!r}"
    assert status == (3 if text.startswith("refused") else 0), f"status {status}"
    assert room.content() == content, "the file has changed"


def vocabulary_of(formula):
    whole = json.loads(VOCABULARY)
    whole["relations"][0]["formula"] = formula
    return json.dumps(whole, separators=(",", ":")).encode()


def nested(levels):
    formula = ["=", "$0", "$1"]
    for _ in range(levels):
        formula = ["not", formula]
    return vocabulary_of(formula)


def wide(parts):
    return vocabulary_of(["and", *[["=", "$0", "$1"]] * parts])


VOCABULARIES = [
    *((f"cut to {length} bytes", VOCABULARY[:length], "not json") for length in range(len(VOCABULARY))),
    ("32 nots", nested(32), "relation 0 formula too deep"),
    ("31 nots", nested(31), "relation 0 formula too deep"),
    ("30 nots", nested(30), None),
    ("67 equations", wide(67), "relation 0 formula too many nodes"),
    ("66 equations", wide(66), None),
]


def vocabulary(room, text, refusal):
    if os.path.exists(room.journal):
        os.remove(room.journal)
    said = room.look("new", text)
    if refusal:
        assert said == (f"refused vocabulary {refusal}\n", 2), f"it prints {said}"
        assert not os.path.exists(room.journal), "there is a file"
        return
    assert said == ("created variables 2 scopes 1 candidates 3\n", 0), f"it prints {said}"
    asked = room.look("run", b"yes\nno\n")
    assert asked == ("q1 a=1 b=2\nq2 a=1 b=1\nconverged 2\nne a b\n", 0), f"the relation isn't taken as `eq`: {asked}"


def values_beside(value, every):
    """Some other values of a byte, or all."""
    some = range(256) if every else {0, 1, 2, 3, 4, 6, 63, 64, 127, 128, 255, value ^ 1, value ^ 0x20, (value + 1) % 256}
    return sorted(set(some) - {value})


def main():
    if len(sys.argv) not in (2, 3) or sys.argv[2:] not in ([], ["all"]):
        print(__doc__)
        sys.exit(2)
    with tempfile.TemporaryDirectory() as folder:
        room = Room(os.path.realpath(sys.argv[1]), folder)
        for content, refusal, answers in NAMED:
            room.case(f"{len(content)} bytes, {refusal or answers}", named_journal, room, content, refusal, answers)
        for place, value in enumerate(WORKED):
            for other in values_beside(value, sys.argv[2:]):
                room.case(f"byte {place} to {other}", changed_journal, room, changed(place, other))
        for name, text, refusal in VOCABULARIES:
            room.case(f"new, {name}", vocabulary, room, text, refusal)
    print(f"tables: {room.cases} cases, {room.failed} failed")
    sys.exit(1 if room.failed else 0)


main()
