#!/usr/bin/env python3
"""Sessions over a file whose program is killed again and again.

usage: checks/kills.py PROGRAM [KILLS [FOLDER]]

Each session draws a vocabulary, a plan and a network, which answers. A run that nobody stops shows its questions. Then a
journal is made in FOLDER, or where temporary files go, the answers come through a pipe, and the program is killed (SIGKILL) at
a random moment, KILLS times in all. After each kill

- the bytes of the file, looked at by the form in docs/formats.md, spell the first so many of the answers that were given, and
  nothing else;
- each answer is there after which a further line was read, and at most one more;
- `show` prints these answers, and `run` without any puts the question that comes next, or ends as the whole session does;
- neither has changed the file.

The next run goes on over this file, and at last the session ends as the one that nobody stopped. `new` is killed too: it
leaves no session, or the new one without answers. What is drawn depends on the session's number alone, but when a kill comes
depends on the machine too.
"""

import itertools
import json
import operator
import os
import random
import signal
import subprocess
import sys
import tempfile
import time

sys.dont_write_bytecode = True
from owners import Program, accepts, play

MAGIC = b"QUACQJ1\n"
RELATIONS = {
    "eq": ("=", operator.eq),
    "ne": ("!=", operator.ne),
    "lt": ("<", operator.lt),
    "le": ("<=", operator.le),
    "gt": (">", operator.gt),
    "ge": (">=", operator.ge),
}
PLAN_BYTES = {"scopes": 1, "quacq": 2, "multi": 3}


class Vocabulary:
    """A vocabulary of relations between pairs, and a network that answers."""

    def __init__(self, draw):
        count = draw.randint(3, 8)
        self.names = [f"v{i}" for i in range(count)]
        self.least = draw.randint(-3, 1)
        values = range(self.least, self.least + draw.randint(2, 5))
        pairs = list(itertools.product(values, repeat=2))
        tables, relations = [], []
        for name in draw.sample(sorted(RELATIONS), draw.randint(2, 4)):
            sign, test = RELATIONS[name]
            tables.append(frozenset(pair for pair in pairs if test(*pair)))
            relations.append({"name": name, "arity": 2, "formula": [sign, "$0", "$1"]})
        self.text = json.dumps(
            {"variables": self.names, "domain": [values[0], values[-1]], "relations": relations, "scopes": "all"}
        )
        scopes = itertools.combinations(range(count), 2)
        self.network = [(scope, draw.choice(tables)) for scope in scopes if draw.random() < 0.4]


def record(kind, payload):
    return kind + len(payload).to_bytes(4, "big") + payload


class Session:
    """What a session that nobody stops asks and ends with, and the records that it keeps."""

    def __init__(self, program, number):
        draw = random.Random(number)
        vocabulary = Vocabulary(draw)
        self.vocabulary = vocabulary.text.encode()
        self.plan = draw.choice(sorted(PLAN_BYTES))
        answers, self.ending, self.status = play(
            program, vocabulary, ["--plan", self.plan], lambda shown: accepts(vocabulary.network, shown)
        )
        self.records = [record(b"S", bytes([PLAN_BYTES[self.plan]]) + self.vocabulary)]
        self.questions, self.answers = [], []
        for number, (shown, yes) in enumerate(answers, 1):
            values = " ".join(f"{vocabulary.names[v]}={value}" for v, value in shown.items())
            self.questions.append(f"q{number} {values}")
            self.answers.append("yes" if yes else "no")
            pairs = bytes(itertools.chain(*((v, value - vocabulary.least) for v, value in shown.items())))
            self.records.append(record(b"A", bytes([yes, len(shown)]) + pairs))

    def text_from(self, count):
        """What a run prints that has so many answers from before and gets all others."""
        return "".join(line + "\n" for line in self.questions[count:] + self.ending)

    def input_from(self, count, upto=None):
        return "".join(f"{answer}\n" for answer in self.answers[count:upto]).encode()

    def text_without_input(self, count):
        if count == len(self.answers):
            return self.text_from(count)
        return f"{self.questions[count]}\nsuspended {count}\n"

    def text_of_show(self, count):
        """How the text of `show` begins where so many answers are there."""
        lines = [f"{question} {answer}" for question, answer in zip(self.questions, self.answers)]
        return "".join(f"{line}\n" for line in [f"plan {self.plan}", *lines[:count], f"answers {count}"])

    def records_in(self, content):
        """How many of the records the bytes of a file spell, and where the gate behind them stands."""
        if len(content) <= 9:
            return 0, 8
        assert content[:8] == MAGIC, "the magic is gone"
        at = 8
        for count, one in enumerate(self.records):
            if content[at] != 1:
                return count, at
            assert content[at + 1 :].startswith(one), f"record {count} isn't the one that was given"
            at += 1 + len(one)
        assert content[at] != 1, "there are more records than were given"
        return len(self.records), at


def content_of(journal):
    try:
        with open(journal, "rb") as file:
            return file.read()
    except FileNotFoundError:
        return b""


def look(program, journal, *words, given=b""):
    """What a command prints that nobody stops, and its status."""
    done = subprocess.run([program, journal, *words], input=given, stdout=subprocess.PIPE, check=False)
    return done.stdout.decode(), done.returncode


def make(program, session, journal):
    text, status = look(program, journal, "new", "--plan", session.plan, given=session.vocabulary)
    assert status == 0, f"new prints {text!r}, status {status}"


def start(program, journal, *words):
    return Program(program, stack=None).run([journal, *words])


def kill(run):
    """Kills a program. What it has written and wasn't read yet, and whether it was still there."""
    rest, status = run.kill()
    return rest, status == -signal.SIGKILL


class Tally:
    """What was killed so far and what the kills hit, and how long things take here."""

    def __init__(self):
        self.runs = self.news = 0
        self.while_adding = self.before_the_line = self.before_the_session = 0
        self.to_make = self.to_begin = self.to_answer = 0.0

    def measure(self, program, session, journal):
        """How many seconds a new journal takes, a run up to its first question, and each answer."""
        times = [time.monotonic()]
        make(program, session, journal)
        times.append(time.monotonic())
        look(program, journal, "run")
        times.append(time.monotonic())
        ended = look(program, journal, "run", given=session.input_from(0))
        times.append(time.monotonic())
        assert ended == (session.text_from(0), session.status), f"nobody stops it, and it prints {ended}"
        self.to_make, self.to_begin, whole = (later - earlier for earlier, later in itertools.pairwise(times))
        self.to_answer = max(0.0, whole - self.to_begin) / len(session.answers)


def check(program, session, journal, count):
    """`show` and `run` tell of so many answers, and leave the file as it is."""
    before = content_of(journal)
    text, status = look(program, journal, "show")
    assert status == 0 and text.startswith(session.text_of_show(count)), f"show prints {text!r}, status {status}"
    wanted = (session.text_without_input(count), session.status if count == len(session.answers) else 6)
    ran = look(program, journal, "run")
    assert ran == wanted, f"run prints {ran} for {wanted}"
    assert content_of(journal) == before, "show or run has changed the file"


def new_with_kills(program, session, journal, draw, tally):
    for _ in range(draw.randint(1, 4)):
        new = start(program, journal, "new", "--plan", session.plan)
        new.write(session.vocabulary)
        new.end_input()
        time.sleep(tally.to_make * draw.random() ** 2)
        _, was_there = kill(new)
        tally.news += was_there
        count, _ = session.records_in(content_of(journal))
        assert count <= 1, "a new journal has answers"
        if count == 1:
            check(program, session, journal, 0)
            return
        tally.before_the_session += was_there
        assert look(program, journal, "show") == ("refused journal no session\n", 3), "half a session is there"
    make(program, session, journal)


def run_with_kill(program, session, journal, before, draw, tally):
    """A run that goes on behind so many answers, and is killed. How many answers are there then."""
    old = content_of(journal)
    run = start(program, journal, "run")
    text, given = "", before
    # Some answers come each after its question, and then some in one piece.
    for _ in range(draw.choice([0, 0, 1, 2, 3])):
        if given < len(session.answers):
            text += run.line() + "\n"
            run.write(session.input_from(given, given + 1))
            given += 1
    upto = min(given + draw.choice([0, 1, 3, 9]), len(session.answers))
    run.write(session.input_from(given, upto))
    time.sleep(draw.uniform(0, (0.0 if text else tally.to_begin) + 3 * tally.to_answer))
    rest, was_there = kill(run)
    text += rest
    assert session.text_from(before).startswith(text), f"it prints {text!r}"
    acknowledged = min(before + max(0, text.count("\n") - 1), len(session.answers))
    content = content_of(journal)
    records, gate = session.records_in(content)
    count = records - 1
    said = f"{upto} answers were given, {acknowledged} acknowledged, and {count} are there"
    assert acknowledged <= count <= min(upto, acknowledged + 1), said
    tally.runs += was_there
    tally.while_adding += was_there and content != old and len(content) > gate + 1
    tally.before_the_line += was_there and count > acknowledged
    check(program, session, journal, count)
    return count


def session_with_kills(program, number, kills, room, tally):
    """One session, until it has ended or so many runs were killed."""
    session = Session(program, number)
    if number == 0:
        tally.measure(program, session, os.path.join(room, "whole"))
    draw = random.Random(f"kills {number}")
    journal = os.path.join(room, str(number))
    new_with_kills(program, session, journal, draw, tally)
    count = 0
    while count < len(session.answers) and tally.runs < kills:
        count = run_with_kill(program, session, journal, count, draw, tally)
    ended = look(program, journal, "run", given=session.input_from(count))
    assert ended == (session.text_from(count), session.status), f"it ends with {ended}"
    check(program, session, journal, len(session.answers))


def main():
    if len(sys.argv) < 2:
        print(__doc__)
        sys.exit(2)
    program = os.path.realpath(sys.argv[1])
    kills = int(sys.argv[2]) if len(sys.argv) > 2 else 1000
    folder = sys.argv[3] if len(sys.argv) > 3 else None
    tally = Tally()
    number = 0
    with tempfile.TemporaryDirectory(dir=folder) as room:
        while tally.runs < kills:
            try:
                session_with_kills(program, number, kills, room, tally)
            except Exception as fault:
                print(f"kills: session {number}, behind {tally.runs} kills: {fault!r}")
                sys.exit(1)
            number += 1
    print(
        f"kills: {number} sessions, whose runs were killed {tally.runs} times and lost no answer: {tally.while_adding} times "
        f"while one was added, {tally.before_the_line} times before the line after it; new was killed {tally.news} times, "
        f"{tally.before_the_session} times before there was a session"
    )


if __name__ == "__main__":
    main()
