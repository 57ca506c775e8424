#!/usr/bin/env python3
"""Certificates that the built program writes and checks, beside a reader and a checker of their own.

usage: checks/certs.py PROGRAM [SESSIONS]

Each session draws a language, some of its variables with a range of values, a plan and a target, as checks/owners.py does; the
target answers (`play`). Where that converges, `certify` has to write the text that is built here from what `show` prints, byte
for byte, and the checker here and `check` have to confirm it. Elsewhere, and in sessions that are cut off, `certify` has to
refuse. Then each text is changed at random places, and checker and `check` have to say the same of it: the same line that
offends, or the same flaw. Nothing here is the program's: the reader and the checker are written from docs/formats.md. The seed is
the number of the session, so a failure comes again.
"""

import json
import os
import random
import re
import subprocess
import sys
import tempfile

sys.dont_write_bytecode = True
from owners import Language, accepts, violates

MOST_SHOWN = 10
CHANGES = 12
MOST_BYTES = 67_108_864
MOST_VOCABULARY = 4_194_304
MOST_ANSWERS = 999_999
PLAIN = "(?:0|[1-9][0-9]*)"
NUMBER = f"({PLAIN})"


class Unread(Exception):
    """Why a text is no certificate, as `check` says it."""


class Reader:
    """The lines of a certificate, taken one after the other."""

    def __init__(self, data):
        self.data, self.at, self.line = data, 0, -1

    def bad(self):
        return Unread(f"bad line {self.line}")

    def take(self, pattern):
        """The groups of the next line, which has to be of this form."""
        self.line += 1
        end = self.data.find(b"\n", self.at)
        found = end >= 0 and re.fullmatch(pattern, self.data[self.at : end].decode("latin-1"))
        if not found:
            raise self.bad()
        self.at = end + 1
        return found.groups()

    def number(self, word, most=None):
        (number,) = self.take(f"{word} {NUMBER}")
        if most is not None and int(number) > most:
            raise self.bad()
        return int(number)

    def counted(self, size):
        """So many bytes and a newline, as one line."""
        self.line += 1
        end = self.at + size
        if self.data[end : end + 1] != b"\n":
            raise self.bad()
        found, self.at = self.data[self.at : end], end + 1
        return found


def language_of(vocabulary, lang):
    """The language of a vocabulary. Of those that differ from the drawn one only the first faults are known here."""
    if vocabulary == lang.text.encode():
        return lang
    try:
        whole = json.loads(vocabulary)
    except ValueError:
        raise Unread("vocabulary not json") from None
    if not isinstance(whole, dict):
        raise Unread("vocabulary wrong kind whole")
    raise NotImplementedError


def read(data, lang):
    """The answers, the network and the list of a certificate; each answer is a pair of values by variable and a truth value."""
    if len(data) > MOST_BYTES:
        raise Unread("too long")
    reader = Reader(data)
    reader.take("QUACQCERT1")
    size = reader.number("vocabulary", MOST_VOCABULARY)
    lang = language_of(reader.counted(size), lang)
    answers = []
    for _ in range(reader.number("answers", MOST_ANSWERS)):
        word, pairs = reader.take(f"(yes|no)((?: {PLAIN}:{PLAIN})+)")
        shown = [tuple(int(number) for number in pair.split(":")) for pair in pairs.split()]
        variables = [v for v, _ in shown]
        if variables != sorted(set(variables)) or variables[-1] >= len(lang.names):
            raise reader.bad()
        if any(i >= len(lang.values) or lang.values[i] not in lang.ranges[v] for v, i in shown):
            raise reader.bad()
        answers.append(({v: lang.values[i] for v, i in shown}, word == "yes"))
    network = []
    for _ in range(reader.number("network")):
        scope, relation = map(int, reader.take(f"{NUMBER} {NUMBER}"))
        if scope >= len(lang.scopes) or relation >= len(lang.closed[lang.scopes[scope]]):
            raise reader.bad()
        network.append((lang.scopes[scope], lang.closed[lang.scopes[scope]][relation]))
    listed = []
    for _ in range(reader.number("implied")):
        number, tokens = reader.take(f"{NUMBER}((?: (?:b|c|{PLAIN}))*)")
        tokens = [token if token in "bc" else int(token) for token in tokens.split()]
        if int(number) >= len(lang.candidates) or (listed and int(number) <= listed[-1][0]):
            raise reader.bad()
        if any(token not in ("b", "c") and token >= len(network) for token in tokens):
            raise reader.bad()
        listed.append((int(number), tokens))
    reader.take("end")
    if reader.at != len(data):
        reader.line += 1
        raise reader.bad()
    return lang, answers, network, listed


def order_of(lang, candidate):
    scope = candidate[0]
    return [*scope, *(v for v in range(len(lang.names)) if v not in scope)]


def satisfies(candidate, shown):
    return all(v in shown for v in candidate[0]) and not violates(candidate, shown)


def refutes(lang, network, candidate, tokens):
    """Whether the tokens are one tree, read node by node: each open node is the values of the first variables of the order."""
    order = order_of(lang, candidate)
    still = [[]]
    for token in tokens:
        if not still:
            return False
        values = still.pop()
        shown = dict(zip(order, values))
        if token == "b":
            if len(values) == len(order):
                return False
            still += [[*values, value] for value in reversed(lang.ranges[order[len(values)]])]
        elif token == "c":
            if not satisfies(candidate, shown):
                return False
        elif not violates(network[token], shown):
            return False
    return not still


def flaw_of(lang, answers, network, listed):
    """The first flaw, or none."""
    for i, (shown, yes) in enumerate(answers):
        if accepts(network, shown) != yes:
            return f"answer {i}"
    for i, (scope, _) in enumerate(network):
        if any(scope == before for before, _ in network[:i]):
            return f"scope twice {i}"
    own = lambda scope: [shown for shown, yes in answers if not yes and set(shown) == set(scope)]
    for i, (scope, _) in enumerate(network):
        if not own(scope):
            return f"no own answer {i}"
    struck = lambda c: any(yes and violates(c, shown) for shown, yes in answers)
    learned = dict(network)
    for number, (scope, table) in enumerate(lang.candidates):
        if scope in learned and learned[scope] != table and not struck((scope, table)):
            if all(violates((scope, table), shown) for shown in own(scope)):
                return f"rival {number}"
    numbers = {number for number, _ in listed}
    for number, candidate in enumerate(lang.candidates):
        if candidate[0] not in learned and number not in numbers and not struck(candidate):
            return f"uncovered {number}"
    for i, (number, tokens) in enumerate(listed):
        if not refutes(lang, network, lang.candidates[number], tokens):
            return f"refutation {i}"
    return None


def name_of(lang, candidate):
    scope, table = candidate
    names = [r for r, t in lang.on(scope).items() if table <= t]
    return " ".join(["&".join(names), *(lang.names[v] for v in scope)])


def wanted(data, lang):
    """What `check` has to say of a text, and its status."""
    try:
        lang, answers, network, listed = read(data, lang)
    except Unread as fault:
        return f"refused certificate form {fault}\n", 19
    flaw = flaw_of(lang, answers, network, listed)
    if flaw:
        return f"refused certificate {flaw}\n", 18
    return "".join([f"confirmed {len(answers)}\n", *(name_of(lang, c) + "\n" for c in network)]), 0


def tree(lang, network, candidate):
    """The tokens of the tree that `certify` writes."""
    order = order_of(lang, candidate)
    still, tokens = [[]], []
    while still:
        values = still.pop()
        shown = dict(zip(order, values))
        item = next((i for i, learned in enumerate(network) if violates(learned, shown)), None)
        tokens.append(str(item) if item is not None else "c" if satisfies(candidate, shown) else "b")
        if tokens[-1] == "b":
            assert len(values) < len(order), "what is listed isn't implied"
            still += [[*values, value] for value in reversed(lang.ranges[order[len(values)]])]
    return tokens


def written(lang, answers, network):
    """The certificate of a session that has converged."""
    done = {scope for scope, _ in network}
    struck = lambda c: any(yes and violates(c, shown) for shown, yes in answers)
    lines = ["QUACQCERT1", f"vocabulary {len(lang.text.encode())}", lang.text, f"answers {len(answers)}"]
    for shown, yes in answers:
        pairs = " ".join(f"{v}:{lang.values.index(value)}" for v, value in sorted(shown.items()))
        lines.append(f"{'yes' if yes else 'no'} {pairs}")
    lines.append(f"network {len(network)}")
    lines += [f"{lang.scopes.index(scope)} {lang.closed[scope].index(table)}" for scope, table in network]
    left = [(n, c) for n, c in enumerate(lang.candidates) if c[0] not in done and not struck(c)]
    lines.append(f"implied {len(left)}")
    lines += [" ".join([str(n), *tree(lang, network, c)]) for n, c in left]
    return "".join(line + "\n" for line in [*lines, "end"]).encode()


def changed(draw, data, vocabulary):
    """The text with one change behind its vocabulary, or at its head."""
    lines = data.split(b"\n")
    at = draw.randrange(len(lines))
    if lines[at] == vocabulary and draw.random() < 0.8:
        at = 0 if draw.random() < 0.2 else len(lines) - 2
    kind = draw.randrange(8)
    if kind == 0:
        del lines[at]
    elif kind == 1:
        lines.insert(at, lines[at])
    elif kind == 2:
        lines[at] = lines[at] + draw.choice([b" ", b" b", b" c", b" 0", b" 1", b" 0:0", b"0", b"\r"])
    elif kind == 3:
        lines[at] = lines[at].rpartition(b" ")[0]
    elif kind == 4 and lines[at] != vocabulary:
        places = [i for i, byte in enumerate(lines[at]) if chr(byte).isdigit()]
        if places:
            i = draw.choice(places)
            lines[at] = lines[at][:i] + draw.choice([b"0", b"1", b"2", b"7", b"10", b""]) + lines[at][i + 1 :]
    elif kind == 5 and lines[at] != vocabulary:
        tokens = lines[at].split(b" ")
        tokens[draw.randrange(len(tokens))] = draw.choice([b"b", b"c", b"0", b"yes", b"no", b"0:1"])
        lines[at] = b" ".join(tokens)
    elif kind == 6:
        other = draw.randrange(len(lines))
        lines[at], lines[other] = lines[other], lines[at]
    else:
        return data[: draw.randrange(len(data))]
    return b"\n".join(lines)


class Program:
    def __init__(self, path, folder):
        self.path, self.folder = path, folder

    def run(self, words, given=b""):
        ran = subprocess.run([self.path, *words], input=given, stdout=subprocess.PIPE, timeout=300, check=False)
        return ran.stdout, ran.returncode


def target_of(lang, target):
    return json.dumps([name_of(lang, c).split(" ") for c in target]).encode()


def shown_answers(lang, text):
    """The answers and the network that `show` prints."""
    answers, network, learned = [], [], 0
    for line in text.decode().splitlines():
        parts = line.split(" ")
        if re.fullmatch("q[0-9]+", parts[0]):
            shown = {lang.names.index(n): int(value) for n, value in (part.split("=") for part in parts[1:-1])}
            answers.append((shown, parts[-1] == "yes"))
        elif parts[0] == "learned":
            learned = int(parts[1])
        elif learned > len(network):
            network.append(lang.candidate_of(line))
    return answers, network


def session(program, number):
    """How many texts were checked, how many refused, and whether the session converged."""
    draw = random.Random(number)
    lang = Language(draw)
    while not lang.candidates:
        lang = Language(draw)
    journal = os.path.join(program.folder, f"journal{number}")
    plan = draw.choice(["quacq", "multi", "scopes"])
    _, status = program.run([journal, "new", "--plan", plan], lang.text.encode())
    assert status == 0, f"new ends with status {status}"
    ending, asked = "suspended", 0
    if draw.random() < 0.9:
        target = [(scope, table) for scope in lang.scopes for table in [draw.choice([None, *lang.closed[scope]])] if table is not None]
        words = ["--budget", "2"] if draw.random() < 0.1 else []
        told, _ = program.run([journal, "play", *words], target_of(lang, target))
        last = [line for line in told.decode().splitlines() if not line.startswith("q")][0]
        ending, asked = last.split(" ")[0], int(last.split(" ")[1])
    before = open(journal, "rb").read()
    text, status = program.run([journal, "certify"])
    assert open(journal, "rb").read() == before, "certify has changed the journal"
    if status == 16:
        assert text == f"refused not converged {asked}\n".encode(), f"it says {text!r}"
        assert ending != "converged", "it has converged"
        return 0, 0, False
    assert status == 0 and ending != "collapsed", f"certify ends with status {status} after {ending}"
    shown, _ = program.run([journal, "show"])
    built = written(lang, *shown_answers(lang, shown))
    assert text == built, f"certify writes another text: {text[-200:]!r} and not {built[-200:]!r}"
    texts, refused = [text], 0
    for _ in range(CHANGES):
        texts.append(changed(draw, draw.choice(texts), lang.text.encode()))
    for data in texts:
        try:
            due = wanted(data, lang)
        except NotImplementedError:
            continue
        said, status = program.run([":memory:", "check"], data)
        assert (said.decode(), status) == due, f"check says {said!r} with status {status}, and not {due}, of {data[-300:]!r}"
        refused += status != 0
    assert wanted(text, lang)[1] == 0, "the checker here doesn't confirm what certify writes"
    return len(texts), refused, True


def main():
    if len(sys.argv) < 2:
        print(__doc__)
        sys.exit(2)
    sessions = int(sys.argv[2]) if len(sys.argv) > 2 else 250
    failed, texts, refused, converged = [], 0, 0, 0
    with tempfile.TemporaryDirectory() as folder:
        program = Program(os.path.realpath(sys.argv[1]), folder)
        for number in range(sessions):
            try:
                some, no, done = session(program, number)
                texts, refused, converged = texts + some, refused + no, converged + done
            except Exception as fault:
                failed.append(f"session {number}: {fault!r}")
    for text in failed[:MOST_SHOWN]:
        print(f"certs: {text}")
    if not failed and not (0 < converged < sessions and 0 < refused < texts):
        failed.append("")
        print(f"certs: one side only: {converged} of {sessions} converged, {refused} of {texts} refused")
    print(f"certs: {sessions} sessions, {converged} converged, {texts} texts, {refused} of them refused; {len(failed)} failed")
    sys.exit(bool(failed))


if __name__ == "__main__":
    main()
