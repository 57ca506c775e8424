"""Letters that can't be seen: none is taken from a case, a word of a call or a session's file, and none that comes from elsewhere
reaches a terminal, where it would set a title, hide a line or turn it round."""

from __future__ import annotations

import json
import os
import shutil
import stat
import unicodedata

import hands        # desk's folder is on the path now
from planners_desk.case import casefile
from planners_desk.case import letters
from planners_desk.case.files import journal_of, kept_of
from hands import Tmux
from planners_desk.case.model import Fault
from planners_desk.sitting.session import Session
from planners_desk.program.talk import Program

# each kind of line, with a place for a letter between two of its own
LINES = ("title: a{}b", "things: a{}b c", "thing a{}b: 1 2", "values: a{}b 2", "only a{}b: 1", "ask: al{}l", "words: sa{}me", "always: same on a{}ll",
         "known: same on a{}ll", "note: a{}b", "plan: sco{}pes", "# a com{}ment", "values: 1 2 # a com{}ment", "k{}ey: x", "no key a{}t all")
REST = "things: x y\nvalues: 1 2\nask: all\nwords: same\n"
TERMINAL = ("\x1b]0;PWNED\x07", "\u202e")
JOINED = ("क्‍ष", "می‌خواهم", "👨‍👩‍👧", "❤️‍🔥", "👩🏽‍🚀", "शक्‌ति")
PLANTED = [
    ("case/letters.py", 'not letter.isprintable() and unicodedata.category(letter) != "Zs"', 'unicodedata.category(letter) == "Cc"'),
    ("case/letters.py", 're.split("\\r\\n|\\n|\\r", text)', "text.splitlines()"),
    ("case/letters.py", 'unicodedata.normalize("NFC", text)', "text"),
    ("case/letters.py", 'unicodedata.category(one)[0] in "LMNS" for one in around', 'one for one in around'),
    ("case/letters.py", "return name.translate(dict.fromkeys(map(ord, JOINERS)))", "return name"),
    ("case/casefile.py", "if wrong := letters.unseen(raw):", 'if wrong := letters.unseen(raw.split("#")[0]):'),
    ("case/model.py", 'letters.shown("; ".join(text.split("\\n")))', '"; ".join(text.split("\\n"))'),
    ("program/talk.py", "return letters.shown(reply.text", "return (reply.text"),
    ("sitting/kept.py", "thing_of.get(letters.composed(name))", "thing_of.get(name)"),
    ("commands/streams.py", "if wrong := letters.unseen(word):", "if wrong := None:"),
]


def hidden() -> list[str]:
    """Letters of each kind that can't be seen, by the table of Unicode itself."""
    every = [chr(code) for code in range(0x3000) if chr(code) not in "\t\n\r" + letters.JOINERS]
    some = [letter for letter in every if unicodedata.category(letter)[0] == "C" or unicodedata.category(letter) in ("Zl", "Zp")]
    return some[:70:3] + some[70::40] + list("\x00\x07\x0b\x0c\x1b\x7f\x85\xad\u200b\u200e\u202e\u2028\u2029\u2066\ufeff\ue000\U000e0041\U000f0000")


def told(text: str) -> str:
    """What is said of a text, behind the file's name; empty where it is taken."""
    try:
        casefile.parse(text, "it.case")
    except Fault as fault:
        return str(fault).removeprefix("it.case")
    return ""


def in_lines() -> list[str]:
    """In every line and in a comment: file, line, the place in the line and the code point."""
    found = []
    for letter in hidden():
        for line in LINES:
            place = line.index("{") + 1
            said = told(f"# first\n{line.format(letter)}\n{REST}")
            wanted = f":2: letter {place} is U+{ord(letter):04X}"
            if not said.startswith(wanted) or "can't be seen" not in said or not all(one.isprintable() or one == "\n" for one in said):
                found.append(f"{line.format(ascii(letter))}: {said!r} and not {wanted}")
    return found[:9]


def ends() -> list[str]:
    """Lines end where an editor's do, so that the number of a line is the editor's."""
    found = [f"{end!r}: {said}" for end in ("\n", "\r\n", "\r")
             if not (said := told(end.join(["title: a", "", "# x", "thigns: a b", "values: 1"]))).startswith(":4: no such key: thigns")]
    mixed = told("title: a\r\n\rvalues: 1\n\nthigns: a b\r\n")
    return found + ([] if mixed.startswith(":5: no such key: thigns") else [f"mixed ends: {mixed}"])


def joiners() -> list[str]:
    """What joins letters of Hindi and Persian and pictures is taken between two of them, and nowhere else."""
    found = []
    for name in JOINED:
        case = casefile.parse(f"title: {name}\nthings: {name} b\nvalues: {name} 2\nask: all\nwords: same\n", "it.case")
        if (case.title, case.things[0].name, case.values[0]) != (name, name, name):
            found.append(f"{name!r} is {case.things[0].name!r}")
    for joiner in letters.JOINERS:
        for text in (f"{joiner}a", f"a{joiner}", f"a {joiner}b", f"a{joiner} b", f"a{joiner}{joiner}b", f"a{joiner}-b"):
            if "between two letters or not at all" not in (said := told(f"things: {text} c\nvalues: 1 2\nask: all\nwords: same\n")):
                found.append(f"{text!r}: {said!r}")
        twins = told(f"things: ab a{joiner}b\nvalues: 1 2\nask: all\nwords: same\n")
        if twins != ":1: the thing `ab` stands twice":
            found.append(f"two names that look the same: {twins!r}")
    return found


def composed(program: str) -> list[str]:
    """A letter and its accent are one letter: in a case, and in what was kept before that was so."""
    found = []
    apart, whole = unicodedata.normalize("NFD", "é"), "é"
    for what, text in (("thing", f"things: {whole} {apart}\nvalues: 1 2\n"), ("value", f"things: a b\nvalues: {whole} {apart}\n")):
        if f"the {what} `é` stands twice" not in (said := told(text + "ask: all\nwords: same\n")):
            found.append(f"{what}: {said!r}")
    case = casefile.parse(f"title: {apart}\nthings: {apart} b\nvalues: {apart} 2\nonly {apart}: {whole}\nask: {whole} - b\nwords: never {apart}, same\n", "it.case")
    if (case.title, case.things[0].name, case.values[0], case.words[0].text) != (whole, whole, whole, f"never {whole}") or case.things[0].allowed != (0,):
        found.append(f"names: {case}")
    with hands.room("old", f"things: {apart} b\nvalues: {apart} 2\nask: all\nwords: same, different\n") as path:
        kept = {"case": f"things: {apart} b\nvalues: {apart} 2\nask: all\nwords: same, different\n",
                "before": [{"yes": True, "by": "carried", "values": {apart: apart, "b": "2"}}]}
        with Session.opened(casefile.read(path), Program(program), "scopes") as session:
            journal = session.journal
        with open(kept_of(journal), "w", encoding="utf-8") as file:
            json.dump(kept, file)
        with Session.opened(casefile.read(path), Program(program)) as session:
            if len(session.foreseen.before) != 1 or dict(session.foreseen.before[0].values) != {0: 0, 1: 1}:
                found.append(f"what was kept: {session.foreseen.before}")
    return found


def faults_are_lines() -> list[str]:
    """A fault is one line that may be printed, and not a long one, whatever it is about."""
    found = []
    for text in (*TERMINAL, "a\nb\r\x0bc\u2028d", "x" * 5000, "\ud800"):
        said = Fault(f"{text} is wrong").texts[0]
        if any(not letter.isprintable() for letter in said) or len(said) > 1100 or "is wrong" not in said:
            found.append(f"{text[:20]!r}: {said[:80]!r}")
    return found


def in_calls(program: str) -> list[str]:
    """Words of a call, and files beside a case: told with their place, and nothing of them is printed as it is."""
    found = []
    with hands.room("ward") as path:
        for words in (["check", f"x{TERMINAL[0]}.case"], ["ask", path, "--plan", TERMINAL[1]], [TERMINAL[0]], ["check", path, "--acquire", f"/x{TERMINAL[0]}"]):
            ran = hands.desk(*words)
            if ran.returncode != 2 or "U+" not in ran.stderr or not plain(ran.stdout + ran.stderr) or ran.stderr.count("\n") != 1:
                found.append(f"{words}: {ran}")
        hands.answered(path, program, hands.ward, most=2)
        with open(kept_of(journal_of(path)), encoding="utf-8") as file:
            kept = json.load(file)
        for broken in ({**kept, "case": kept["case"].replace("title: Ward", f"title: {TERMINAL[0]}")},
                       {**kept, "before": [{"yes": True, "by": TERMINAL[0], "values": {}}]}, {**kept, "before": [{"yes": True, "by": "again", "values": [1]}]}):
            with open(kept_of(journal_of(path)), "w", encoding="utf-8") as file:
                json.dump(broken, file)
            ran = hands.desk("ask", path, "--acquire", program, given="y\n")
            if ran.returncode != 1 or ".session" not in ran.stderr or not plain(ran.stdout + ran.stderr) or ran.stderr.count("\n") != 1:
                found.append(f"{str(broken)[-60:]}: {ran}")
    return found


def from_the_program(program: str) -> list[str]:
    """What the program says at the end of a run is shown with the numbers of such letters."""
    with hands.room() as path:
        mocking = os.path.join(os.path.dirname(path), "mocking")
        with open(mocking, "w", encoding="utf-8") as file:
            file.write(f"#!/bin/sh\nif [ \"$2\" = run ]; then printf 'refused {TERMINAL[0]}\\n'; exit 7; fi\nexec {program} \"$@\"\n")
        os.chmod(mocking, stat.S_IRWXU)
        ran = hands.desk("ask", path, "--acquire", mocking, "--plan", "scopes")
        good = ran.returncode == 1 and "acquire says: refused <U+001B>]0;PWNED<U+0007>" in ran.stdout and plain(ran.stdout + ran.stderr)
        return [] if good else [str(ran)]


def plain(text: str) -> bool:
    """Whether a text has nothing but letters that are shown, and lines."""
    return all(letter.isprintable() or letter == "\n" for letter in text)


def at_a_terminal(program: str) -> list[str]:
    """The title of a real terminal stays as it was, whatever a case, a word of it or the program says."""
    found = []
    with hands.room("ward", hands.WARD.replace("title: Ward", f"title: {TERMINAL[0]}Ward")) as titled, \
            hands.room("other", hands.WARD.replace("words: diff", f"words: di{TERMINAL[0]}ff")) as worded, hands.room() as right:
        mocking = os.path.join(os.path.dirname(right), "mocking")
        with open(mocking, "w", encoding="utf-8") as file:
            file.write(f"#!/bin/sh\nprintf 'refused {TERMINAL[0]}\\n'\nexit 7\n")
        os.chmod(mocking, stat.S_IRWXU)
        for path, acquire in ((titled, program), (worded, program), (right, mocking)):
            for more in ([], ["--plain"]):
                tmux = Tmux(hands.words(path, acquire, *more), 80, 24)
                try:
                    shown = tmux.wait_for(r"ended \d")
                    title = tmux.title()
                    if "PWNED" in title or "U+001B" not in shown.replace("\n", ""):
                        found.append(f"{os.path.basename(path)} {more}: the title is {title!r}, and it says {shown[-300:]!r}")
                finally:
                    tmux.close()
    return found


def run(program: str) -> list[str]:
    """Faults of all of these."""
    faults = quick(program)
    where = f"{len(LINES)} kinds of lines, in calls, in sessions"
    if shutil.which("tmux"):
        faults += [f"at_a_terminal: {fault}" for fault in at_a_terminal(program)]
        where += ", at a terminal"
    else:
        hands.passed_over("unseen", "no title of a terminal is looked at, since tmux isn't there")
    print(f"unseen: {len(hidden())} letters in {where}")
    return faults


def quick(program: str) -> list[str]:
    """The same without a terminal."""
    faults = [f"{part.__name__}: {fault}" for part in (in_lines, ends, joiners, faults_are_lines) for fault in part()]
    return faults + [f"{part.__name__}: {fault}" for part in (composed, in_calls, from_the_program) for fault in part(program)]

