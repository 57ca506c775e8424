"""What a no has taught, beside what the program has learned: at every question of drawn sessions,
with `always` lines and after steps back, desk says exactly the rules that are new in `show` and
whose things were refused. And what it costs where there are 4,950 groups."""

from __future__ import annotations

import os
import random
import tempfile
import time

import drawn  # desk's folder is on the path now
from planners_desk.case import casefile
import hands
from planners_desk.sitting import answers
from drawn import Owner
from planners_desk.case.model import PLANS, Fault
from planners_desk.sitting.session import Session, Sitting
from planners_desk.program.talk import Program

SESSIONS = 30
MOST = 40  # questions of a session
LIMIT = 0.005  # seconds that it may take at a question, in the middle
EXAMS = f"""title: Exams
things: {' '.join(f'exam{k}' for k in range(100))}
values: 1 .. 15
ask: all
words: different, at least 2 apart, before
"""
SEATS = """title: Seats
things: Ada Bo Cy Dürr
values: table left right x seat 1 2 3 4
ask: all
words: different, same table, next to
"""

PLANTED = [
    # a rule that was known before is said again
    ("hints/possible.py", "and not _says(left, needed)", ""),
    # what was said beforehand is said as if it were taught
    ("sitting/session.py",
     "yield from (\n"
     "                    rule\n"
     "                    for rule in self.vocabulary.fewest(scope, table)\n"
     "                    if (rule.word.text, rule.things) not in self.beforehand\n"
     "                )",
     "yield from (rule for rule in self.vocabulary.fewest(scope, table))"),
    # answers that are given for the person teach as well
    (
        "sitting/session.py",
        "for place, answer in enumerate(self.answers[since:])",
        "for place, answer in enumerate(self.answers[since:since + 1])",
    ),
    # a rule stands there that was taken back
    (
        "sitting/asking.py",
        "self.before, self.taught, self._told = None, NOTHING, set()",
        "self.before, self._told = None, set()",
    ),
    # a rule that two groups have is said twice
    ("sitting/answers.py", "if rule.text not in told)", ")"),
]
Known = set[tuple[tuple[int, ...], int]]


def learned(one: Session) -> Known:
    """What the program has learned: the scopes, and what is accepted there."""
    return {(constraint.scope, one.vocabulary.table(constraint)) for constraint in one.learned()}


def said(one: Session, rules: Known) -> list[str]:
    """The rules of constraints in words, without those that were said beforehand."""
    every = {
        rule.text: (rule.word.text, rule.things)
        for scope, table in rules
        for rule in one.vocabulary.fewest(scope, table)
    }
    return sorted(
        text
        for text, key in every.items()
        if key not in {(rule.word.text, rule.things) for rule in one.case.always}
    )


def case_text(draw: random.Random) -> str:
    """A drawn case; often the first word that can be said beforehand of its groups is."""
    text = drawn.case_text(draw)
    if draw.random() < 0.5:
        case = casefile.parse(text, "drawn.case")
        pairs = [group for group in case.groups if len(group.things) == 2]
        word = next((word.text for word in case.words if word.arity == 2 and not word.things), None)
        if pairs and word:
            names = (case.things[thing].name for thing in draw.choice(pairs).things)
            text += f"always: {word} on {' - '.join(names)}\n"
    return text


def session(
    one: Session, sitting: Sitting, owner: Owner, draw: random.Random
) -> tuple[list[str], int]:
    """One session: the faults, and how many rules were said. A step back on the way takes rules
    back, and they are said again."""
    found: list[str] = []
    count = 0
    sitting.advance()
    known = learned(one)
    while sitting.question is not None and len(one.answers) < MOST:
        since = len(one.answers)
        sitting.answer(owner.accepts(sitting.question.values))
        sitting.advance()
        now = learned(one)
        refused = {
            tuple(sorted(answer.question.values))
            for answer in one.answers[since:]
            if not answer.yes
        }
        wanted, got = said(one, {rule for rule in now - known if rule[0] in refused}), sorted(
            rule.text for rule in one.taught(since)
        )
        count += len(wanted)
        if wanted != got:
            found.append(f"{one.plan}, answer {since + 1}: new is {wanted}, and desk says {got}")
        known = now
        if draw.random() < 0.1 and sitting.back():
            known = learned(one)
    return found, count


def sessions(program: str) -> list[str]:
    """Faults of all drawn sessions."""
    faults: list[str] = []
    count = rules = 0
    for seed in range(SESSIONS):
        draw = random.Random(seed)
        with tempfile.TemporaryDirectory() as folder:
            path = os.path.join(folder, "drawn.case")
            try:
                with open(path, "w", encoding="utf-8") as file:
                    file.write(case_text(draw))
                with Session.opened(
                    casefile.read(path), Program(program), PLANS[seed % 3]
                ) as one, one.sit() as sitting:
                    found, said_here = session(one, sitting, Owner(one.vocabulary, draw), draw)
            except Fault:
                continue  # a case that the program doesn't take
        faults += [f"taught: session {seed}: {fault}" for fault in found]
        count, rules = count + 1, rules + said_here
    if rules < SESSIONS // 2:
        faults.append(f"taught: only {rules} rules were said, which tests little")
    print(f"taught: {rules} rules of {count} drawn sessions beside what the program learned")
    return faults


def shown(program: str) -> list[str]:
    """A rule that answers teach because a word is missing stands at the very next question, once,
    and not after a step back."""
    note = (
        "Your answers have just taught: Bo and Cy are next to each other. Is that so? "
        "If not, go back, or a word is missing."
    )

    def owner(q: hands.Named) -> bool:
        """No seat twice, and Bo and Cy at two tables, which the words can't say."""
        return len(set(q.values())) == len(q) and not (
            "Cy" in q and "Bo" in q and q["Cy"].split()[0] == q["Bo"].split()[0]
        )

    with hands.room("seats", SEATS) as path:
        it = hands.Piped(path, program, "--plan", "scopes")
        said_after, before = [], hands.Named()

        def asked(sheet: list[str] | None) -> bool:
            """Whether a question is there; after which answer the note stands is put down."""
            said_after.extend([sorted(before)] if note in (sheet or []) else [])
            return sheet is not None and hands.is_question(sheet)

        while asked(sheet := it.sheet()) and not said_after:
            before = hands.plain_values(sheet or [])
            it.say("y" if owner(before) else "n")
        steps = []
        for key in ("w", "b", "n"):
            it.say(key)
            sheet = it.sheet() or []  # behind that of w the question comes again
            steps.append(note in sheet)
        while asked(sheet) and len(said_after) < 3:
            before = hands.plain_values(sheet or [])
            it.say("y" if owner(before) else "n")
            sheet = it.sheet()
        it.end()
    faults = (
        [] if said_after == [["Bo", "Cy"]] * 2 else [f"taught: {note!r} stands after {said_after}"]
    )
    faults += twice(program)
    return faults + (
        []
        if steps == [True, False, True]
        else [f"taught: after w, b and n it stands there: {steps}"]
    )


def twice(program: str) -> list[str]:
    """A rule about one thing that two groups have is said at the first of them alone."""
    with hands.room("ward", hands.WARD + "always: different on same day\n") as path:
        it = hands.Piped(path, program, "--plan", "scopes")
        while (sheet := it.sheet()) is not None and hands.is_question(sheet):
            values = hands.plain_values(sheet)
            it.say("y" if hands.ward(values) and len(set(values.values())) == len(values) else "n")
        it.end()
        said = [
            line
            for line in it.lines
            if line.startswith("Your answers have just taught: Mon night is never Ann.")
        ]
    return [] if len(said) == 1 else [f"taught: {said}"]


def known_already(program: str) -> list[str]:
    """A no from an earlier session that is given for the person teaches as well; a further no about what is settled doesn't."""
    text = "title: Three\nthings: a b c\nvalues: x y\nask: all\nwords: different\n"
    carried = [{"yes": False, "by": "carried", "values": {"a": "x", "c": "x"}}]
    with hands.room("three", text) as path:
        case = casefile.read(path)
        with Session.opened(case, Program(program), "scopes", before=carried) as one, one.sit() as sitting:
            sitting.advance()
            sitting.answer(False)
            sitting.advance()
            first = sorted(rule.text for rule in one.taught(0))
            one.possible.take({0: 1, 1: 1}, False)
            again = list(one.possible.taught([2]))
    right = first == ["a and b differ", "a and c differ"] and not again
    return [] if right else [f"taught: {first}, and then {again}"]


def pace(program: str) -> list[str]:
    """What it takes at a question, with 4,950 groups."""
    faults, told = [], []
    for plan in ("scopes", "quacq"):
        with tempfile.TemporaryDirectory() as folder:
            path = os.path.join(folder, "exams.case")
            with open(path, "w", encoding="utf-8") as file:
                file.write(EXAMS)
            taken = []
            with Session.opened(
                casefile.read(path), Program(program), plan
            ) as one, one.sit() as sitting:
                sitting.advance()
                while sitting.question is not None and len(taken) < MOST:
                    values, since = sitting.question.values, len(one.answers)
                    sitting.answer(all(values[thing] != values.get(thing + 7) for thing in values))
                    sitting.advance()
                    began = time.process_time()
                    answers.taught(one, since, set())
                    taken.append(time.process_time() - began)
        taken.sort()
        told.append(
            f"{plan} {1000 * taken[len(taken) // 2]:.2f} ms, at most {1000 * taken[-1]:.1f}"
        )
        if taken[len(taken) // 2] > LIMIT:
            faults.append(f"taught: {told[-1]} a question")
    print(f"taught: with 4,950 groups, at a question {'; '.join(told)}")
    return faults


def run(program: str) -> list[str]:
    """The faults that were found."""
    return sessions(program) + shown(program) + known_already(program) + pace(program)


def quick(program: str) -> list[str]:
    """The same without the pace."""
    return sessions(program) + shown(program) + known_already(program)
