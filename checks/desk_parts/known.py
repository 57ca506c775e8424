"""What desk answers for the person is never against the person: rules said beforehand, answers carried over, and answers given
again after a step back, in drawn sessions. The person follows a network that has these rules; each session converges on it."""

from __future__ import annotations

import argparse
import contextlib
import io
import os
import random
import tempfile
from collections.abc import Callable

from planners_desk.commands import carry
from planners_desk.case import casefile
import drawn
from drawn import Owner
from planners_desk.case.model import PLANS, Fault, Rule, Values
from planners_desk.sitting.kept import Named
from planners_desk.sitting.session import Session
from planners_desk.program.talk import Program
from planners_desk.program.vocabulary import Vocabulary

SESSIONS = 40
PLANTED = [
    ("hints/foreseen.py", "return Said(False, ALWAYS, rule.text)", "return Said(True, ALWAYS, rule.text)"),
    ("hints/foreseen.py", "for one in self._accepted if asked <= one.items", "for one in self._accepted if one.items <= asked"),
    ("hints/foreseen.py", "for one in self._refused if one.items <= asked", "for one in self._refused if asked <= one.items"),
    ("sitting/session.py", "session.foreseen.forget(chosen.question.values, not chosen.yes)", "pass"),
    # of two old answers that disagree one decides
    ("hints/foreseen.py", "if said is None or (yes and no):", "if said is None:"),
    # what the person says in such a quarrel counts as given for them
    ("sitting/session.py", "said = None if by_person else self.foreseen.answer(question.values)", "said = self.foreseen.answer(question.values)"),
    # an old answer that was contradicted counts on
    ("sitting/session.py", "        dropped = self.foreseen.forget(values, yes)\n", "        dropped = False\n"),
    # what a line answered in a session before is carried over
    ("commands/carry.py", "        if one.yes or foreseen.violated(dict(one.values)) is None\n", ""),
    # the text beside a session may be another case's
    ("commands/carry.py", "if head is None or head[1] != words.json.encode():", "if False:"),
    # what an old answer gave stays where that one counts no more
    ("sitting/session.py", "place = self.session.groundless() if dropped else None", "place = None"),
]
Truth = Callable[[Values], bool]


def keeps(words: Vocabulary, owner: Owner) -> list[Rule]:
    """Rules in the case's words that the owner's network has, as they can be said beforehand."""
    found = []
    for scope, table in owner.tables.items():
        for rule, mine in words.rules_on(scope):
            if table & mine == table and ("=" not in rule.word.text or rule.word.things == rule.things):
                found.append(rule)
    return found


def always_line(words: Vocabulary, rules: list[Rule]) -> str:
    """The line that says rules beforehand."""
    said = [rule.word.text if rule.word.things else f"{rule.word.text} on {' - '.join(words.case.things[thing].name for thing in rule.things)}" for rule in rules]
    return f"always: {', '.join(said)}\n" if said else ""


def truth_of(words: Vocabulary, owner: Owner) -> Truth:
    """How the person answers: by the network, and by what each thing may take."""
    return lambda values: owner.accepts(values) and not any(rule.violated(values) for rule in words.case.always)


def sat(session: Session, truth: Truth, slip: int = -1) -> tuple[list[str], int]:
    """Sits in front of a session to its end; the faults, and how many answers were given for the person."""
    faults, given, count = [], 0, 0
    with session.sit() as sitting:
        sitting.advance()
        while sitting.question is not None or sitting.given:
            faults += [f"desk answers {answer.yes} to {answer.question.values} ({answer.said})" for answer in sitting.given if answer.yes != truth(answer.question.values)]
            given += len(sitting.given)
            if sitting.question is None:
                break
            sitting.answer(truth(sitting.question.values) ^ (count == slip))
            count += 1
            sitting.advance()
        if slip < 0 and sitting.ending is not None:
            faults += ended(session, sitting.ending.word, sitting.ending.learned, truth)
    return faults, given


def ended(session: Session, word: str, learned: tuple, truth: Truth) -> list[str]:
    """Whether the end is the one of a truthful person, with the network's solutions."""
    if word != "converged":
        return [f"the session ended as {word}"]
    words = session.vocabulary
    return [f"{values} is {truth(values)} and learned otherwise" for values in drawn.in_ranges(words)
            if truth(values) != all(words.accepts(constraint, values) for constraint in learned)][:1]


def plan_of(words: Vocabulary, seed: int) -> str:
    """A plan in which a truthful person comes to an end."""
    return "scopes" if words.lifted else PLANS[seed % 3]


def named(faults: list[str], what: str) -> list[str]:
    """Faults with where they come from."""
    return [f"{what}: {fault}" for fault in faults]


def always(program: Program, folder: str, seed: int, words: Vocabulary, text: str) -> tuple[list[str], int]:
    """Rules said beforehand."""
    draw = random.Random(seed)
    owner = Owner(words, draw, 0.9, next(drawn.in_ranges(words)))
    some = keeps(words, owner)
    rules = draw.sample(some, min(len(some), 3))
    path = os.path.join(folder, "always.case")
    with open(path, "w", encoding="utf-8") as file:
        file.write(text + always_line(words, rules))
    try:
        Vocabulary(casefile.read(path))
    except Fault:       # a rule on things that aren't put together as such
        return [], 0
    with Session.opened(casefile.read(path), program, plan_of(words, seed)) as session:
        return sat(session, truth_of(session.vocabulary, owner))


def carried(program: Program, folder: str, seed: int, words: Vocabulary, text: str) -> tuple[list[str], int]:
    """A case gets one more word, and the old answers are carried over."""
    draw = random.Random(seed)
    owner = Owner(words, draw, 0.8)
    truth = truth_of(words, owner)
    old, new = os.path.join(folder, "old.case"), os.path.join(folder, "new.case")
    less = text.replace(f", {words.case.words[-1].text}\n", "\n")
    for path, said in ((old, less), (new, text)):
        with open(path, "w", encoding="utf-8") as file:
            file.write(said)
    try:
        with Session.opened(casefile.read(old), program, PLANS[seed % 3]) as session:
            sat(session, truth, 10**6)
    except Fault:       # without that word the case says nothing on some group
        return [], 0
    with contextlib.redirect_stdout(io.StringIO()):
        carry.main(old, new, argparse.Namespace(acquire=program.path, budget=None))
    with Session.opened(casefile.read(new), program) as session:
        faults = [f"carried {answer}" for answer in session.answers if answer.yes != truth(answer.question.values)]
        found, given = sat(session, truth)
    return faults + found + put_again(program, new), given


def earlier(program: Program, folder: str, seed: int, words: Vocabulary, text: str) -> tuple[list[str], int]:
    """A slip of an earlier session is carried over. The person goes back to the last answer that it gave: what it gave elsewhere is
    asked anew then."""
    draw = random.Random(seed)
    truth = truth_of(words, Owner(words, draw, 0.9))
    old, new = os.path.join(folder, "slip.case"), os.path.join(folder, "mended.case")
    for path, plan in ((old, "scopes"), (new, "quacq")):
        with open(path, "w", encoding="utf-8") as file:
            file.write(f"{text}plan: {plan}\n")
    with Session.opened(casefile.read(old), program) as session:
        sat(session, truth, draw.randrange(4))
    with contextlib.redirect_stdout(io.StringIO()):
        carry.main(old, new, argparse.Namespace(acquire=program.path, budget=None))
    with Session.opened(casefile.read(new), program) as session, session.sit() as sitting:
        def wrong() -> list[int]:
            while sitting.question is not None:
                sitting.answer(truth(sitting.question.values))
                sitting.advance()
            return [place for place, answer in enumerate(session.answers) if answer.yes != truth(answer.question.values)]
        sitting.advance()
        places = wrong()
        if not places:
            return [], 0
        sitting.back_to(places[-1])
        return [f"{session.answers[place]} is left" for place in wrong()], 1


def put_again(program: Program, path: str) -> list[str]:
    """Who goes back to an answer that was carried over is asked, also on another day: it isn't given again."""
    with Session.opened(casefile.read(path), program) as session:
        places = [place for place, answer in enumerate(session.answers) if answer.said is not None and answer.said.by == "carried"]
        if not places:
            return []
        wanted = session.answers[places[-1]].question
        with session.sit() as sitting:
            sitting.advance()
            sitting.back_to(places[-1])
            sitting.stop()
    with Session.opened(casefile.read(path), program) as session, session.sit() as sitting:
        sitting.advance()
        return [] if sitting.question == wanted else [f"after going back to {wanted} on another day {sitting.question} is put"]


def again(program: Program, folder: str, seed: int, words: Vocabulary, text: str) -> tuple[list[str], int]:
    """A slip, then a step back to it: the later answers are given again."""
    draw = random.Random(seed)
    owner = Owner(words, draw, 0.9)
    truth = truth_of(words, owner)
    path = os.path.join(folder, "again.case")
    with open(path, "w", encoding="utf-8") as file:
        file.write(text)
    slip = draw.randrange(4)
    with Session.opened(casefile.read(path), program, PLANS[seed % 3]) as session:
        sat(session, truth, slip)
        own = [place for place, answer in enumerate(session.answers) if answer.said is None]
        if slip >= len(own):
            return [], 0
        chosen = session.answers[own[slip]]
        with session.sit() as sitting:
            sitting.advance()
            sitting.back_to(own[slip])
            if sitting.question != chosen.question:
                return [f"going back to {chosen.question} shows {sitting.question}"], 0
            if len(session.answers) != own[slip] or session.possible.most != fresh_most(session):
                return [f"after going back {len(session.answers)} answers stand, and the bound is {session.possible.most}"], 0
            sitting.answer(not chosen.yes)
        return sat(session, truth)


def said_by_lines(program: Program) -> list[str]:
    """What a line `always` answered isn't carried over, neither from the session in which it did nor from one before it; nor is
    anything of a session to which the text beside it doesn't belong."""
    text, line = "things: a b\nvalues: p q\nask: all\nwords: different, same\nplan: scopes\n", "always: different on all\n"
    with tempfile.TemporaryDirectory() as folder, contextlib.redirect_stdout(io.StringIO()):
        old, new = os.path.join(folder, "old.case"), os.path.join(folder, "new.case")
        for path, said in ((old, text + line), (new, text)):
            with open(path, "w", encoding="utf-8") as file:
                file.write(said)
        before: list[Named] = [{"yes": False, "by": "carried", "values": {"a": "q", "b": "q"}}]
        with Session.opened(casefile.read(old), program, before=before) as session:
            sat(session, lambda values: True)
            given = [answer.said.by for answer in session.answers if answer.said is not None]
        options = argparse.Namespace(acquire=program.path, budget=None)
        carry.main(old, new, options)
        with Session.opened(casefile.read(new), program) as session:
            left = [one for one in session.foreseen.before if not one.yes]
        with open(os.path.join(folder, "old.session"), encoding="utf-8") as file:
            kept = file.read()
        with open(os.path.join(folder, "old.session"), "w", encoding="utf-8") as file:
            file.write(kept.replace("values: p q", "values: q p r"))
        try:
            carry.main(old, None, options)
            return ["answers are carried over from a session that is about another case"]
        except Fault as fault:
            refused = "another desk made them" in str(fault)
    return [] if given and not left and refused else [f"of {given} there are {left} carried over"]


def disagreeing(program: Program) -> list[str]:
    """A question about which two old answers disagree is put to the person, whose answer then is their own, and ends the quarrel."""
    with tempfile.TemporaryDirectory() as folder:
        path, faults = os.path.join(folder, "w.case"), []
        with open(path, "w", encoding="utf-8") as file:
            file.write("things: a b c\nvalues: p q r\nask: all\nwords: different, never p\n")
        before: list[Named] = [{"yes": True, "by": "carried", "values": {"a": "p", "b": "p", "c": "q"}},
                               {"yes": False, "by": "carried", "values": {"b": "p"}}]
        with Session.opened(casefile.read(path), program, "scopes", before=before) as session, session.sit() as sitting:
            sitting.advance()
            asked, given = sitting.question, sitting.given
            if asked is None or asked.values != {0: 0, 1: 0} or given:
                return [f"it puts {asked} and answers {given}"]
            sitting.answer(True)
            if session.answers[-1].said is not None or [one.yes for one in session.foreseen.before] != [True]:
                faults.append(f"the person's answer is {session.answers[-1]}, and {session.foreseen.before} are left")
            sitting.advance()
            if not sitting.back() or sitting.question != asked:
                faults.append(f"back leads to {sitting.question} and not to {asked}")
    return faults


def fresh_most(session: Session) -> int:
    """The bound as it is counted anew from the journal."""
    most, answers = session.possible.most, session.answers
    session.reload()
    same = [(one.question, one.yes) for one in session.answers] == [(one.question, one.yes) for one in answers]
    return session.possible.most if same else most + 1


def run(program: str) -> list[str]:
    """Faults of all drawn sessions."""
    return looked(program, SESSIONS * drawn.TIMES)


def quick(program: str) -> list[str]:
    """The same in little."""
    return looked(program, SESSIONS // 4)


def looked(program: str, sessions: int) -> list[str]:
    """Faults of so many drawn sessions, and of some that are written here."""
    faults: list[str] = []
    counts = {"always": 0, "carried": 0, "earlier": 0, "again": 0}
    it = Program(program)
    for seed, case, words in drawn.cases(range(9000, 9000 + sessions)):
        with tempfile.TemporaryDirectory() as folder:
            for what, part in (("always", always), ("carried", carried), ("earlier", earlier), ("again", again)):
                found, given = part(it, folder, seed, words, case.text)
                faults += named(found, f"{what}, drawn{seed}")
                counts[what] += given
        if len(faults) > drawn.ENOUGH:
            break
    faults += named(disagreeing(it), "disagreeing") + named(said_by_lines(it), "said by lines")
    faults += [f"{what}: nothing was ever given, or gone back to, which tests little" for what, count in counts.items() if not count]
    print("known: answers given for the person, all as the person would: " + ", ".join(f"{count} {what}" for what, count in counts.items() if what != "earlier")
          + f"; {counts['earlier']} steps back to slips of an earlier session")
    return faults
