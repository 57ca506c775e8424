"""A sitting from end to end, over pipes: keys, going back, what is answered for the person, a
clash, the plans at the end.

The person of each row knows the rules of the case and may slip once. What the journal holds at the
end is compared with the session of a person who never slipped.
"""

from __future__ import annotations

import re
import subprocess
from collections.abc import Iterable

import hands        # desk's folder is on the path now
from planners_desk.case import casefile
from planners_desk.hints import sentences
from planners_desk.sitting import session
from planners_desk.hints import solver
from planners_desk.program import talk
from planners_desk.sitting import answers
from hands import Owner, Piped, is_question, plain_values, room

ALWAYS = hands.WARD + "always: different on same day\n"
TWO = """title: Two
things: a b
values: x y z
ask: all
words: different
"""

PLANTED = [
    # a line that contradicts an answer isn't told
    ("faces/questions.py", "        if self.session.against():\n            place", "        if False:\n            place"),
    # an answer is turned round
    ("faces/questions.py", "asking.answer(key == \"y\")", "asking.answer(key == \"n\")"),
    # another answer is gone back to than the one that was chosen
    ("faces/goback.py", "return \"\", key.place", "return \"\", max(key.place - 1, 0)"),
    # behind a broken plan only a single answer that explains it is shown
    ("sitting/judging.py", "    if places or plan.rule is None:\n        return places", "    return places"),
    # a second step back forgets what the first one took
    ("sitting/session.py", "*(self._aside.every if self._aside else ())", ""),
    # what decides the question that waits is dropped for good
    ("sitting/session.py", "return self.mine + self.reasons", "return self.mine"),
    # an answer that the case itself gives can be gone back to
    ("sitting/answers.py", "place if may_go_back(session, place) else None,", "place,"),
    # behind each sentence are the answers behind the first
    ("faces/views.py", "found[key.place])", "found[0])"),
    # it isn't asked whether to go back
    ("faces/goback.py", "if sure(session, face, key.place):", "if True:"),
    # letters stay at the first answers
    ("faces/letters.py", "self._first += len(self._letters)", "self._first += 0"),
    # rules that nobody saw kept don't come first
    ("sitting/judging.py", "        if allowed and said.unseen:", "        if False:"),
    # cells that are pointed at are judged with all others
    ("faces/review.py", "values = plan.meant(cells)", "values = plan.values"),
    # the answers behind a sentence are those about anything
    ("sitting/answers.py", "if asked in scopes and any(", "if any("),
    # a line that contradicts an answer leads nowhere
    ("faces/beforehand.py", "return place if face.put(sheet) == \"b\" else None", "return None"),
    # a rule that nobody saw kept isn't marked
    ("faces/end.py", "return [f\"- {sentence.whole}\" for", "return [f\"- {sentence.text}\" for"),
    # one cell is enough to go on from
    ("faces/point.py", "while len(found) < most:", "while len(found) < 1:"),
    # a thing isn't printed
    ("faces/plain.py", "for thing in sorted(picture.values)", "for thing in sorted(picture.values)[1:]"),
]


def run(program: str) -> list[str]:
    """The faults that were found."""
    return looked(program, ROWS)


def quick(program: str) -> list[str]:
    """The same in little."""
    return looked(program, (keys, always, odd_one, contradicted, refused_twice, from_rules,
                            behind_sentences, from_answers, step_by_step, never_seen, pointed))


def looked(program: str, rows: tuple[object, ...]) -> list[str]:
    """The faults of some rows."""
    faults = []
    count = 0
    for row in rows:
        if row in WITH_SOLVER and solver.name() is None:
            continue
        count += 1
        name = getattr(row, "__name__", "")
        try:
            faults += [f"sitting: {name}: {fault}" for fault in row(program)]     # type: ignore[operator]
        except Exception as error:      # a row that breaks is a fault of what it looks at
            faults.append(f"sitting: {name}: {error!r}")
    if count < len(rows):
        over = f"{len(rows) - count} of {len(rows)} rows, in which plans are judged"
        hands.passed_over("sitting", f"{over}, since no solver is installed")
    print(f"sitting: {count} rows over pipes")
    return faults


def sat(it: Piped, owner: Owner, slips: Iterable[int] = (), most: int = 2000) -> tuple[int, list[str] | None]:
    """Answers questions until another sheet comes; how many, and that sheet."""
    count, slips = 0, set(slips)
    while count < most:
        sheet = it.sheet()
        if sheet is None or not is_question(sheet):
            return count, sheet
        count += 1
        it.say("y" if owner(plain_values(sheet)) != (count in slips) else "n")
    return count, it.sheet()


def learned(program: str, path: str) -> list[str]:
    """The learned lines of a journal."""
    lines = hands.acquire(program, path, "show")
    start = next(k for k, line in enumerate(lines) if line.startswith("learned "))
    return sorted(lines[start + 1:-1])


def right(program: str, plan: str, owner: Owner = hands.ward, text: str = hands.WARD) -> list[str]:
    """What somebody learns who never slips."""
    with room("ward", text) as path:
        hands.answered(path, program, owner, plan)
        return learned(program, path)


def letter_of(sheet: list[str], number: int) -> str:
    """The key for the answer to a question, on a sheet with choices."""
    found = [line.split()[0] for line in sheet if re.match(rf"\s*[a-z]  {number}\. ", line)]
    return found[0] if found else ""


# ---------------------------------------------------------------- rows

def keys(program: str) -> list[str]:
    """y, n, b, w, r, s, ? and q, one after the other."""
    found = []
    with room() as path:
        it = Piped(path, program, "--plan", "scopes")
        first = it.sheet() or []
        steps = (("b", "no answer of yours"), ("y", "question 2"), ("n", "question 3"), ("w", "Why question 3"), ("", "question 3"),
                 ("s", "1. yes: Mon early Ann, Mon late Ann"), ("", "2. no:"), ("o", "question 3"), ("r", "Rules so far"), ("?", "y  yes"),
                 ("b", "question 2"))
        for key, wanted in steps:
            if key:
                it.say(key)
                sheet = it.sheet() or []
            if wanted not in "\n".join(sheet):
                found.append(f"after {key!r}: {sheet} and not {wanted!r}")
        if plain_values(sheet) != {"Mon early": "Ann", "Mon night": "Ann"} or "Your no to question 2 is taken back" not in "\n".join(sheet):
            found.append(f"b shows {sheet}")
        if plain_values(first) != {"Mon early": "Ann", "Mon late": "Ann"}:
            found.append(f"the first question: {first}")
        it.say("q")
        if it.end() != 6 or hands.answers(program, path) != 1:
            found.append(f"q: {it.ran.returncode}, {hands.answers(program, path)} answers")
        shown = hands.acquire(program, path, "show")
        if "q1 Mon_early=1 Mon_late=1 yes" not in shown:
            found.append(f"the journal: {shown[:3]}")
    return found


def goes_on(program: str) -> list[str]:
    """A second sitting begins at the question at which the first ended, and ends with the same
    rules."""
    with room() as path:
        it = Piped(path, program, "--plan", "quacq")
        sat(it, hands.ward, most=20)
        it.end()
        before = hands.due(program, path)
        it = Piped(path, program)
        sheet = it.sheet() or []
        found = [] if plain_values(sheet) == before[1] and f"question {before[0]}" in sheet[0] else [f"{sheet} and not {before}"]
        it.say("y" if hands.ward(plain_values(sheet)) else "n")
        sat(it, hands.ward)
        it.say("q")
        it.end()
        return found + ([] if it.ran.returncode == 0 and learned(program, path) == right(program, "quacq") else ["other rules at the end"])


def clash(program: str) -> list[str]:
    """A slip that collapses: it is among the suspects, going back to it in the same sitting mends
    it, and little is asked anew."""
    wanted, found = right(program, "quacq"), []
    for slip in (60, 90):
        with room() as path:
            it = Piped(path, program, "--plan", "quacq")
            count, sheet = sat(it, hands.ward, [slip])
            if sheet is None or sheet[0] != "Your answers clash":
                found.append(f"slip {slip}: {sheet}")
                continue
            letter = letter_of(sheet, slip)
            if not letter or "leaves no rule that refuses it" not in "\n".join(sheet):
                found.append(f"slip {slip} isn't among the suspects: {sheet}")
                continue
            it.say(letter)
            sure = it.sheet() or []
            it.say("y")
            more, sheet = sat(it, hands.ward)
            it.say("q")
            it.end()
            again = it.lines[it.lines.index(sure[0]) + len(sure)]
            if f"Go back to question {slip}?" not in sure[0] or not re.search(rf"question {slip}\b", again):
                found.append(f"slip {slip}: {sure[:2]}, then {again}")
            if it.ran.returncode != 0 or learned(program, path) != wanted:
                found.append(f"slip {slip}: after going back {it.ran.returncode} and other rules")
            if count + more > 248 + 20:
                found.append(f"slip {slip}: {more} more questions after {count}")
    return found


def clash_kept(program: str) -> list[str]:
    """A clash that is left by q is there again at the next sitting; b goes back by one."""
    with room() as path:
        it = Piped(path, program, "--plan", "quacq")
        count, _ = sat(it, hands.ward, [60])
        it.say("q")
        status = it.end()
        it = Piped(path, program)
        sheet = it.sheet() or [""]
        it.say("b")
        sure = it.sheet() or [""]
        it.say("y")
        again = it.sheet() or [""]
        it.say("q")
        it.end()
        if status != 4 or sheet[0] != "Your answers clash" or f"question {count}?" not in sure[0] or f"question {count}" not in again[0]:
            return [f"{status}, {sheet[:1]}, {sure[:1]}, {again[:1]}, after {count}"]
        return [] if hands.answers(program, path) == count - 1 else [f"{hands.answers(program, path)} answers"]


def minimal(program: str) -> list[str]:
    """Of refused plans that clash and hold one another the smallest is shown."""
    with room() as path:
        it = Piped(path, program, "--plan", "quacq")
        _, sheet = sat(it, hands.ward, [90])
        it.say("q")
        it.end()
        said = [line for line in sheet or [] if line.startswith("You said no to question")]
        return [] if len(said) == 1 else [f"{said}"]


def always(program: str) -> list[str]:
    """Rules said beforehand answer for the person, are told as such, and are never gone back to."""
    found = []
    with room("ward", ALWAYS) as path:
        it = Piped(path, program, "--plan", "scopes")
        first = it.sheet() or []
        if "question 2" not in first[0] or not any("Answered for you: " in line and "said beforehand" in line for line in first):
            found.append(f"the first question: {first}")
        it.say("b")
        if "no answer of yours" not in "\n".join(it.sheet() or []):
            found.append("b takes back what was said beforehand")
        it.say("y" if hands.ward(plain_values(first)) else "n")
        it.sheet()
        it.say("b")
        again = it.sheet() or []
        if plain_values(again) != plain_values(first):
            found.append(f"after b: {again} and not {first}")
        it.say("s")
        shown = [line for line in it.sheet() or [] if "(said beforehand: " in line]
        if not any("Mon early and Mon late differ)" in line for line in shown):
            found.append("s doesn't mark what was said beforehand")
        if any(re.match("[a-z]  ", line) for line in shown):
            found.append(f"a letter leads to what was said beforehand: {shown}")
        it.say("o")
        it.sheet()
        it.say("y" if hands.ward(plain_values(first)) else "n")
        count, end = sat(it, lambda q: hands.ward(q) and len(set(q.values())) == len(q))
        it.say("q")
        it.end()
        if it.ran.returncode != 0 or count > 90:
            found.append(f"{count} questions, {it.ran.returncode}, {(end or [''])[:2]}")
        if any(re.match(r"\s+[a-z]  .*said beforehand", line) for line in end or []):
            found.append("an answer that was said beforehand can be gone back to")
    return found


def why_is_capped(program: str) -> list[str]:
    """w shows eight rules at most, and that there are others."""
    with room() as path:
        it = Piped(path, program, "--plan", "quacq")
        it.sheet()
        it.say("w")
        lines = [line for line in it.sheet() or [] if line.startswith("- ")]
        it.end()
        return [] if len(lines) == 9 and lines[-1] == "- and others" and len(set(lines)) == 9 else [f"{lines}"]


def allowed_plan(program: str) -> list[str]:
    """A plan that is judged wrong leads to the answers behind it, or to what the words can't
    say."""
    found = []
    with room("two", TWO) as path:
        it = Piped(path, program, "--plan", "scopes")
        _, sheet = sat(it, lambda q: True)
        it.say("g")
        plan = it.sheet() or []
        it.say("n")
        it.sheet()
        it.say("o")             # which cells are wrong isn't said
        behind = it.sheet() or []
        letter = letter_of(behind, 1)
        if not letter or "The rules allow it." not in plan[0] or "Is this right?" not in plan:
            return [f"{plan}, then {behind}"]
        it.say("o")
        cant = it.sheet() or []
        it.say("q")
        it.end()
        if "can't say" not in cant[0] or it.ran.returncode != 0 or not any(line.startswith("- Plan 1") for line in it.lines):
            found.append(f"after o: {cant}, {it.ran.returncode}, {it.lines[-4:]}")
        it = Piped(path, program)
        it.sheet()
        for key in ("g", "n", "o", letter, "y"):
            it.say(key)
            sheet = it.sheet() or []
        if "question 1" not in sheet[0]:
            found.append(f"going back: {sheet}")
        it.say("n")
        sheet = it.sheet() or []
        it.say("q")
        it.end()
        if "- a and b differ (never seen yet)" not in sheet or learned(program, path) != ["different a b"]:
            found.append(f"after going back: {sheet}")
    return found


def refused_plan(program: str) -> list[str]:
    """A refused plan that is judged right leads to the no behind it; going back to that takes the
    rule away."""
    with room("two", TWO) as path:
        it = Piped(path, program, "--plan", "scopes")
        sat(it, lambda q: len(set(q.values())) == len(q))
        it.say("g")
        sheet = it.sheet() or []
        while "Is it right that it is refused?" not in sheet:
            it.say("y")
            sheet = it.sheet() or []
        marked = [line for line in sheet if line.endswith("(this breaks it)")]
        if "for one reason alone" not in sheet[0] or "a and b differ." not in sheet or len(marked) != 2:
            return [f"{sheet}"]
        it.say("n")
        behind = it.sheet() or []
        letter = letter_of(behind, 1)
        if not letter:
            return [f"{behind}"]
        it.say(letter)
        it.sheet()
        it.say("y")
        it.sheet()
        it.say("y")
        end = it.sheet() or []
        it.say("q")
        it.end()
        return [] if learned(program, path) == [] and "No rule is needed" in " ".join(end) else [f"{end}, {learned(program, path)}"]


def refused_twice(program: str) -> list[str]:
    """Behind a refused plan that is right stand all answers that refuse what its rule refuses,
    where no single one explains it."""
    with room("two", TWO.replace("different", "different, not both x")) as path:
        it = Piped(path, program, "--plan", "scopes")
        sat(it, lambda q: len(set(q.values())) == len(q))
        it.say("g")
        sheet = it.sheet() or []
        while "Is it right that it is refused?" not in sheet:
            it.say("y")
            sheet = it.sheet() or []
        it.say("n")
        behind = it.sheet() or [""]
        it.say("q")
        it.end()
        refused = sorted(line.split()[1] for line in behind if ". no: " in line)
        noes = sorted(line.split()[0].removeprefix("q") + "." for line in hands.acquire(program, path, "show") if line.endswith(" no"))
        right = behind[0].startswith("If it is as you say, one of these answers was a slip, or your words can't say it") and len(noes) == 2
        return [] if right and refused == noes else [f"{behind}, and the noes are {noes}"]


def refused_beforehand(program: str) -> list[str]:
    """A plan that is refused for a rule said beforehand: no answer is blamed, and it is said where
    the rule stands."""
    with room("two", TWO + "always: different on all\n") as path:
        it = Piped(path, program, "--plan", "scopes")
        sat(it, lambda q: True)
        it.say("g")
        sheet = it.sheet() or []
        while "The rules allow it." in sheet[0]:
            it.say("y")
            sheet = it.sheet() or []
        it.say("n")
        told = it.sheet() or []
        it.say("q")
        it.end()
        return [] if told[0] == "You said this rule beforehand" and "`always`" in told[1] and it.ran.returncode == 0 else [f"{sheet}, {told}"]


def odd_one(program: str) -> list[str]:
    """A slip in plan scopes ends in rules; the odd one out shows it, at any time, and going back to
    it mends them."""
    def all_days(q: hands.Named) -> bool:
        """The ward's rules without an exception."""
        return hands.ward(q) and not ("Sun early" in q and q.get("Sun early") == q.get("Sun late"))
    wanted = right(program, "scopes", all_days)
    with room() as path:
        it = Piped(path, program, "--plan", "scopes")
        sat(it, all_days, [4], 60)
        it.say("r")
        sheet = it.sheet() or []
        letter = letter_of(sheet, 4)
        if not letter or "Other than most of their pattern" not in "\n".join(sheet):
            it.end()
            return [f"{sheet}"]
        it.say(letter)
        it.sheet()
        it.say("y")
        count, _ = sat(it, all_days)
        it.say("q")
        it.end()
        if it.ran.returncode != 0 or learned(program, path) != wanted:
            return [f"{it.ran.returncode}, {sorted(set(learned(program, path)) ^ set(wanted))}"]
        return [] if count < 100 else [f"{count} questions after going back"]


def changed(program: str) -> list[str]:
    """A case that has changed under its session is refused, and nothing is mixed."""
    with room() as path:
        it = Piped(path, program, "--plan", "scopes")
        sat(it, hands.ward, most=5)
        it.end()
        with open(path, encoding="utf-8") as file:
            text = file.read()
        with open(path, "w", encoding="utf-8") as file:
            file.write(text.replace("never Ann", "never Ben"))
        ran = subprocess.run(hands.words(path, program), input="y\n", capture_output=True, text=True, check=False)
        if ran.returncode != 1 or "desk carry" not in ran.stderr or "question" in ran.stdout or hands.answers(program, path) != 5:
            return [f"{ran.returncode}, {ran.stderr}, {hands.answers(program, path)} answers"]
        return []


def contradicted(program: str) -> list[str]:
    """A line `always` that was added and says otherwise than an answer: it is shown with that
    answer before anything is asked, and `report` refuses; q leaves all as it was, and b goes
    back."""
    found = []
    with room("two", TWO) as path:
        it = Piped(path, program, "--plan", "scopes")
        it.sheet()
        it.say("y")
        it.end()
        with open(path, "a", encoding="utf-8") as file:
            file.write("always: different on all\n")
        told = hands.report(program, path, path + ".html").stderr
        if any(said not in told for said in ("a and b differ", "question 1 (a x, b x)", "desk ask", "take the line out")):
            found.append(f"report says {told!r}")
        it = Piped(path, program)
        sheet = it.sheet() or [""]
        it.say("q")
        status = it.end()
        if "your answer to question 1" not in sheet[0] or "a: x (this breaks it)" not in sheet or status != 6 or "take the line out" not in it.lines[-1]:
            found.append(f"{sheet}, {status}, {it.lines[-1]}")
        it = Piped(path, program)
        it.sheet()
        it.say("b")
        end = it.sheet() or []
        it.say("q")
        it.end()
        if hands.acquire(program, path, "show")[1:2] != ["q1 a=1 b=1 no"] or "- a and b differ" not in end:
            found.append(f"after b: {end}")
    return found


def undecided(program: str) -> list[str]:
    """A search that is too long: what was learned, what is open, status 5, and no question goes
    lost."""
    with room() as path:
        it = Piped(path, program, "--plan", "quacq", "--budget", "1")
        count, _ = sat(it, hands.ward)
        status = it.end()
        if status == 0 and count:
            return []       # this program's search needs no more
        return [] if status == 5 and any("Not settled" in line for line in it.lines) else [f"{status}, {it.lines[-5:]}, {it.errors}"]


# ---------------------------------------------------------------- back from anywhere

def from_rules(program: str) -> list[str]:
    """From a sentence among the rules so far to the answers about its things, and back to one; what
    was said later counts again."""
    with room() as path:
        it = Piped(path, program, "--plan", "scopes")
        sat(it, hands.ward, most=40)
        it.say("r")
        rules = it.sheet() or []
        said = [line for line in rules if "differ" in line and re.match("[a-z]  ", line)]
        it.say(said[-1][0])
        behind = it.sheet() or []
        numbers = [int(m[1]) for line in behind if (m := re.match(r"[a-z]  (\d+)\. ", line))]
        told = behind[:2] == ["The answers behind it", said[-1][3:]] and len(said) > 1
        if not told or not numbers or not any(". no: " in line for line in behind):
            it.end()
            return [f"{rules}, then {behind}"]
        it.say(letter_of(behind, numbers[0]))
        it.sheet()
        it.say("y")
        sheet = it.sheet() or [""]
        found = [] if re.search(rf"question {numbers[0]}\b", sheet[0]) else [f"back to {numbers[0]}: {sheet}"]
        it.say("y" if hands.ward(plain_values(sheet)) else "n")
        again = "\n".join(it.sheet() or [])
        it.end()
        if "said before you went back" not in again or hands.answers(program, path) != 40:
            found.append(f"later answers: {again}, {hands.answers(program, path)} answers")
        return found


def behind_sentences(program: str) -> list[str]:
    """Behind a sentence are the answers about whole groups that hold the things of one of its rules, and no others."""
    found = []
    with room() as path:
        hands.answered(path, program, hands.ward, "quacq", most=120)
        with session.Session.opened(casefile.read(path), talk.Program(program)) as one:
            scopes = [set(scope) for scope in one.vocabulary.scopes]
            for said in sentences.grouped(one.vocabulary, one.learned()):
                wanted = [place for place, answer in enumerate(one.answers) if set(answer.question.values) in scopes
                          and any(set(rule.things) <= set(answer.question.values) for rule in said.rules)]
                if not wanted or answers.behind(one, said.rules) != wanted:
                    found.append(f"{said.text}: {answers.behind(one, said.rules)} and not {wanted}")
    return found


def from_answers(program: str) -> list[str]:
    """The answers come newest first, with a letter each; m leads to earlier ones, and a letter back
    to any of them."""
    with room() as path:
        it = Piped(path, program, "--plan", "scopes")
        sat(it, hands.ward, most=40)
        it.say("s")
        seen, sheets = [], []
        for _ in range(3):
            sheets.append(it.sheet() or [])
            seen += [int(m[1]) for line in sheets[-1] if (m := re.match(r"[a-z]  (\d+)\. ", line))]
            it.say("m")
        it.sheet()
        for key in ("m", "m", letter_of(sheets[-1], 3), "y"):
            it.say(key)
            sheet = it.sheet() or [""]
        it.end()
        if seen != list(range(40, 0, -1)) or not re.search(r"question 3\b", sheet[0]):
            return [f"the answers {seen}, then {sheet[:1]}"]
        return []


def step_by_step(program: str) -> list[str]:
    """Going back by k steps is going back to the answer at which they end: the same question, and
    the same answers count again."""
    found = []
    given = 0
    for text, plan, most, steps in ((hands.WARD, "scopes", 30, 1), (hands.WARD, "scopes", 30, 4), (ALWAYS, "quacq", 30, 3),
                                    (ALWAYS, "scopes", 30, 5), (hands.WARD, "multi", 40, 4), (hands.WARD, "quacq", 12, 6)):
        ends = []
        for by_steps in (True, False):
            with room("ward", text) as path:
                hands.answered(path, program, hands.ward, plan, most=most)
                with session.Session.opened(casefile.read(path), talk.Program(program)) as one, one.sit() as sitting:
                    sitting.advance()
                    own = [place for place, answer in enumerate(one.answers) if answer.said is None]
                    if by_steps:
                        for _ in range(steps):
                            sitting.back()
                    else:
                        sitting.back_to(own[-steps])
                    waits = sitting.question
                    sitting.answer(hands.ward({one.case.things[thing].name: one.case.values[value] for thing, value in waits.values.items()}))
                    sitting.advance()
                    ends.append((waits, frozenset(one.foreseen.before), [(answer.question, answer.yes, answer.said) for answer in one.answers],
                                 sitting.question))
        given += sum(said is not None and said.by == "again" for _, _, said in ends[0][2])
        if ends[0] != ends[1]:
            found.append(f"{plan}, {steps} steps: {ends[0]} and not {ends[1]}")
    return found if given else [*found, "no answer counts again"]


# ---------------------------------------------------------------- rules that aren't so

SEATS = """title: Seats
things: Ada Bo Cy Dürr
values: table left right x seat 1 2 3 4
ask: all
words: different, same table, next to
"""


def seats(q: hands.Named) -> bool:
    """No seat twice; Cy and Dürr at two tables, which the words of the case can't say."""
    return len(set(q.values())) == len(q) and not ("Cy" in q and "Dürr" in q and q["Cy"].split()[0] == q["Dürr"].split()[0])


def never_seen(program: str) -> list[str]:
    """A rule that no accepted example keeps is marked, reviewed first, and leads to the word that
    is missing."""
    with room("seats", SEATS) as path:
        it = Piped(path, program, "--plan", "scopes")
        _, end = sat(it, seats)
        sheets = []
        for key in ("g", "n", "o"):
            it.say(key)
            sheets.append(it.sheet() or [])
        it.say("q")
        it.end()
        found = [] if end and "- Cy and Dürr are next to each other (never seen yet)" in end and "differ (never" not in "".join(end) else [f"{end}"]
        kept = sorted(line.split(":")[0] for line in sheets[0] if line.endswith("(this keeps it)"))
        if not sheets[0][0].startswith("No plan that you accepted") or kept != ["Cy", "Dürr"]:
            found.append(f"the first plan: {sheets[0]}")
        if "`words: different table`" not in "".join(sheets[1]) or "desk carry" not in "".join(sheets[1]):
            found.append(f"the word: {sheets[1]}")
        last = [line for line in it.lines if line.startswith("- Cy ")][-1:]
        if not last or not re.fullmatch(r"- Cy \w+ \d and Dürr \w+ \d \(allowed, and wrong\)", last[0]):
            found.append(f"at the end: {last}")
        return found


def pointed(program: str) -> list[str]:
    """Two cells that are pointed at lead to the answers about these alone, of which one alone was
    wrong; many are all reached."""
    with room() as path:
        it = Piped(path, program, "--plan", "quacq")
        owner = {"Mon early", "Tue early"}
        sat(it, lambda q: hands.ward(q) or owner <= set(q))
        for key in ("g",):
            it.say(key)
            sheet = it.sheet() or []
        while "Is this right?" not in sheet:
            it.say("y")
            sheet = it.sheet() or []
        it.say("n")
        plan = it.sheet() or []
        cells = {line[3:].split(":")[0]: line[0] for line in plan if re.match(r"[a-z]  ", line)}
        it.say("m")
        others = it.sheet() or []
        more = {line[3:].split(":")[0]: line[0] for line in others if re.match(r"[a-z]  ", line)}
        if len(cells) + len(more) != 21 or set(cells) & set(more):
            it.end()
            return [f"{len(cells)} and {len(more)} cells have a letter"]
        it.say("m")
        it.sheet()
        for name in ("Mon early", "Wed early"):
            it.say(cells[name])
            sheet = it.sheet() or []
        it.say("q")
        it.end()
        return [] if "`ask` doesn't put Mon early and Wed early together" in "".join(sheet) else [f"{sheet}"]


WITH_SOLVER = (allowed_plan, refused_plan, refused_twice, refused_beforehand, never_seen, pointed)
ROWS = (keys, always, minimal, allowed_plan, refused_plan, refused_twice, refused_beforehand, why_is_capped, clash, goes_on, clash_kept, odd_one, changed, contradicted, undecided,
        from_rules, behind_sentences, from_answers, step_by_step, never_seen, pointed)
