"""Each word of the catalogue beside its plain meaning, at all tuples, in what the program makes of it: a case with that word
alone is learned by `play`, and the clauses of `cnf` list the tuples that the program refuses. The meanings here are written
anew, from what the words say. Also lifted words, words beside others, sentences, and what words cost of the 64."""

from __future__ import annotations

import itertools
import json
import os
import tempfile
from collections.abc import Callable

from planners_desk.case.model import Fault
from planners_desk.program.talk import Program
from planners_desk.program.vocabulary import Vocabulary

from planners_desk.case import casefile
from planners_desk.case import catalogue
import hands
from planners_desk.hints import solver
from planners_desk.sitting.session import Session
from planners_desk.hints import sentences

LIST = ["p", "q", "r", "s", "t"]
GRID = [(day, hour) for day in ("Mon", "Tue", "Wed") for hour in ("1", "2")]
DAY = {"Mon": 0, "Tue": 1, "Wed": 2}
PLANTED = [
    ("case/catalogue.py", "(lambda *x: any(one not in v for one in x))", "(lambda *x: any(one in v for one in x))"),
    ("case/catalogue.py", "NUMBERS[m[2]] + 1", "NUMBERS[m[2]] + 2"),
    ("case/catalogue.py", "holds, said = (lambda *x: len({seen(one) for one in x}) > 1), m[3]", "holds, said = (lambda *x: len({seen(one) for one in x}) == len(x)), m[3]"),
    ("case/catalogue.py", '"before": (lambda x, y: x < y,', '"before": (lambda x, y: x <= y,'),
    ("case/catalogue.py", "return y == x + 1 and (not last or y % last != 0)", "return y == x + 1"),
    ("program/coding.py", "first = len(value_of) + 1", "first = len(value_of)"),
    ("program/vocabulary.py", "return lambda some: holds(*(value_of[some[place] - 1] for place in places))", "return lambda some: holds(*(value_of[some[-1 - place] - 1] for place in places))"),
    ("program/coding.py", "loose.append(thing)", "pass"),
]


def of_list(test: Callable[..., bool]) -> Callable[..., bool]:
    """A test of places in LIST."""
    return lambda *names: test(*(LIST.index(name) for name in names))


def of_grid(test: Callable[..., bool]) -> Callable[..., bool]:
    """A test of days and hours in GRID."""
    return lambda *names: test(*((DAY[name.split()[0]], int(name.split()[1])) for name in names))


ON_LIST: dict[str, tuple[int, Callable[..., bool]]] = {
    "never q": (1, lambda a: a != "q"),
    "only q or s": (1, lambda a: a == "q" or a == "s"),
    "r or earlier": (1, lambda a: a in "pqr"),
    "r or later": (1, lambda a: a in "rst"),
    "same": (2, lambda a, b: a == b),
    "different": (2, lambda a, b: not a == b),
    "before": (2, lambda a, b: a < b),
    "after": (2, lambda a, b: b < a),
    "not before": (2, lambda a, b: b <= a),
    "not after": (2, lambda a, b: a <= b),
    "next to": (2, of_list(lambda x, y: x - y in (1, -1))),
    "not next to": (2, of_list(lambda x, y: x - y not in (1, -1))),
    "right before": (2, of_list(lambda x, y: y - x == 1)),
    "right after": (2, of_list(lambda x, y: x - y == 1)),
    "at least 3 apart": (2, of_list(lambda x, y: x - y >= 3 or y - x >= 3)),
    "at most 1 apart": (2, of_list(lambda x, y: x - y in (-1, 0, 1))),
    "not both q": (2, lambda a, b: (a, b) != ("q", "q")),
    "one of them q": (2, lambda a, b: "q" in (a, b)),
    "both q or neither": (2, lambda a, b: (a, b).count("q") in (0, 2)),
    "q not with s": (2, lambda a, b: (a, b) not in (("q", "s"), ("s", "q"))),
    "no s after q": (2, lambda a, b: (a, b) != ("q", "s")),
    "if q then s": (2, lambda a, b: b == "s" if a == "q" else True),
    "all three different": (3, lambda a, b, c: a != b and b != c and a != c),
    "not all three the same": (3, lambda a, b, c: a != b or b != c),
    "at most one of three q": (3, lambda *names: names.count("q") in (0, 1)),
    "at most two of three q": (3, lambda *names: names.count("q") < 3),
    "at least one of three q": (3, lambda *names: "q" in names),
    "at least two of three q": (3, lambda *names: names.count("q") in (2, 3)),
    "at most one of them q": (2, lambda *names: names.count("q") < 2),
    "at most two of them q": (3, lambda *names: names.count("q") < 3),
    "at most three of them q": (4, lambda *names: names.count("q") < 4),
    "at least all but one of them q": (2, lambda *names: len(names) - names.count("q") <= 1),
    "all but two of them q": (3, lambda *names: len(names) - names.count("q") <= 2),
    "at least all but three of them q": (4, lambda *names: len(names) - names.count("q") <= 3),
    "at most two of them the same": (3, lambda *names: max(map(names.count, names)) <= 2),
    "at most three of them the same": (4, lambda *names: max(map(names.count, names)) <= 3),
    "three in order": (3, lambda a, b, c: a < b < c),
    "all four different": (4, lambda *names: sorted(set(names)) == sorted(names)),
    "not all four the same": (4, lambda *names: any(name != names[0] for name in names)),
    "at most one of four q": (4, lambda *names: names.count("q") <= 1),
    "at most three of four q": (4, lambda *names: names.count("q") <= 3),
    "at least three of four q": (4, lambda *names: names.count("q") >= 3),
    "four in order": (4, lambda a, b, c, d: a < b < c < d),
}
ON_GRID: dict[str, tuple[int, Callable[..., bool]]] = {
    "never Tue": (1, lambda a: "Tue" not in a),
    "never Tue 2": (1, lambda a: a != "Tue 2"),
    "only Mon or Wed 1": (1, lambda a: a in ("Mon 1", "Mon 2", "Wed 1")),
    "same day": (2, of_grid(lambda a, b: a[0] == b[0])),
    "different hour": (2, of_grid(lambda a, b: a[1] != b[1])),
    "earlier day": (2, of_grid(lambda a, b: a[0] < b[0])),
    "later hour": (2, of_grid(lambda a, b: a[1] > b[1])),
    "at least 2 days apart": (2, of_grid(lambda a, b: {a[0], b[0]} == {0, 2})),
    "at most 1 day apart": (2, of_grid(lambda a, b: {a[0], b[0]} != {0, 2})),
    "next to": (2, of_grid(lambda a, b: a[0] == b[0] and a[1] != b[1])),
    "right before": (2, of_grid(lambda a, b: a[0] == b[0] and (a[1], b[1]) == (1, 2))),
    "before": (2, of_grid(lambda a, b: a < b)),
    "not both Mon": (2, lambda a, b: not (a.startswith("Mon") and b.startswith("Mon"))),
    "Mon not with Tue 1": (2, lambda a, b: not (a.startswith("Mon") and b == "Tue 1" or b.startswith("Mon") and a == "Tue 1")),
    "all three different day": (3, of_grid(lambda a, b, c: len({a[0], b[0], c[0]}) == 3)),
    "not all three the same hour": (3, of_grid(lambda a, b, c: not a[1] == b[1] == c[1])),
    "at most two of them Wed": (3, lambda *names: sum(name.startswith("Wed") for name in names) <= 2),
    "at most two of them the same day": (3, of_grid(lambda a, b, c: len({a[0], b[0], c[0]}) > 1)),
    "at most one of three Wed": (3, lambda *names: sum(name.startswith("Wed") for name in names) <= 1),
}


def refused(program: str, words: Vocabulary, table: dict[tuple[int, ...], int]) -> set[tuple[str, ...]]:
    """The tuples by names that the program refuses on the one scope of a case, after it has learned what a table accepts."""
    scope = words.scopes[0]
    item = words.item(scope, table[scope])
    with tempfile.TemporaryDirectory() as folder:
        journal = os.path.join(folder, "word.journal")
        it = Program(program)
        it.call([journal, "new", "--plan", "scopes"], words.json.encode())
        it.call([journal, "play"], json.dumps([item]).encode())
        lines = it.call([journal, "cnf"]).lines
    named = {int(line.split()[2]): line.split()[1] for line in lines if line.startswith("c ")}
    found = set()
    for line in lines:
        numbers = [-int(word) for word in line.split()[:-1]] if line.startswith("-") else []
        values = words.values_of([named[number] for number in numbers])
        if len(values) == len(numbers) == len(scope):
            found.add(tuple(words.case.values[values[thing]] for thing in scope))
    return found


def one(program: str, text: str, arity: int, meaning: Callable[..., bool], values: list[str], line: str) -> list[str]:
    """A word in a case of its own."""
    things = [f"x{k}" for k in range(arity)]
    words = Vocabulary(casefile.parse(f"things: {' '.join(things)}\nvalues: {line}\nask: {' - '.join(things)}\nwords: {text}\n", text))
    scope = words.scopes[0]
    table = words.closings[arity].relations[0].table & words.inside(scope)
    wanted = {some for some in itertools.product(values, repeat=arity) if not meaning(*some)}
    found = refused(program, words, {scope: table})
    faults = [] if found == wanted else [f"`{text}`: refused {sorted(found ^ wanted)[:4]} as in no plain reading of it"]
    word = words.case.words[0]
    if meaning(*(words.case.values[value] for value in word.example)):
        faults.append(f"`{text}`: the example {word.example} doesn't break it")
    sentence = word.said_of(tuple(things))
    if not all(thing in sentence for thing in things) or "{" in sentence:
        faults.append(f"`{text}`: the sentence is {sentence}")
    return faults


def named_things(program: str) -> list[str]:
    """Words that name their things: each refuses its one choice, and the program is asked about it on no other group."""
    text = ("thing frame: steel alu carbon\nthing motor: none hub mid\nthing rack: none light heavy\n"
            "words: frame=carbon not with rack=heavy, if motor=mid then rack=none, frame=alu not with motor=none, rack=light not with motor=hub\n")
    words = Vocabulary(casefile.parse(text, "named"))
    faults = []
    if sorted(len(list(words.rules_on(scope))) for scope in words.scopes) != [1, 1, 2]:
        faults.append("named things: a word is asked of a group that it doesn't name")
    meaning = {
        ("frame", "motor"): lambda f, m: (f, m) != ("alu", "none"),
        ("frame", "rack"): lambda f, r: (f, r) != ("carbon", "heavy"),
        ("motor", "rack"): lambda m, r: (m, r) != ("hub", "light") and (m != "mid" or r == "none"),
    }
    for scope in words.scopes:
        things = [words.case.things[thing] for thing in scope]
        test = meaning[things[0].name, things[1].name]
        for values in itertools.product(*(thing.allowed for thing in things)):
            place = words.place(scope, dict(zip(scope, values, strict=True)))
            if bool(words.strictest(scope) >> place & 1) != test(*(words.case.values[value] for value in values)):
                faults.append(f"named things: {[words.case.values[value] for value in values]} on {scope}")
    return faults


def lifted(program: str) -> list[str]:
    """Words about fewer things than a group has mean the same there, and the program never says `nested`."""
    text = "things: a b c\nvalues: p q r\nask: a - b - c, a - b, each\nwords: never p, before, all three different\n"
    words = Vocabulary(casefile.parse(text, "lifted"))
    faults = [] if words.scopes == ((0, 1, 2),) else [f"lifted: the scopes are {words.scopes}"]
    reply = Program(program).call([":memory:", "new"], words.json.encode())
    if reply.status:
        faults.append(f"lifted: {reply.text}")
    said = {(rule.word.text, rule.things) for rule, _ in words.rules_on((0, 1, 2))}
    if said != {("never p", (0,)), ("never p", (1,)), ("never p", (2,)), ("before", (0, 1)), ("all three different", (0, 1, 2))}:
        faults.append(f"lifted: {said}")
    for rule, table in words.rules_on((0, 1, 2)):
        for values in itertools.product(range(3), repeat=3):
            plan = dict(enumerate(values))
            if bool(table >> words.place((0, 1, 2), plan) & 1) == rule.violated(plan):
                faults.append(f"lifted: {rule.text} at {values}")
    return faults


def counted_over_all(program: str) -> list[str]:
    """A count of K on all groups of K + 1 is that count of all things, in the plans and in the sentence about all of them."""
    faults = []
    for text, ask, wanted, said in (
            ("at most one of them q", "all", lambda plan: plan.count("q") <= 1, "at most one of a, b, c, d and e are q"),
            ("at most two of them q", "all triples", lambda plan: plan.count("q") <= 2, "at most two of a, b, c, d and e are q"),
            ("at most three of them q", "all fours", lambda plan: plan.count("q") <= 3, "at most three of a, b, c, d and e are q"),
            ("at least all but two of them q", "all triples", lambda plan: plan.count("q") >= 3, "at least all but two of a, b, c, d and e are q"),
            ("at most two of them the same", "all triples", lambda plan: max(map(plan.count, plan)) <= 2, "at most two of a, b, c, d and e are the same")):
        words = Vocabulary(casefile.parse(f"things: a b c d e\nvalues: p q\nask: {ask}\nwords: {text}\n", text))
        rules = [rule for scope in words.scopes for rule, _ in words.rules_on(scope)]
        for plan in itertools.product("pq", repeat=5):
            values = {thing: words.case.values.index(name) for thing, name in enumerate(plan)}
            if any(rule.violated(values) for rule in rules) == wanted(plan):
                faults.append(f"`{text}` on {ask}: {plan}")
        constraints = [words.constraint(" ".join(words.item(scope, words.strictest(scope)))) for scope in words.scopes]
        told = [sentence.text for sentence in sentences.grouped(words, constraints)]
        if told != [said]:
            faults.append(f"`{text}` on {ask} is said as {told}")
    return faults


def loose(program: str) -> list[str]:
    """Where what each thing may take can't be made one range of numbers, a value in a thing's range that it mustn't take is never
    put to a person, and no plan has it."""
    text = ("things: t1 t2 t3 t4 t5 t6\nvalues: 1 .. 20\nonly t1: 1 2\nonly t2: 2 3\nonly t3: 1 3\nask: t1 - t3, t2 - t3, t3 - t4\nwords: different\n")
    with hands.room("loose", text) as path, Session.opened(casefile.read(path), Program(program), "scopes") as session, session.sit() as sitting:
        case, outside, faults = casefile.read(path), [], []
        if len(session.vocabulary.coding.loose) != 1:
            faults.append(f"loose: the ranges are {session.vocabulary.coding.ranges}")
        sitting.advance()
        while sitting.question is not None:
            outside += [values for values in [sitting.question.values] if any(value not in case.things[thing].allowed for thing, value in values.items())]
            sitting.answer(len(set(sitting.question.values.values())) == len(sitting.question.values))
            sitting.advance()
        plans = solver.plans(session.program, session.vocabulary, session.journal, 3)
        outside += [plan for plan in plans if any(value not in case.things[thing].allowed for thing, value in plan.items())]
        if solver.name() is None:
            hands.passed_over("meanings", "no plan is drawn that might have a value that isn't allowed")
        elif not plans:
            faults.append("loose: there are no plans")
        if outside:
            faults.append(f"loose: a thing has a value that `only` forbids: {outside[:2]}, in {len(plans)} plans")
    return faults


def too_many() -> list[str]:
    """Too many words: desk says which to drop, and without that one the program takes the others."""
    head = "things: a b\nvalues: p q r s t\nask: all\n"
    try:
        Vocabulary(casefile.parse(head + "words: different, never p, never q, never r\n", "many"))
        return ["too many words are taken"]
    except Fault as fault:
        said = str(fault)
    if "127" not in said or "without `never r` they are 31" not in said:
        return [f"too many words: {said}"]
    words = Vocabulary(casefile.parse(head + "words: different, never p, never q\n", "many"))
    return [] if len(words.closings[2].tables) == 31 else ["too many words: the count isn't 31"]


def listed() -> list[str]:
    """Each line of the catalogue is tried here."""
    tried = {*ON_LIST, *ON_GRID}
    def like(form: str) -> bool:
        pattern = [word for word in form.split() if word.islower() and "=" not in word]
        return any(all(word in text.split() for word in pattern) for text in tried) or "=" in form
    return [f"`{entry.form}` is tried nowhere" for entry in catalogue.ENTRIES if not like(entry.form)]


def run(program: str) -> list[str]:
    """Faults of all words."""
    faults = listed() + named_things(program) + lifted(program) + loose(program) + counted_over_all(program) + too_many()
    for text, (arity, meaning) in ON_LIST.items():
        faults += one(program, text, arity, meaning, LIST, "p q r s t")
    for text, (arity, meaning) in ON_GRID.items():
        faults += one(program, text, arity, meaning, [f"{day} {hour}" for day, hour in GRID], "day Mon Tue Wed x hour 1 2")
    print(f"meanings: {len(ON_LIST) + len(ON_GRID)} words at all tuples, lifted ones, words that name things")
    return faults
