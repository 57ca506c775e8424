"""Rules as sentences, and the odd ones out.

Random sets of constraints of four cases are said in sentences, and the sentences are read back by a
small reader of their own that knows English and the case's names: what they say has to be exactly
what the constraints say. Then rows worked by hand.
"""

from __future__ import annotations

import itertools
import random
import re

import hands        # desk's folder is on the path now
from planners_desk.case import casefile
from planners_desk.case import model
from planners_desk.hints import patterns
from planners_desk.hints import sentences
from planners_desk.sitting import session
from planners_desk.program import talk
from planners_desk.program import vocabulary

DRAWN = 540
FEW = 60            # where a bug is planted
HALL = """title: Hall
things: day Mon Tue Wed Thu x hour 9 10 x room A B
values: chess choir yoga none
ask: same day, next hour
words: different, not both none, never yoga
"""
TRIOS = """title: Trios
things: day Mon Tue Wed x shift early late night
values: Ann Ben Cas Dee
ask: same day triples
words: all three different, different
"""
NIGHTS = """title: Nights
things: day Mon Tue Wed Thu Fri x shift early late night
values: 1 .. 4
ask: next day, same day
words: before, right before, not next to
"""
STORE = """title: Store
things: nitric sulfuric bleach lye ammonia ether ethanol
values: 1 .. 5
ask: all
words: different, before, at least 2 apart, not both 5, no 4 after 2
"""
PEOPLE = """title: People
things: Ada Bo Cy Dee Eve
values: Mon Tue Wed
ask: all triples
words: not all three the same, at most two of three Mon, three in order, different
"""
CASES = (hands.WARD, hands.SCHOOL, hands.BICYCLE, hands.TEAM, HALL, TRIOS, NIGHTS, STORE, PEOPLE)

PLANTED = [
    # an exception isn't named
    ("hints/sentences.py", "for member in one.might", "for member in one.might[1:]"),
    # a yes that has nothing to do with it is said to be behind an odd one
    ("hints/patterns.py", "        if answer.yes and breaks:", "        if answer.yes:"),
    # patterns are said together that hold at other places
    ("hints/sentences.py", "best.every, holds]", "best.every]"),
    # a block says more than what holds
    ("hints/blocks.py", "holds[one] & some == some", "True"),
    # a block excepts what nobody asks about
    ("hints/blocks.py", " if not _unasked(*side, holds, may)", ""),
    # an exception isn't named
    ("hints/blocks.py", "out = {_pair(one, other, even) for one, other in every if not holds[one] >> other & 1}", "out = set()"),
    # what a sentence excepts isn't odd
    ("hints/patterns.py", "        for things in said.out if", "        for things in () if"),
    # what stands alone isn't odd
    ("hints/patterns.py", "if 4 * len(alone) > sum(", "if 4 * len(alone) <= sum("),
    # what is like others that aren't finished yet is odd
    ("hints/patterns.py", "if not any(beside[thing] & set(pair) for thing in like):", "if True:"),
    # each three are said to be each two
    ("hints/sentences.py", 'COUNTED = {2: "two", 3: "three", 4: "four"}', 'COUNTED = {2: "two", 3: "two", 4: "four"}'),
    # a pattern has no place at the last member
    ("hints/along.py", "if all(0 <= member + step < size for", "if all(0 <= member + step < size - 1 for"),
]


def run(program: str) -> list[str]:
    """The faults that were found."""
    return looked(program, DRAWN)


def quick(program: str) -> list[str]:
    """The same of fewer networks."""
    return looked(program, FEW)


def looked(program: str, drawn: int) -> list[str]:
    """The faults of so many drawn networks, and of the rows."""
    faults: list[str] = []
    draw = random.Random(5)
    count = 0
    for turn in range(drawn):
        words = vocabulary.build(casefile.parse(CASES[turn % len(CASES)], "drawn.case"))
        constraints = drawn_constraints(draw, words)
        needed = [one for one in constraints if draw.random() < 0.7]
        said = sentences.grouped(words, constraints, needed)
        count += len(said)
        faults += [f"sentences: case {turn}: {fault}" for fault in wrong(words, constraints, needed, said)]
    for row in (worked, odd_ones, odd_in_list):
        faults += [f"sentences: {row.__name__}: {fault}" for fault in row(program)]
    print(f"sentences: {count} sentences of {drawn} drawn networks, read back")
    return faults[:20]


def drawn_constraints(draw: random.Random, words: vocabulary.Vocabulary) -> list[model.Constraint]:
    """A constraint on some of the scopes; mostly one and the same, so that there are patterns with
    exceptions. Often they stand between the first three things and the others alone, and often two
    groups of one kind alone have something else."""
    share, usual, blocks = draw.choice((0.2, 0.8, 0.95, 1.0)), draw.random(), draw.random() < 0.4
    off: set[tuple[int, ...]] = set()
    if draw.random() < 0.4:
        share, usual, blocks = 1.0, 1.0, False
        off = {draw.choice(words.scopes), draw.choice(words.scopes)}
    found = []
    for scope in words.scopes:
        names = [relation.name for relation in words.closings[len(scope)].relations]
        if draw.random() >= share or blocks and sum(thing < 3 for thing in scope) != 1 or scope in off and draw.random() < 0.5:
            continue
        two = scope in off or usual >= 0.3 and draw.random() > max(0.8, usual)
        some = draw.sample(names, min(2, len(names))) if two else names[:1]
        found.append(words.constraint("&".join(some) + " " + " ".join(words.names[thing] for thing in scope)))
    return found


def wrong(words: vocabulary.Vocabulary, constraints: list[model.Constraint], needed: list[model.Constraint],
          said: list[sentences.Sentence]) -> list[str]:
    """What is wrong with sentences: their rules aren't those of the constraints, or their text
    doesn't say their rules, or excepts what holds."""
    found = []
    claimed = {(rule.word.text, rule.things) for one in constraints for rule in words.claims(one)}
    told = [(rule.word.text, rule.things) for one in said for rule in one.rules]
    sayable = {rule.text for scope in words.scopes for rule, _ in words.rules_on(scope)}
    if len(told) != len(set(told)) or set(told) != claimed:
        found.append(f"the rules are {sorted(set(told) ^ claimed)} off")
    for one in said:
        read, denied = read_back(words.case, one.text)
        meant = {rule.text for rule in one.rules}
        wrongly = {text for text in denied if holds(words, constraints, text)}
        if wrongly or denied - sayable:
            found.append(f"{one.text!r} denies {sorted(wrongly)[:4]}, which hold, or {sorted(denied - sayable)[:4]}, which nobody asks about")
        extra = {text for text in read - meant if not holds(words, constraints, text)}
        if not meant <= read or extra:
            found.append(f"{one.text!r} says {sorted(read)[:4]} and not {sorted(meant)[:4]}")
    kept = {one.line for one in needed}
    for one in said:
        follow = [not any(c.line in kept for c in constraints if (rule.word.text, rule.things) in {(r.word.text, r.things) for r in words.claims(c)})
                  for rule in one.rules]
        if one.follows != ("all" if all(follow) else "some" if any(follow) else "none"):
            found.append(f"{one.text!r}: {one.follows} of {follow} follow")
    return found


def holds(words: vocabulary.Vocabulary, constraints: list[model.Constraint], text: str) -> bool:
    """Whether some constraint has a rule of this text hold, by trial of all its tuples."""
    for one in constraints:
        for rule, _ in words.rules_on(one.scope):
            if rule.text == text:
                every = [words.case.things[thing].allowed for thing in one.scope]
                plans = [dict(zip(one.scope, some)) for some in itertools.product(*every)]
                if not any(words.accepts(one, plan) and rule.violated(plan) for plan in plans):
                    return True
    return False


# ---------------------------------------------------------------- a reader of sentences

Read = tuple[set[str], set[str]]       # the single sentences that are said, and those that are excepted


def read_back(case: model.Case, text: str) -> Read:
    """The single sentences that one sentence stands for, and those that it denies."""
    text, _, but = text.partition(", but not ")
    if m := re.match(r"(every (\w+)|(?:on|at|in|for) ([^:]+)): (.*)", text):
        return read_along(case, m, but)
    def names_all(one: str, some: str) -> bool:
        """Whether a sentence is about all things of `a and b`."""
        return all(re.search(rf"(?<!\w){re.escape(name)}(?!\w)", one) for name in some.split(" and "))
    every = between(case, text) or each_of_all(text, [thing.name for thing in case.things])
    out = {one for one in every if but and any(names_all(one, some) for some in but.split(", "))}
    return every - out, out


def names_of(text: str) -> list[str]:
    """`a, b and c` as its names."""
    head, _, last = text.rpartition(" and ")
    return ([*head.split(", "), last] if head else [last])


def each_of_all(text: str, known: list[str]) -> set[str]:
    """`each two of a, b and c differ` as its pairs, `each three of a, b, c and d ..` as its threes,
    where these are known names."""
    who = "|".join(map(re.escape, sorted(known, key=len, reverse=True)))
    step = r"(?: (?:on|at|in|of) the (?:next \w+|\w+ before))?"
    m = re.match(rf"each (two|three|four) of (?:all \d+|(.*) and ((?:{who}){step})) (.*)", text)
    if not m:
        return {text}
    names = [*m[2].split(", "), m[3]] if m[2] else known
    size = {"two": 2, "three": 3, "four": 4}[m[1]]
    return {f"{', '.join(some[:-1])} and {some[-1]} {m[4]}" for some in itertools.combinations(names, size)}


BETWEEN = (
    ("differs from", "differ"), ("is the same as", "are the same"), ("is next to", "are next to each other"),
    ("isn't next to", "aren't next to each other"), (r"is (at \w+ \d+ (?:\w+ )?apart) from", r"are \1"), (r"has the same (\w+) as", r"have the same \1"),
    (r"has another (\w+) than", r"have a different \1"),
)


def between(case: model.Case, text: str) -> set[str]:
    """`each of a and b differs from each of c and d` as its pairs; nothing where it isn't of this
    form."""
    who = "|".join(re.escape(thing.name) for thing in case.things)
    side = rf"((?:{who})|each of (?:(?:{who}), )*(?:{who}) and (?:{who}))"
    m = re.fullmatch(rf"{side} with {side}: (.*)", text) or re.fullmatch(rf"{side} (.*?) {side}", text)
    if not m:
        return set()
    with_colon = re.fullmatch(rf"{side} with {side}: .*", text) is not None
    firsts, said, seconds = (m[1], m[3], m[2]) if with_colon else (m[1], m[2], m[3])
    pairs = list(itertools.product(names_of(firsts.removeprefix("each of ")), names_of(seconds.removeprefix("each of "))))
    order = [thing.name for thing in case.things]
    rising = [tuple(sorted(pair, key=order.index)) for pair in pairs]
    if with_colon:
        word = next(word for word in case.words if word.shown == said)
        return {word.said_of(pair) for pair in (pairs if pairs[0] != rising[0] and not word.sentence.startswith("{0} and") else rising)}
    for form, plain in BETWEEN:
        if re.fullmatch(form, said):
            return {f"{one} and {other} {re.sub(form, plain, said)}" for one, other in rising}
    return {f"{one} {said} {other}" for one, other in pairs}


def read_along(case: model.Case, m: re.Match[str], but: str) -> Read:
    """`every day: early and late differ` as a sentence for each day."""
    part = next((k for k, one in enumerate(case.thing_parts) if one.name == m[2] or m[3] and names_of(m[3])[0] in one.members), 0)
    members = case.thing_parts[part].members
    out = names_of(but.split(" ", 1)[1]) if but else []
    others = [" ".join(some) for some in itertools.product(*(one.members for k, one in enumerate(case.thing_parts) if k != part))]
    found: Read = (set(), set())
    for member in members if m[2] else names_of(m[3]):
        for text in m[4].split("; "):
            for single in each_of_all(text, others):
                placed = at_member(case, part, members.index(member), single, others)
                if placed:
                    found[member in out].add(placed)
    return found


def at_member(case: model.Case, part: int, at: int, text: str, others: list[str]) -> str:
    """A sentence about `night` and `early on the next day` as one about a day's night and the next
    day's early."""
    name = case.thing_parts[part].name
    fits = True
    def place(m: re.Match[str]) -> str:
        nonlocal fits
        step = 1 if m[2] and "next" in m[2] else -1 if m[2] else 0
        if not 0 <= at + step < len(case.thing_parts[part].members):
            fits = False
            return ""
        words = m[1].split()
        words.insert(part, case.thing_parts[part].members[at + step])
        return " ".join(words)
    who = "|".join(map(re.escape, others))
    said = re.sub(rf"(?<!\w)({who})( (?:on|at|in|of) the (?:next {name}|{name} before))?(?!\w)", place, text)
    return said if fits else ""


# ---------------------------------------------------------------- worked rows

def learned(words: vocabulary.Vocabulary, relation: str, leave: tuple[tuple[str, str], ...] = ()) -> list[model.Constraint]:
    """One relation on all scopes but some."""
    out = [tuple(sorted(words.names.index(name) for name in pair)) for pair in leave]
    return [words.constraint(f"{relation} " + " ".join(words.names[thing] for thing in scope)) for scope in words.scopes if scope not in out]


def worked(program: str) -> list[str]:
    """Sentences worked by hand."""
    found = []
    nights = "every day: night and early on the next day differ; night and late on the next day differ"
    lessons = "each two of Mathe, Englisch, Physik, Kunst, Sport and Geschichte differ"
    rows: tuple[tuple[str, str, tuple[tuple[str, str], ...], list[str]], ...] = (
        (hands.WARD, "different", (), ["every day: each two of early, late and night differ", nights]),
        (hands.WARD, "different", (("Sun_early", "Sun_late"),),
         ["every day: early and night differ; late and night differ", "every day: early and late differ, but not on Sun", nights]),
        (hands.SCHOOL, "different", (), [lessons]),
        (hands.SCHOOL, "different", (("Mathe", "Kunst"),), [lessons + ", but not Mathe and Kunst"]),
        (hands.WARD.replace("same day,", "Mon early - Mon late, Tue early - Tue late,"), "different", (),
         [nights, "on Mon and Tue: early and late differ"]),
    )
    for text, relation, leave, wanted in rows:
        words = vocabulary.build(casefile.parse(text, "worked.case"))
        got = [one.whole for one in sentences.grouped(words, learned(words, relation, leave))]
        if sorted(got) != sorted(wanted):
            found.append(f"{got} and not {wanted}")
    found += side_by_side()
    words = vocabulary.build(casefile.parse(hands.SCHOOL, "worked.case"))
    constraints = learned(words, "different")
    got = [one.follows for needed in (constraints[1:], []) for one in sentences.grouped(words, constraints, needed)]
    if got != ["some", "all"]:
        found.append(f"what follows: {got}")
    return found


def side_by_side() -> list[str]:
    """Rules of several words, each a line of names and a relation of the case, as sentences."""
    def pairs(relation: str, ones: str, others: str) -> list[str]:
        """A line for each of some things with each of others."""
        return [f"{relation} {one} {other}" for one in ones.split() for other in others.split()]
    one_before = [f"before {day}_early {after}_early" for day, after in itertools.pairwise(("Mon", "Tue", "Wed", "Thu", "Fri"))]
    late = [line.replace("early", "late") for line in one_before]
    rows: tuple[tuple[str, list[str], list[str]], ...] = (
        # what is said of both patterns holds at other places: of late on all days, since `right before` says more
        (NIGHTS, one_before[1:] + late[1:] + ["right_before&before Mon_late Tue_late"],
         ["every day: early is before early on the next day, but not on Mon", "every day: late is before late on the next day",
          "Mon late is right before Tue late"]),
        (STORE, pairs("different", "nitric sulfuric", "bleach lye ammonia"), ["each of nitric and sulfuric differs from each of bleach, lye and ammonia"]),
        (STORE, pairs("before", "nitric", "bleach lye ammonia"), ["nitric is before each of bleach, lye and ammonia"]),
        (STORE, pairs("at_least_2_apart&different", "nitric sulfuric", "ether ethanol"),
         ["each of nitric and sulfuric is at least 2 apart from each of ether and ethanol"]),
        (STORE, pairs("not_both_5", "nitric sulfuric", "ether ethanol"), ["each of nitric and sulfuric with each of ether and ethanol: aren't both 5"]),
        # in this order nothing is asked of lye and bleach
        (STORE, pairs("before", "nitric lye", "ammonia ether ethanol") + ["before nitric bleach"],
         ["each of nitric and lye is before each of ammonia, ether and ethanol", "nitric is before bleach"]),
        # a pair that is left out of a block is excepted by name; one that stands alone is a sentence of its own
        (STORE, pairs("different", "nitric sulfuric", "bleach lye ammonia")[1:] + ["different ether ethanol"],
         ["each of nitric and sulfuric differs from each of bleach, lye and ammonia, but not nitric and bleach", "ether and ethanol differ"]),
        (PEOPLE, [f"not_all_three_the_same {' '.join(some)}" for some in itertools.combinations(("Ada", "Bo", "Cy", "Dee", "Eve"), 3)],
         ["each three of Ada, Bo, Cy, Dee and Eve aren't all the same"]),
    )
    found = []
    for text, lines, wanted in rows:
        words = vocabulary.build(casefile.parse(text, "worked.case"))
        got = [one.whole for one in sentences.grouped(words, [words.constraint(line) for line in lines])]
        if sorted(got) != sorted(wanted):
            found.append(f"{got} and not {wanted}")
    return found


def odd_ones(program: str) -> list[str]:
    """A slip in a ward's session is the odd one out with its own answer behind it; without one
    there are none."""
    found = []
    def all_days(q: hands.Named) -> bool:
        """The ward's rules without their exception."""
        return hands.ward(q) and not ("Sun early" in q and q.get("Sun early") == q.get("Sun late"))
    for slip in (None, 1, 9, 30, 61):
        with hands.room() as path:
            hands.answered(path, program, all_days, slip=slip)
            with session.Session.opened(casefile.read(path), talk.Program(program)) as one:
                odd = patterns.odd(one.vocabulary, one.learned(), one.answers, one.possible.open)
                if slip is None and odd:
                    found.append(f"without a slip: {odd}")
                if slip is not None and not any(slip - 1 in it.behind for it in odd):
                    found.append(f"slip {slip} isn't behind one of {[(it.text([t.name for t in one.case.things]), it.behind) for it in odd]}")
                for it in odd:
                    if len(it.behind) > 4 or any(not set(it.scope) <= set(one.answers[place].question.values) for place in it.behind):
                        found.append(f"slip {slip}: {it.behind} are said to be behind {it.scope}")
    return found


def odd_in_list(program: str) -> list[str]:
    """Where things are a list, wrong answers about a pair show as what a sentence excepts or as a
    rule that stands alone, with the wrong answer behind it; without one there are none."""
    acids, others = ("nitric", "sulfuric"), ("bleach", "lye", "ammonia")
    def owner(wrong: tuple[str, ...]) -> hands.Owner:
        """Acids on other shelves than others; of the pairs in `wrong` the opposite is said."""
        def answers(q: hands.Named) -> bool:
            one, other = q
            apart = (one in acids and other in others) != (f"{one} {other}" in wrong)
            return q[one] != q[other] or not apart
        return answers
    found = []
    text = STORE.replace("different, before, at least 2 apart, not both 5, no 4 after 2", "different")
    for wrong, wanted in (((), []), (("nitric lye",), ["nitric, lye: no rule. As 5 others of its pattern it would be: nitric and lye differ."]),
                          (("ether ethanol",), ["ether, ethanol: ether and ethanol differ. It stands alone, and the other rules of this kind are "
                                                "between sets of things."])):
        with hands.room("store", text) as path:
            hands.answered(path, program, owner(wrong))
            with session.Session.opened(casefile.read(path), talk.Program(program)) as one:
                odd = patterns.odd(one.vocabulary, one.learned(), one.answers, one.possible.open)
                names = [thing.name for thing in one.case.things]
                got = [it.text(names) for it in odd]
                about = [" ".join(names[thing] for thing in one.answers[place].question.values) for it in odd for place in it.behind]
        if got != wanted or about != list(wrong):
            found.append(f"{wrong}: {got}, and the answers about {about}")
    with hands.room("store", text) as path:
        hands.answered(path, program, lambda q: len(set(q.values())) == len(q), most=13)    # all differ, as far as they were asked
        with session.Session.opened(casefile.read(path), talk.Program(program)) as one:
            if odd := patterns.odd(one.vocabulary, one.learned(), one.answers, one.possible.open):
                found.append(f"half on the way: {[(it.scope, it.of) for it in odd]}")
    return found
