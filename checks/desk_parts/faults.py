"""Cases with a fault: each is told with file, line and the nearest right form. And cases that are right in all their parts."""

from __future__ import annotations

import os
import tempfile

from planners_desk.case import casefile
from planners_desk.case import names
from planners_desk.case.model import Fault
from planners_desk.program.vocabulary import Vocabulary

WARD = "things: day Mon .. Sun x shift early late night\nvalues: Ann Ben Cas Dee Eve\n"
ASK = "ask: same day\nwords: different\n"
LIST = "things: maths english sport\nvalues: 1 .. 5\n"
KNOWN = ", or write `known` in place of `always`: sample plans keep it then, and it isn't asked about"
FORMS = ("`known: at most 2 of them V`, `at least`, `exactly`, `known: at most 2 alike`, each with `on same day`, `on all` or things behind it, "
         "or a word as in `always`. What can't be looked for goes into a line `note`")
REST = "ask: all\nwords: same\n"
PLANTED = [
    ("case/synonyms.py", '(rf"(?:not|never|no) {THE_SAME} (.+)", r"different \\1"),', '(rf"(?:not|never|no) {THE_SAME} (.+)", r"same \\1"),'),
    ("case/synonyms.py", "    if things.index(first) < things.index(last):\n        return word, first, last\n", "    return word, first, last\n"),
    ("case/catalogue.py", "    if meant:\n        return synonyms.hint(meant)\n", ""),
    ("case/groups.py", "    if meant_form:\n        return synonyms.hint(meant_form)\n", ""),
    ("case/casefile.py", "        self._missing()\n", ""),
    ("case/casefile.py", "sorted(self.faults, key=lambda fault: fault.line or len(self.text))", "self.faults"),
    ("case/casefile.py", "for piece in self._pieces(key):\n", "for piece in self._pieces(key)[:1]:\n"),
    ("case/names.py", "return None if ranged and _of_a_kind(first, others[0]) else Heading", "return None if ranged else Heading"),
    ("case/names.py", "return None if ranged and _of_a_kind(first, others[0]) else Heading", "return Heading"),
    ("case/casefile.py", "self.line_number = number\n", "self.line_number = number - 1\n"),
    ("case/names.py", 'return f"; the nearest is `{found[0]}`" if found else ""', 'return ""'),
    ("case/casefile.py", "allowed.update(range(low, high))", "allowed.update(range(low, high - 1))"),
    ("case/casefile.py",
     "self._once(\n"
     "            (member for part in parts for member in part.members),\n"
     '            "`{}` stands in two sides of the grid",\n'
     "        )",
     "pass"),
    ("case/names.py", "if len(numbers) > MOST_FILLED:", "if len(numbers) > 2 * MOST_FILLED:"),
]

# a text, and what is said of it behind the file's name
FAULTS = [
    ("thigns: a b\n", ":1: no such key: thigns; the nearest is `things`"),
    ("title: x\nthings a b\n", ":2: a line is `key: text`; the nearest is `things`"),
    ("only: a\n", ":1: no such key: only; the nearest is `only NAME`"),
    ("title: x\n", ": there are no things: a line such as `things: maths english sport` is missing\n"
     "it.case: there are no values: a line such as `values: Ann Ben Cas` is missing\n"
     "it.case: there are no words: a line such as `words: different, before` is missing\n"
     "it.case: nothing is asked about: a line such as `ask: all` is missing"),
    ("thigns: a b\nvalues: 1 2\nwrods: same\nask all\n", ":1: no such key: thigns; the nearest is `things`\n"
     "it.case:3: no such key: wrods; the nearest is `words`\nit.case:4: a line is `key: text`; the nearest is `ask`"),
    ("words: smae, diferent\nplan: it\nthings: a b\nvalues: 1 2\nask: al\nalways: same\n", ":2: no such plan: it; there are scopes, quacq, multi"),
    ("words: smae, diferent\nthings: a b\nvalues: 1 2\nask: al\nalways: same\n",
     ":1: the word `smae` isn't in the catalogue; the nearest is `same`\n"
     "it.case:1: the word `diferent` isn't in the catalogue; the nearest is `different`\n"
     "it.case:4: `al` isn't a way to put things together; the nearest is `all`\n"
     "it.case:5: of which things? Write `same on same day`, `same on all`, or name them, as `same on a - b`"),
    ("things: a b\nvalues: shelf 1 .. 6\n" + REST,
     ":2: is `shelf` a heading, or one of the names? Write `shelf1 .. shelf6`; or, if it is one of the names, put commas: `shelf, 1 .. 6`"),
    ("things: Y1 Y2 .. Y4\nvalues: Mon Tue .. Fri\nask: all\nwords: never\n", ":4: the word `never` isn't in the catalogue; the nearest is `never Wed`"),
    ("things: a b a\nvalues: 1 2\nplan: it\n" + REST, ":1: the thing `a` stands twice\nit.case:3: no such plan: it; there are scopes, quacq, multi"),
    ("things: talk 1 .. 8\nvalues: a b\n" + REST,
     ":1: is `talk` a heading, or one of the names? Write `talk1 .. talk8`; or, if it is one of the names, put commas: `talk, 1 .. 8`"),
    ("things: a b\nvalues: day Mon..Fri\n" + REST,
     ":2: is `day` a heading, or one of the names? Leave it out, `Mon .. Fri`; or, if it is one of the names, put commas: `day, Mon .. Fri`"),
    ("thing a: size 1 2 3\nthing b: x y\n" + REST,
     ":1: is `size` a heading, or one of the names? Write `size1 size2 size3`; or, if it is one of the names, put commas: `size, 1, 2, 3`"),
    ("title: x\ntitle: y\nthings: a b\nvalues: 1 2\nask: all\nwords: same\n", ":2: `title` stands twice; the first is in line 1"),
    ("things: a b\nask: all\nwords: same\n", ": `a` has no values: a line such as `values: Ann Ben Cas` is missing"),
    ("things: a b\nthing c: x y\nask: all\nwords: same\n", ": `a` has no values: a line such as `values: Ann Ben Cas` is missing"),
    ("things: a b a\nvalues: 1 2\n" + REST, ":1: the thing `a` stands twice"),
    ("things: a b\nvalues: 1 2 1\n" + REST, ":2: the value `1` stands twice"),
    ("things: a b\nvalues: 1 .. 65\n" + REST, ":2: there are 65 values, and the program takes 64: leave some out, or split the case"),
    ("things: 1 .. 129\nvalues: a b\n" + REST, ":1: there are 129 things, and the program takes 128: leave some out, or split the case"),
    ("things: day Mon Tue x shift\nvalues: a\n" + REST, ":1: a side of a grid is its name and its members, as `day Mon Tue`; `shift` has no members"),
    ("things: day Mon .. Foo x shift a b\nvalues: c\n" + REST, ":1: `Mon .. Foo` can't be filled in: write the names out, or count days, months, numbers or letters upwards"),
    ("things: a=b c\nvalues: d e\n" + REST, ":1: `a=b`: a name has no `=` in it"),
    ("things: day Mon Tue x shift early late\nthing other: a b\nvalues: c\nask: all\nwords: same\n", ":2: a grid of things stands alone: its line is above"),
    ("things: day Mon Tue x shift Mon late\nvalues: c\nask: all\nwords: same\n", ":1: `Mon` stands in two sides of the grid"),
    ("things: day Mon Mon x shift early late\nvalues: c\nask: all\nwords: same\n", ":1: the member `Mon` stands twice"),
    ("things: day Mon Tue x day early late\nvalues: c\nask: all\nwords: same\n", ":1: the side `day` stands twice"),
    ("things: 1 .. 200\nvalues: c\nask: all\nwords: same\n", ":1: there are 200 things, and the program takes 128: leave some out, or split the case"),
    ("things: 1 .. 201\nvalues: c\nask: all\nwords: same\n", ":1: `1 .. 201` are 201 names, and `..` fills in 200 at most: a case has fewer"),
    ("things: Z .. a\nvalues: c\nask: all\nwords: same\n",
     ":1: `Z .. a` can't be filled in: write the names out, or count days, months, numbers or letters upwards"),
    ("things: a=1 .. a=3, b\nvalues: c\nask: all\nwords: same\n", ":1: `a=1`: a name has no `=` in it"),
    (WARD + "only Sun: Eve .. Cas\n" + ASK, ":3: `Eve .. Cas` goes backwards"),
    (WARD + "only Sun: Cas ..\n" + ASK, ":3: `..` stands between two values"),
    (WARD + "only Mno early: Ann\n" + ASK, ":3: no such thing: Mno early; the nearest is `Mon early`"),
    (WARD + "only Mon early: Anne\n" + ASK, ":3: no such value: Anne; the nearest is `Ann`"),
    (WARD + "only Mon: Ann\nonly Mon early: Ben\n" + ASK, ":4: `Mon early` would have no value left"),
    (WARD + "ask: sam day\nwords: different\n", ":3: `sam day` isn't a way to put things together; the nearest is `same day`"),
    (WARD + "ask: nigth to next day early\nwords: different\n", ":3: `nigth to next day early` isn't a way to put things together; the nearest is `night to next day early`"),
    (WARD + "ask: Mon early - Tue erly\nwords: different\n", ":3: no such thing: Tue erly; the nearest is `Tue early`"),
    (WARD + "ask: same day\n", ": there are no words: a line such as `words: different, before` is missing"),
    (WARD + "words: different\n", ": nothing is asked about: a line such as `ask: all` is missing"),
    (WARD + "ask: same day\nwords: diferent\n", ":4: the word `diferent` isn't in the catalogue; the nearest is `different`"),
    (WARD + "ask: same day\nwords: different, never An\n", ":4: the word `never An` isn't in the catalogue; the nearest is `never Ann`"),
    ("things: a b\nvalues: day Mon Tue x hour 1 2\nask: all\nwords: at least 2 apart\n",
     ":4: the word `at least 2 apart` isn't in the catalogue; in a grid it is counted in a part: `at least 2 days apart`"),
    ("thing a: x y\nthing b: z\nwords: a=x not with b=zz\n", ":3: b has no value zz; the nearest is `z`"),
    ("thing a: x y\nthing b: z\nwords: a=x not with c=z\n", ":3: no such thing: c; there are a, b"),
    (LIST + "ask: all\nwords: same, all three different\n", ": `all three different` speaks of 3 things, and `ask` puts no more than 2 together: "
     "ask about `all triples`, or, if it is known, write it on a line `known`"),
    (LIST + "ask: all triples\nwords: four in order\n", ": `all triples` puts 3 things together, and no word speaks of so many; one that does is `all three different`"),
    (LIST + "ask: all\nwords: different\nplan: scops\n", ":5: no such plan: scops; there are scopes, quacq, multi"),
    (LIST + "ask: maths - english\nwords: different\nalways: different on maths - sport\n",
     ": always: \"maths and sport differ\" can't be learned: `ask` doesn't put maths - sport together; add `maths - sport` to `ask`"
     + KNOWN),
    (LIST + "ask: all\nwords: different\nalways: same on maths - sport\n",
     ": always: \"maths and sport are the same\" can't be learned: `same` isn't among the words; add it to `words`" + KNOWN),
    (LIST + "ask: all\nwords: different\nalways: not all three the same on all triples\n",
     ": always: \"maths, english and sport aren't all the same\" can't be learned: `ask` doesn't put maths - english - sport together; "
     "add `maths - english - sport` to `ask`" + KNOWN),
    (LIST + "ask: all\nwords: different\nknown: nobody works on Sunday\n",
     ":5: the word `nobody works` isn't in the catalogue; what can't be looked for in a plan goes into a line `note`"),
    (LIST + "ask: all\nwords: different\nknown: no long days\n", ":5: `no long days` can't be looked for in a plan: there are " + FORMS),
    (LIST + "ask: all\nwords: different\nknown: at most two of them 9\nknown: at most 2 alike on maths - sprot\n",
     ":5: no such value: 9\nit.case:6: `maths - sprot`: counted is `on all`, `on same day` or on things, as `on maths - sport`; the nearest is `sport`"),
    (LIST + "ask: all\nwords: before\nalways: before on sport - maths\n",
     ": always: \"sport is before maths\" can't be learned: words read things in the order of the case: maths - sport; add the word that says it so"),
    (LIST + "ask: all\nwords: different\nalways: different\n",
     ":5: of which things? Write `different on same day`, `different on all`, or name them, as `different on maths - english`"),
    (WARD + "ask: same day\nwords: different, never Ann, never Ben, never Cas, never Dee\n",
     ": the words combine to 511 rules on groups of 2, and the program takes 64; without `never Dee` and `never Cas` they are 31"),
    ("things: a b c\nvalues: 1 .. 41\nask: all triples\nwords: all three different\n", ": groups of 3 things take 40 values at most, and there are 41"),
]


TALKS = "things: opening maths bread bees\nvalues: left right shelf3 shelf4\n"
ROOMS = "things: opening maths bread bees\nvalues: room A B x hour 9 10 11\n"
# what somebody writes for a word, and the one that is meant; each in a case of its own
MEANT = {
    TALKS + "ask: all triples\nwords: ": {
        "not the same": "different", "never together": "different", "apart": "different", "distinct": "different", "together": "same",
        "equal": "same", "earlier": "before", "comes after": "after", "directly before": "right before", "adjacent": "next to",
        "not beside": "not next to", "no more than 2 apart": "at most 2 apart", "2 or more apart": "at least 2 apart", "not left": "never left",
        "always left": "only left", "at most one left": "not both left", "left and right never together": "left not with right",
        "no left with right": "left not with right", "right never after left": "no right after left", "left means right": "if left then right",
        "in order": "three in order", "not all the same": "not all three the same", "at most 2 of 3 left": "at most two of three left",
        "from right": "right or later", "until right": "right or earlier"},
    ROOMS + "ask: all\nwords: ": {
        "not at the same hour": "different hour", "never in the same room": "different room", "in the same room": "same room",
        "in different rooms": "different room", "sooner hour": "earlier hour", "not on one room": "different room"},
    TALKS + "words: never left\nask: ": {
        "opening with maths": "opening - maths", "opening and bees": "opening - bees", "bread before maths": "bread - maths", "pairs": "all",
        "everyone": "all", "triples": "all triples", "one by one": "each"},
    WARD + "words: same\nask: ": {
        "per day": "same day", "on one day": "same day", "each day": "same day", "days": "same day", "consecutive days": "next days",
        "3 days running": "3 days in a row", "3 consecutive days": "3 days in a row"},
}
# words with their things, and what is said of them
WITH_THINGS = {
    "opening before bread": ("before", "opening - bread"), "bread before opening": ("after", "opening - bread"),
    "opening and bees differ": ("different", "opening - bees"), "maths not in the same room bread": ("different room", "maths - bread"),
    "bees earlier hour maths": ("later hour", "maths - bees"),
}


def meant() -> list[str]:
    """What is meant is proposed before what is near by letters."""
    faults = []
    for head, pairs in MEANT.items():
        for text, wanted in pairs.items():
            said = told(head + text + "\n")
            if not said.endswith(f"; you may mean `{wanted}`"):
                faults.append(f"of `{text}` it says {said!r}, and meant is `{wanted}`")
            if told(head + wanted + "\n"):
                faults.append(f"`{wanted}` isn't taken: {told(head + wanted)}")
    for text, (word, things) in WITH_THINGS.items():
        said = told(ROOMS + f"ask: all\nwords: different\nalways: {text}\n")
        if f"`{word}` in `words` with `{things}` in `ask`, or `always: {word} on {things}`" not in said:
            faults.append(f"of `{text}` it says {said!r}")
        if told(ROOMS + f"ask: {things}\nwords: {word}\nalways: {word} on {things}\n"):
            faults.append(f"`{word} on {things}` isn't taken")
    return faults


def told(text: str) -> str:
    """What is said of a text, behind the file's name; empty where it is taken."""
    try:
        Vocabulary(casefile.parse(text, "it.case"))
    except Fault as fault:
        return str(fault).removeprefix("it.case")
    return ""


FILLED = {"Mon .. Wed": ["Mon", "Tue", "Wed"], "Mon Tue .. Fri": ["Mon", "Tue", "Wed", "Thu", "Fri"], "8..11": ["8", "9", "10", "11"], "Y1 .. Y3": ["Y1", "Y2", "Y3"], "08 .. 10": ["08", "09", "10"],
          "A .. C x": ["A", "B", "C", "x"], "Nov .. Dec": ["Nov", "Dec"], "ganz spät, B 1 .. B 2": ["ganz spät", "B 1", "B 2"]}


def right() -> list[str]:
    """A case that uses what a case can say."""
    text = ("\ufefftitle: Küche & <b>&\"  # a comment\r\n\n# another\nthings: Bär, \"Frau Müller\", Ωmega, b&r\n"
            "values: früh, ganz spät, frei\nonly Bär: früh .. frei\nonly Ωmega: frei früh\n"
            "ask: Bär - Frau Müller - Ωmega, each, b&r - Bär\nwords: different, no früh after ganz spät, never frei\nalways: never frei on b&r\nplan: scopes\n")
    with tempfile.TemporaryDirectory() as folder:
        path = os.path.join(folder, "kitchen.case")
        with open(path, "w", encoding="utf-8", newline="") as file:
            file.write(text)
        case = casefile.read(path)
    words = Vocabulary(case)
    faults = []
    if case.title != "Küche & <b>&\"" or [thing.name for thing in case.things] != ["Bär", "Frau Müller", "Ωmega", "b&r"]:
        faults.append(f"the names are {case.title}, {case.things}")
    if words.names != ("Baer", "Frau_Mueller", "mega", "b-r"):
        faults.append(f"the program's names are {words.names}")
    if words.scopes != ((0, 1, 2), (0, 3)) or case.things[2].allowed != (0, 2):
        faults.append(f"the scopes are {words.scopes}, and Ωmega takes {case.things[2].allowed}")
    for values in ({0: 1, 1: 0, 3: 2}, {2: 0}, {0: 0, 1: 1, 2: 2, 3: 0}):
        if words.values_of(words.tokens_of(values)) != values:
            faults.append(f"{values} come back as {words.values_of(words.tokens_of(values))}")
    return faults


def allowed() -> list[str]:
    """`only` lines: the values that a thing may take, with both ends of a range, also where they are members of a grid."""
    ward = WARD + ASK
    grid = "things: a b\nvalues: day Mon Tue Wed x hour 1 2\nask: all\nwords: same\n"
    found = []
    for text, wanted in ((ward + "only Sun: Cas .. Eve\n", (2, 3, 4)), (ward + "only Sun: Ann Cas .. Dee\n", (0, 2, 3)), (ward + "only Sun: Ann .. Ben Dee .. Eve\n", (0, 1, 3, 4)),
                         (ward + "only Sun late: Eve .. Eve\n", (4,)), (ward + "only Sun: Ann, Eve\n", (0, 4)), (ward + "only Sun: Ann .. Dee\nonly Sun late: Cas .. Eve\n", (2, 3)),
                         (grid + "only b: Mon .. Tue\n", (0, 1, 2, 3)), (grid + "only b: Mon 2 .. Wed 1\n", (1, 2, 3, 4)), (grid + "only b: 2\n", (1, 3, 5)), (grid + "only b: Wed\n", (4, 5))):
        things = casefile.parse(text, "it.case").things
        thing = next(thing for thing in things if thing.name in ("Sun late", "b"))
        whole = tuple(range(5 if "day Mon .. Sun" in text else 6))
        others = [other.allowed for other in things if not other.name.startswith("Sun") and other.name != "b"]
        if thing.allowed != wanted or any(other != whole for other in others):
            found.append(f"{text.splitlines()[-1]} allows {thing.name} {thing.allowed} and not {wanted}, and others {others[0]}")
    return found


def run(program: str) -> list[str]:
    """Faults in what is told."""
    faults = right() + meant() + [f"`{text}` is {names.listed(text)}" for text, wanted in FILLED.items() if names.listed(text) != wanted]
    for text, wanted in FAULTS:
        if told(text) != wanted:
            faults.append(f"of {text!r} it says {told(text)!r}, and not {wanted!r}")
    with tempfile.TemporaryDirectory() as folder:
        path = os.path.join(folder, "latin.case")
        with open(path, "wb") as file:
            file.write(b"title: x\nthings: B\xe4r\n")
        try:
            casefile.read(path)
            faults.append("a text that isn't UTF-8 is taken")
        except Fault as fault:
            if "latin.case:2: this isn't UTF-8" not in str(fault):
                faults.append(str(fault))
    print(f"faults: {len(FAULTS) + 1} cases with a fault, each with its line and the nearest right form; "
          f"{sum(map(len, MEANT.values())) + len(WITH_THINGS)} synonyms")
    return faults
