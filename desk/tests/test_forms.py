"""A form and the text of a case: each makes the other, nothing of a text is lost, and a fault is at
its own field."""

from __future__ import annotations

import dataclasses
import os
import random
import unittest

from planners_desk.case import casefile
from planners_desk.case.model import Case, Fault
from planners_desk.web import faults, fields, forms
from planners_desk.web.forms import Form, Listed, Row

CASES = os.path.join(os.path.dirname(os.path.dirname(os.path.realpath(__file__))), "cases")
NAME = "it.case"
DRAWN = 400
NAMES = ("Ada", "Bo Li", "Cy", "Dürr", "x", "8", "a-b", "Mon early", "1 .. 4", "q(1)")
TYPED = (
    "",
    "x",
    "# no",
    "a # b",
    "a:b",
    "a, b",
    "same on all",
    "nothing here",
    "Mon .. Sun",
    "=",
    '"x',
    "..",
    "p q",
)
SEATS = """title: Seats
things: Ada Bo Cy Dürr Eve Fay Gus
values: table left right x seat 1 2 3 4
ask: all
words: different, same table, next to
"""
OTHERS = (
    SEATS,
    (
        "title: Conference\nthings: opening maths bees rivers\nvalues: room A B C x hour 9 10 11 "
        "12\nask: all\nwords: different, different hour, earlier hour, same room\nalways: "
        "different on all\n"
    ),
    (
        "title: Holidays\nthings: Ana Ben Cleo Dan\nvalues: week1 .. week5\nask: all "
        "triples\nwords: different, not all three the same\nknown: at most 2 alike\nnote: "
        "one\nnote: two # of them\n"
    ),
    (
        "things: a b\nthings: Mary Ann, Bob\nvalues: 1\nvalues: 2 3\nthing own: p q\nonly a: 1 .. "
        "2\nask: all, a - b\nwords: different\nwords: same, different # twice\nalways: same on a - "
        "b, different on all\nplan: scopes\n"
    ),
    "# all by itself\r\ntitle: Lines\r\nthings: a b\r\nvalues: 1 2\r\nask: all\r\nwords: same\r\n",
    'things: w "x" y z\nvalues: 1 2\nask: all\nwords: same\n',
)
FAULTY = (
    "title: a\ntitle: b\nthings: a b\nvalues: 1 2\nask: all\nwords: same\n",
    (
        "things: day Mon Tue x shift a b\nthings: c d\nvalues: 1\nno key\nkey: x\nthing: y\nask: "
        "alll\nwords:\nplan: \n"
    ),
    "",
    "\n\n# nothing\n",
    "hello",
)


def texts() -> list[str]:
    """The cases that come with desk, and others."""
    found = list(OTHERS)
    for name in sorted(os.listdir(CASES)):
        if name.endswith(".case"):
            with open(os.path.join(CASES, name), encoding="utf-8") as file:
                found.append(file.read())
    return found


def drawn(seed: int) -> Form:
    """A form that somebody may have filled in, mostly rightly."""
    draw = random.Random(seed)

    def some(of: tuple[str, ...], most: int) -> tuple[str, ...]:
        return tuple(dict.fromkeys(draw.choice(of) for _ in range(draw.randint(0, most))))

    def listed() -> list[str]:
        grid = draw.random() < 0.4
        return (
            ["grid", "", "day", "Mon .. Wed", "shift", "early late"]
            if grid
            else ["list", ", ".join(some(NAMES, 6))]
        )

    sent = {
        "title": [draw.choice(("A title", *TYPED))],
        "plan": [draw.choice(("", "", "scopes", "fast"))],
    }
    for name in ("things", "values"):
        kind, text, *sides = listed()
        sent |= {f"{name}-kind": [kind], f"{name}-text": [text]} | {
            f"{name}-side-{k // 2}-{('name', 'text')[k % 2]}": [side]
            for k, side in enumerate(sides)
        }
    sent["ask"] = list(some(("all", "all", "each", "same day", "next day", "Ada - Cy", *TYPED), 3))
    sent["words"] = list(
        some(("same", "different", "before", "never Ada", "all three different", *TYPED), 3)
    )
    sent["always"] = list(some(("different on all", "same on Ada - Cy", *TYPED), 2))
    sent["known"] = list(some(("at most 2 alike", "at most 1 of them Cy", *TYPED), 2))
    sent["notes"] = ["\n".join(some(("a note", *TYPED), 2))]
    for k in range(draw.randint(0, 2)):
        sent |= {f"own-{k}-name": [draw.choice(TYPED)], f"own-{k}-text": [draw.choice(TYPED)]}
        sent |= {
            f"only-{k}-name": [draw.choice((*NAMES, *TYPED))],
            f"only-{k}-text": [draw.choice((*NAMES, *TYPED))],
        }
    return fields.posted(sent)[0]


class Forms(unittest.TestCase):
    """Text to fields, fields to text."""

    def assert_same(self, one: Case, other: Case) -> None:
        """Two cases are the same but for their texts."""

        def plain(case: Case) -> Case:
            return dataclasses.replace(case, text="", words=(), always=(), known=())

        self.assertEqual(plain(one), plain(other))
        self.assertEqual(
            [(w.text, w.things) for w in one.words], [(w.text, w.things) for w in other.words]
        )
        self.assertEqual(
            [(r.text, r.things) for r in one.always], [(r.text, r.things) for r in other.always]
        )
        self.assertEqual([k.text for k in one.known], [k.text for k in other.known])

    def test_a_form_that_nobody_changed_is_the_text(self) -> None:
        """Byte for byte, with its faults."""
        for text in (*texts(), *FAULTY):
            form, halves = fields.posted(fields.sent_of(forms.read(text)))
            self.assertEqual(forms.written(form, text), text)
            self.assertEqual(halves, [])

    def test_a_form_says_the_case(self) -> None:
        """Written where no text was before, it is the same case."""
        for text in texts():
            form = forms.read(text)
            fresh = forms.written(form)
            self.assertEqual(forms.read(fresh), form)
            if text.count("things:") == 1:  # else they stand in another order
                self.assert_same(casefile.parse(text, NAME), casefile.parse(fresh, NAME))

    def test_nothing_of_a_faulty_text_is_lost(self) -> None:
        """Each line that says something is in some field."""
        for text in FAULTY:
            fresh = forms.written(forms.read(text))
            for line in text.splitlines():
                said = line.split("#")[0].strip()
                if said and not said.endswith(":"):
                    self.assertIn(said, fresh)

    def test_a_change_leaves_the_rest_as_it_stands(self) -> None:
        """Comments, and lines that it isn't about."""
        for text in texts():
            old = forms.read(text)
            new = dataclasses.replace(
                old, title="Another", words=(*old.words[1:], "not next to"), notes=("a note",)
            )
            made = forms.written(new, text)
            self.assertEqual(forms.read(made), new)
            lines = [
                line
                for line in text.splitlines()
                if not line.startswith(("title", "words", "note"))
            ]
            self.assertEqual([line for line in made.splitlines() if line in lines], lines)
            for line in text.splitlines():
                if "#" in line:
                    self.assertIn(line[line.index("#") :], made)

    def test_rows_stay_in_their_place(self) -> None:
        """One is changed, one is taken out, one is new."""
        text = "thing a: 1 2 # first\nthing b: 3 4\n# of c\nthing c: 5 6\nask: all\nwords: same\n"
        rows = (Row("a", "1 2 9"), Row("c", "5 6"), Row("d", "7 8"))
        made = forms.written(dataclasses.replace(forms.read(text), own=rows), text)
        self.assertEqual(
            made,
            "thing a: 1 2 9  # first\n# of c\nthing c: 5 6\nthing d: 7 8\nask: all\nwords: same\n",
        )

    def test_many_rows(self) -> None:
        """As many as a case has bytes for don't take for ever."""
        text = "note: a\n" * 40_000 + SEATS
        old = forms.read(text)
        new = dataclasses.replace(
            old, notes=("b", *old.notes[1:], "c"), words=tuple(f"never {k}" for k in range(40_000))
        )
        self.assertEqual(forms.read(forms.written(new, text)), new)

    def test_a_word_that_is_added_stands_behind_the_others(self) -> None:
        """So that the order of those that are there stays."""
        made = forms.written(
            dataclasses.replace(forms.read(SEATS), words=("next to", "never 1", "different")), SEATS
        )
        self.assertIn("words: different, next to, never 1\n", made)

    def test_drawn_forms(self) -> None:
        """Each is refused at a field that can't be written, or its text says what it says."""
        written = faulty = 0
        for seed in range(DRAWN):
            form = drawn(seed)
            if faults.unwritable(form):
                continue
            text = forms.written(form)
            self.assertEqual(forms.read(text), form, seed)
            written += 1
            judged = faults.judged(text, NAME)
            try:
                casefile.parse(text, NAME)
            except Fault as fault:
                faulty += 1
                self.assertGreaterEqual(len(judged.faults), len(fault.texts))
                for one in judged.faults:
                    self.assertIn(one.field, {*forms.ORDER, forms.OTHER}, (seed, one))
        self.assertGreater(written, DRAWN // 8)
        self.assertGreater(faulty, DRAWN // 16)


class Faults(unittest.TestCase):
    """Where a fault is."""

    CASE = "things: a b c\nvalues: 1 2 3\n"
    ASKED = CASE + "ask: all\n"
    ROWS = (
        ("title: a\ntitle: b\n" + ASKED + "words: same\n", "other", 0, 2),
        ("ask: all\nwords: same\n", "things", None, 0),
        ("things: a b\nask: all\nwords: same\n", "values", None, 0),
        ("things: talk 1 .. 8\nvalues: 1 2\nask: all\nwords: same\n", "things", None, 1),
        ("things: a b a\nvalues: 1 2\nask: all\nwords: same\n", "things", None, 1),
        ("things: a b\nvalues: 1 2 1\nask: all\nwords: same\n", "values", None, 2),
        (CASE + "ask: all, each, sam\nwords: same\n", "ask", 2, 3),
        (CASE + "ask: all\nask: a - z\nwords: same\n", "ask", 1, 4),
        (CASE + "words: same\n", "ask", None, 0),
        (ASKED, "words", None, 0),
        (ASKED + "words: same, never 9, before\n", "words", 1, 4),
        (
            ASKED + "words: same\nalways: same on all, same on x, same\nalways: same on y\n",
            "always",
            1,
            5,
        ),
        (
            ASKED + "words: same, different\nalways: different on a - b, before on a - b\n",
            "always",
            1,
            0,
        ),
        (ASKED + "words: same\nknown: at most 2 of them 1, at most 2 of them 7\n", "known", 1, 5),
        (ASKED + "words: same\nonly a: 1\nonly d: 2\n", "only", 1, 6),
        ("thing a: 1 2\nthing b: 1 1\nask: all\nwords: same\n", "own", 1, 2),
        (ASKED + "words: same\nplan: slow\n", "plan", None, 5),
        (ASKED + "words: same, all three different\n", "words", 1, 0),
        (CASE + "ask: all, all triples, all fours\nwords: same\n", "ask", 2, 3),
        (ASKED + "words: same\nhello there\nnow: x\n", "other", 0, 5),
        (ASKED + "words: same\nnote: a\nnote: b\u200bc\n", "notes", 1, 6),
    )

    def test_each_is_at_its_field(self) -> None:
        """And at its line, and at its place among what the field has several of."""
        for text, field, place, line in self.ROWS:
            first = faults.judged(text, NAME).faults[0]
            self.assertEqual((first.field, first.place, first.line), (field, place, line), text)

    def test_a_strange_line_hides_no_other_fault(self) -> None:
        """The reader ends at it, and the form tells the others as well, at their lines."""
        found = faults.judged(
            "hello\n" + self.CASE + "ask: all, alll\nwords: same, sam\n", NAME
        ).faults
        self.assertEqual(
            [(one.field, one.place, one.line) for one in found],
            [("other", 0, 1), ("ask", 1, 4), ("words", 1, 5)],
        )

    def test_none_where_there_is_none(self) -> None:
        """The cases to begin with."""
        for text in texts():
            self.assertEqual(faults.judged(text, NAME).faults, (), text)

    def test_what_cannot_be_written(self) -> None:
        """A field whose text would be read as something else."""
        rows = (
            (Form(title="Room # 3"), "title", None),
            (Form(things=Listed(sides=(Row("day", "Mon"),))), "things", None),
            (Form(values=Listed(sides=(Row("day", "Mon"), Row("", "a b")))), "values", 1),
            (Form(values=Listed(sides=(Row("my day", "Mon"), Row("shift", "a")))), "values", 0),
            (Form(values=Listed(sides=(Row("day", "Mon"), Row("shift", "")))), "values", 1),
            (Form(own=(Row("a", "1"), Row("b:c", "2"))), "own", 1),
            (Form(only=(Row("", "1"),)), "only", 0),
            (Form(always=("same on all", "same on #1")), "always", 1),
            (Form(notes=("#1",)), "notes", 0),
            (Form(things=Listed("a b x c d, e")), "things", None),
        )
        for form, field, place in rows:
            found = faults.unwritable(form)
            self.assertEqual([(one.field, one.place) for one in found[:1]], [(field, place)], form)


class Fields(unittest.TestCase):
    """What a browser sends."""

    def test_a_list_with_lines(self) -> None:
        """Each line is a name; one line has its names between blanks."""
        for text, line in (
            ("Mary Ann\r\nBob Lee\r\n", "Mary Ann, Bob Lee"),
            (" a  b\tc ", "a b c"),
            ("a,\nb,", "a, b"),
            ("w x y", 'w "x" y'),
            ("Mon .. Fri\nSun", "Mon .. Fri, Sun"),
        ):
            form, _ = fields.posted({"things-kind": ["list"], "things-text": [text]})
            self.assertEqual(form.things, Listed(line))

    def test_what_is_put_together(self) -> None:
        """Of several fields, where all that is needed is chosen."""
        form, halves = fields.posted(
            {
                "group-a": ["Mon early"],
                "group-b": ["Tue late"],
                "pair-form": ["no {1} after {0}"],
                "pair-v": ["p"],
                "pair-w": ["q"],
                "either-v": ["p"],
                "either-w": ["q"],
                "count-form": ["at most two of three {0}"],
                "count-v": ["p"],
                "rule-word": ["same"],
                "rule-on": ["all"],
                "number-how": ["at most"],
                "number-count": ["2"],
                "number-v": ["p"],
                "number-on": ["same day"],
            }
        )
        self.assertEqual(halves, [])
        self.assertEqual(form.ask, ("Mon early - Tue late",))
        self.assertEqual(form.words, ("no q after p", "only p or q", "at most two of three p"))
        self.assertEqual(
            (form.always, form.known), (("same on all",), ("at most 2 of them p on same day",))
        )

    def test_what_is_chosen_by_half(self) -> None:
        """Is a fault, and stays as it was chosen."""
        for sent, field in (
            ({"group-a": ["x"]}, "ask"),
            ({"pair-v": ["p"], "pair-w": ["q"]}, "words"),
            ({"pair-form": ["{0.__class__}"], "pair-v": ["p"], "pair-w": ["q"]}, "words"),
            ({"rule-on": ["all"]}, "always"),
            ({"number-how": ["at most"], "number-v": ["p"]}, "known"),
        ):
            form, halves = fields.posted(sent)
            self.assertEqual([one.field for one in halves], [field])
            self.assertEqual(form, Form())
            self.assertEqual(
                {name: text for name, text in fields.left(sent, form).items() if name in sent}, sent
            )


if __name__ == "__main__":
    unittest.main()
