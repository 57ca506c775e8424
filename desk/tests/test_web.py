"""The page in the browser, as far as it needs no browser: one answer for a sheet, tables, the way
in."""

from __future__ import annotations

import importlib.util
import os
import stat
import tempfile
import threading
import time
import unittest
from collections.abc import Callable

from planners_desk.case import casefile
from planners_desk.case.picture import CHANGED, LEFT_OUT

ROSTER = (
    "things: day Mon Tue x shift early late\nvalues: Ann Ben\nask: same day\nwords: different\n"
)
SEATS = "things: Ada Bo\nvalues: table left right x seat 1 2\nask: all\nwords: different\n"
STORE = (
    "things: acid lye water\nvalues: shelf1 shelf2\nonly water: shelf2\nask: all\nwords: "
    "different\n"
)
BICYCLE = "thing frame: steel alu\nthing rack: none light\nwords: frame=alu not with rack=light\n"


class Tables(unittest.TestCase):
    """A plan in the case's own grid."""

    def rows(
        self, text: str, values: dict[int, int], marks: dict[int, str] | None = None
    ) -> list[tuple[str, list[list[tuple[str, str]]]]]:
        """The rows of a table, and what stands in their cells."""
        from planners_desk.web.tables import table_of

        table = table_of(casefile.parse(text, "x.case"), values, marks)
        return [
            (row.head, [[(entry.text, entry.kind) for entry in cell.entries] for cell in row.cells])
            for row in table.rows
        ]

    def test_things(self) -> None:
        """A grid of things has the values, what has changed, and what is left out."""
        self.assertEqual(
            self.rows(ROSTER, {0: 0, 3: 1}, {3: CHANGED, 1: LEFT_OUT}),
            [("early", [[("Ann", "asked")], []]), ("late", [[("", LEFT_OUT)], [("Ben", CHANGED)]])],
        )

    def test_values(self) -> None:
        """A grid of values has the things; in a full plan nothing is asked by itself."""
        self.assertEqual(
            self.rows(SEATS, {0: 0, 1: 3}),
            [("1", [[("Ada", "")], []]), ("2", [[], [("Bo", "")]])],
        )

    def test_by_value(self) -> None:
        """A list where most things may take each value is read by these."""
        self.assertEqual(
            self.rows(STORE, {0: 1, 1: 1}),
            [("shelf1", [[]]), ("shelf2", [[("acid", "asked"), ("lye", "asked")]])],
        )

    def test_by_thing(self) -> None:
        """A list of things with values of their own is read by these, in a part those alone that
        have one."""
        case = casefile.parse(BICYCLE, "x.case")
        alu = case.values.index("alu")
        self.assertEqual(self.rows(BICYCLE, {0: alu}), [("frame", [[("alu", "asked")]])])


class Offered(unittest.TestCase):
    """What the form offers to be ticked."""

    def ticks(self, text: str) -> list[tuple[str, str]]:
        """What is to be ticked in the form of a case, each with what it is called."""
        from planners_desk.web import choices, forms

        offered = choices.choices(forms.read(text), "x.case")
        return [
            (tick.text, tick.label)
            for family in (*offered.ask, *offered.words)
            for tick in family.ticks
        ]

    def test_days_in_a_row_are_several(self) -> None:
        """Each phrase of a case that is offered is one of the ticks, however it is spelled there:
        none of its own says the same once more. Each is called what a new case gets."""
        text = (
            "things: day Mon .. Sun x shift early late\nvalues: table left right x seat 1 2 3 4\n"
            "ask: {}\nwords: {}\n"
        )
        for ask, words in (
            ("3 days in a row", "at least 2 seats apart"),
            ("3 day in a row", "at least 2 seat apart"),
            ("all", "same table"),
            ("all pairs", "same tables"),
            ("same day", "at most 1 seat apart"),
            ("same days pairs", "at most 1 seats apart"),
        ):
            ticks = dict(self.ticks(text.format(ask, words)))
            for phrase in (ask, words):
                self.assertIn(phrase, ticks)
            fresh = [
                ("all", "all"),
                ("same day", "same day"),
                ("3 days in a row", "3 days in a row"),
                ("at least 2 seats apart", "at least 2 seats apart"),
                ("at most 1 seat apart", "at most 1 seat apart"),
                ("same table", "same table"),
            ]
            called = list(ticks.values())
            for _, label in fresh:
                self.assertEqual(called.count(label), 1, f"{label} in {called}")
        new = self.ticks(text.format("all", "same"))
        for tick in fresh:
            self.assertIn(tick, new)

    def test_a_case_that_has_both_spellings(self) -> None:
        """The one that a new case gets is the tick; the other one stays, and is shown beside."""
        text = "things: day Mon .. Sun x shift early late\nvalues: Ann Ben\nwords: same\n"
        ticks = self.ticks(text + "ask: 3 day in a row, 3 days in a row\n")
        self.assertEqual([one for one in ticks if one[1] == "3 days in a row"], [ticks[6]])
        self.assertEqual(ticks[6][0], "3 days in a row")


class Reckoned(unittest.TestCase):
    """How many questions a way of asking had, in words."""

    def test_what_is_known_is_said(self) -> None:
        """Of a way that wasn't tried to the end only what says something."""
        from planners_desk.hints.trials import Figures
        from planners_desk.web.forecast import questions

        for counts, late, beyond, said in (
            ((17, 58, 79), False, None, "17 / 58 / 79"),
            ((17, 58, 79), True, 0, "17 / 58 / 79, in 3 of 12 cases"),
            ((17, 58, 79), True, 79, "17 / 58 / 79, in 3 of 12 cases"),
            ((17, 58, 79), True, None, "17 / 58 / 79, in 3 of 12 cases"),
            ((17,), True, 80, "17 / 17 / 17, in 1 of 12 cases, and more than 80 in the next"),
            ((), True, 45, "more than 45 in the first case"),
            ((), True, 0, "not tried: the time was over"),
            ((), True, None, "not tried: the time was over"),
        ):
            one = Figures("quacq", counts, 2, 2, 9, 99, 0, 0, late, beyond)
            self.assertEqual(questions(one, 12), said)


class Owners(unittest.TestCase):
    """One thread that owns a sitting."""

    def owner(self, work: Callable[..., object]):  # type: ignore[no-untyped-def]
        """A sitting that has begun."""
        from planners_desk.web.sittings import Owner

        made = Owner(work).start()  # type: ignore[arg-type]
        self.addCleanup(made.close)
        return made

    def test_a_sheet_takes_one_step(self) -> None:
        """The first step of a sheet counts, and the next one only with the next number."""
        from planners_desk.web.sheets import Stopped
        from planners_desk.web.sittings import Step

        taken = []

        def work(owner):  # type: ignore[no-untyped-def]
            while len(taken) < 2:
                taken.append(owner.put(Stopped("wait")).do)
            return Stopped("last")

        owner = self.owner(work)
        first = owner.settled()
        self.assertTrue(first.waits)
        threads = [
            threading.Thread(target=owner.take, args=(first.number, Step("y"))) for _ in range(9)
        ]
        for thread in threads:
            thread.start()
        for thread in threads:
            thread.join()
        second = owner.settled()
        self.assertEqual((taken, second.number), (["y"], first.number + 1))
        self.assertFalse(owner.take(first.number, Step("n")))
        self.assertTrue(owner.take(second.number, Step("n")))
        last = owner.settled()
        self.assertEqual((taken, last.over, last.sheet.head), (["y", "n"], True, "last"))
        self.assertFalse(owner.take(last.number, Step("y")))

    def test_the_page_alone_says_that_it_goes_on(self) -> None:
        """What takes a while ends without dots, which the page puts behind it."""
        from planners_desk.web.sheets import Busy, Stopped

        seen = []

        def work(owner):  # type: ignore[no-untyped-def]
            for text in ("looking for plan 1 of 3, at most 10 s more ..", "reading the case"):
                owner.busy(text)
                seen.append(owner.state().sheet)
            return Stopped("last")

        self.owner(work).settled()
        texts = [sheet.text for sheet in seen if isinstance(sheet, Busy)]
        self.assertEqual(
            texts, ["looking for plan 1 of 3, at most 10 s more", "reading the case"]
        )

    def test_what_takes_long_can_be_done_without(self) -> None:
        """The step `end` breaks a search off, and none that comes later."""
        from planners_desk.web.sheets import Stopped
        from planners_desk.web.sittings import Ended, Step

        seen = []

        def work(owner):  # type: ignore[no-untyped-def]
            for name in ("one", "two"):
                try:
                    for turn in range(40):
                        owner.busy(name, turn / 40, True)
                        time.sleep(0.01)
                    seen.append(f"{name} whole")
                except Ended:
                    seen.append(f"{name} ended")
                owner.put(Stopped(name))
            return Stopped("last")

        owner = self.owner(work)
        time.sleep(0.05)
        busy = owner.state()
        self.assertFalse(busy.waits)
        self.assertFalse(owner.take(busy.number, Step("y")))
        self.assertTrue(owner.take(busy.number, Step("end")))
        while not (now := owner.settled()).waits:
            pass
        owner.take(now.number, Step("o"))
        while not owner.settled().waits or len(seen) < 2:
            pass
        self.assertEqual(seen, ["one ended", "two whole"])

    def test_a_fault_is_shown(self) -> None:
        """What goes wrong in the thread stands on the last sheet."""
        from planners_desk.case.model import Fault

        def work(_owner):  # type: ignore[no-untyped-def]
            raise Fault("x.case:1: wrong", "x.case:2: wrong as well")

        owner = self.owner(work)
        while not (now := owner.settled()).over:
            pass
        self.assertEqual(
            (now.sheet.fault, now.sheet.lines),
            (True, ("x.case:1: wrong", "x.case:2: wrong as well")),
        )


@unittest.skipIf(importlib.util.find_spec("flask") is None, "Flask isn't installed")
class WayIn(unittest.TestCase):
    """The file, and its token."""

    def test_a_token_works_once(self) -> None:
        """Each lets one browser in, and the file has the next one."""
        from planners_desk.web.entrance import Entrance
        from planners_desk.web.security import Secrets

        with tempfile.TemporaryDirectory() as folder:
            before, os.environ["XDG_RUNTIME_DIR"] = os.environ.get("XDG_RUNTIME_DIR"), folder
            try:
                with Entrance(Secrets("127.0.0.1:1")) as entrance:
                    self.assertEqual(os.path.dirname(os.path.dirname(entrance.file)), folder)
                    tokens = []
                    for _ in range(3):
                        with open(entrance.file, encoding="utf-8") as file:
                            self.assertIn(entrance.address, file.read())
                        self.assertEqual(stat.S_IMODE(os.stat(entrance.file).st_mode), 0o600)
                        tokens.append(entrance.address.rpartition("=")[2])
                        self.assertTrue(entrance.takes(tokens[-1]))
                    for token in (*tokens, "", "é"):
                        self.assertFalse(entrance.takes(token))
                self.assertEqual(os.listdir(folder), [])
            finally:
                del os.environ["XDG_RUNTIME_DIR"]
                if before is not None:
                    os.environ["XDG_RUNTIME_DIR"] = before


if __name__ == "__main__":
    unittest.main()
