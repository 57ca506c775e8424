"""People who plan: what each has in mind, and the text of the case that says what there is.

A judge gets what a page shows, as a value for each name, and says whether it is all right as far as it goes.
"""

from __future__ import annotations

import itertools
from collections.abc import Callable
from dataclasses import dataclass

Shown = dict[str, str]


@dataclass(frozen=True)
class Person:
    """A case, and the rules that its owner has in mind."""

    name: str                           # of the file
    text: str
    judge: Callable[[Shown], bool]
    rules: tuple[str, ...] = ()         # as the page says them at the end, or a part of each

    def of(self, key: str) -> str:
        """What a line of the case says; nothing where there is none."""
        return next((line.partition(": ")[2] for line in self.text.splitlines() if line.startswith(f"{key}: ")), "")


def pairs(shown: Shown, some: list[tuple[str, str]], good: Callable[[str, str], bool]) -> bool:
    """Whether those of some pairs are good that are both shown."""
    return all(good(shown[one], shown[other]) for one, other in some if one in shown and other in shown)


def differ(one: str, other: str) -> bool:
    """Whether two values differ."""
    return one != other


# ---------------------------------------------------------------- a ward

DAYS = ("Mon", "Tue", "Wed", "Thu", "Fri", "Sat", "Sun")
WARD = """title: Ward roster, one week
things: day Mon .. Sun x shift early late night
values: Ann Ben Cas Dee Eve
ask: same day, night to next day early, night to next day late
words: different, never Ann
always: different on same day
plan: scopes
"""


def ward(shown: Shown) -> bool:
    """Nobody twice on a day, nobody early or late after a night, and Ann never at night."""
    same = [(f"{day} {one}", f"{day} {other}") for day in DAYS for one, other in itertools.combinations(("early", "late", "night"), 2)]
    after = [(f"{day} night", f"{following} {shift}") for day, following in itertools.pairwise(DAYS) for shift in ("early", "late")]
    return pairs(shown, same + after, differ) and not any(who == "Ann" for what, who in shown.items() if what.endswith("night"))


# ---------------------------------------------------------------- a dinner

GUESTS = ("Ada", "Bo", "Cy", "Dürr", "Eve", "Fay", "Gus")
SEATS = """title: Dinner for seven
things: Ada Bo Cy Dürr Eve Fay Gus
values: table left right x seat 1 2 3 4
ask: all
words: different, same table, different table, next to
always: different on all
plan: scopes
"""


def table(seat: str) -> str:
    """The table of a seat."""
    return seat.split()[0]


def seats(shown: Shown) -> bool:
    """Ada and Bo at one table, Cy and Dürr not, Eve beside Fay."""
    places = {f"{at} {seat}": 4 * (at == "right") + seat for at in ("left", "right") for seat in range(1, 5)}
    return (pairs(shown, list(itertools.combinations(GUESTS, 2)), differ)
            and pairs(shown, [("Ada", "Bo")], lambda one, other: table(one) == table(other))
            and pairs(shown, [("Cy", "Dürr")], lambda one, other: table(one) != table(other))
            and pairs(shown, [("Eve", "Fay")], lambda one, other: abs(places[one] - places[other]) == 1))


# ---------------------------------------------------------------- a conference

TALKS = ("opening", "maths", "bees", "rivers", "bread", "trains", "music", "stars")
CONFERENCE = """title: Conference
things: opening maths bees rivers bread trains music stars
values: room A B C x hour 9 10 11 12
ask: all
words: different, earlier hour, different hour
always: different on all
plan: scopes
"""


def conference(shown: Shown) -> bool:
    """The opening before all others; maths and stars, and bread and music, not at one hour."""
    def hour(slot: str) -> int:
        return int(slot.split()[1])
    return (pairs(shown, list(itertools.combinations(TALKS, 2)), differ)
            and pairs(shown, [("opening", talk) for talk in TALKS[1:]], lambda one, other: hour(one) < hour(other))
            and pairs(shown, [("maths", "stars"), ("bread", "music")], lambda one, other: hour(one) != hour(other)))


# ---------------------------------------------------------------- holidays

PEOPLE = ("Ana", "Bea", "Cem", "Dan", "Eli", "Fin", "Gil", "Hal", "Ida")
HOLIDAYS = """title: Holidays
things: Ana Bea Cem Dan Eli Fin Gil Hal Ida
values: week1 week2 week3 week4 week5
ask: all
words: different, same
known: at most two of them week1
plan: scopes
"""
SHOPS = (("Ana", "Bea", "Cem"), ("Dan", "Eli", "Fin"), ("Gil", "Hal", "Ida"))


def holidays(shown: Shown) -> bool:
    """Never two of one shop in one week; Ana and Dan together."""
    return (pairs(shown, [pair for shop in SHOPS for pair in itertools.combinations(shop, 2)], differ)
            and pairs(shown, [("Ana", "Dan")], lambda one, other: one == other))


# ---------------------------------------------------------------- a store

ACIDS, BASES, FLAMES = ("nitric-acid", "sulfuric-acid"), ("bleach", "ammonia", "lye"), ("acetone", "ethanol", "ether")
STORE = """title: Chemical store
things: nitric-acid sulfuric-acid bleach ammonia acetone ethanol peroxide permanganate lye sodium ether water
values: shelf1 .. shelf6
ask: all
words: different, at least 2 apart
plan: scopes
"""


def store(shown: Shown) -> bool:
    """Acids and bases on other shelves; what burns two shelves off nitric acid, peroxide and permanganate; sodium off water."""
    far = [(one, other) for one in ("nitric-acid", "peroxide", "permanganate") for other in FLAMES] + [("sodium", "water")]
    return (pairs(shown, [(one, other) for one in ACIDS for other in BASES], differ)
            and pairs(shown, far, lambda one, other: abs(int(one[5:]) - int(other[5:])) >= 2))


# ---------------------------------------------------------------- a choir

CHOIR = """title: Choir, singing by twos and threes
things: Ada Ben Cleo Dov Ella Finn Gwen
values: evening Mon Tue Thu x hour 7 8
only Gwen: Tue 7, Tue 8
ask: all
words: same, same evening, different evening, earlier evening
known: at most 3 of them Tue 7 on all
note: the small room holds three
plan: scopes
"""
EVENINGS = ("Mon", "Tue", "Thu")


def choir(shown: Shown) -> bool:
    """Ada and Ben sing a duet; Cleo and Dov share the child that somebody stays with; Ella teaches Finn's part on an evening before;
    Gwen drives Ben home."""
    def evening(slot: str) -> int:
        return EVENINGS.index(slot.split()[0])
    return (pairs(shown, [("Ada", "Ben")], lambda one, other: one == other)
            and pairs(shown, [("Cleo", "Dov")], lambda one, other: evening(one) != evening(other))
            and pairs(shown, [("Ella", "Finn")], lambda one, other: evening(one) < evening(other))
            and pairs(shown, [("Ben", "Gwen"), ("Ada", "Gwen")], lambda one, other: evening(one) == evening(other)))


EVERY = (
    Person("ward.case", WARD, ward, ("early, late and night differ", "night and early on the next day differ", "night is never Ann")),
    Person("seats.case", SEATS, seats, ("Ada and Bo have the same table", "Cy and Dürr have a different table", "Eve and Fay are next to each other")),
    Person("conference.case", CONFERENCE, conference, ("opening has an earlier hour than each of", "maths and stars have a different hour")),
    Person("holidays.case", HOLIDAYS, holidays, ("each two of Ana, Bea and Cem differ", "Ana and Dan are the same")),
    Person("store.case", STORE, store, ("each of nitric-acid and sulfuric-acid differs from each of bleach, ammonia and lye", "sodium and water are at least 2 apart")),
    Person("choir.case", CHOIR, choir, ("Ada and Ben are the same", "Cleo and Dov have a different evening", "Ella has an earlier evening than Finn")),
)
