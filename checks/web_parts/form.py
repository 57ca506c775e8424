"""Cases typed and clicked into an empty form in a real browser, as a person would, until the first
question is shown: the file is what a planner would type at a terminal, where the same is asked."""

from __future__ import annotations

import contextlib
import os
import re
import subprocess
import sys
from collections.abc import Iterator, Sequence
from dataclasses import dataclass, field

import people
from browser import Browser, gone
from served import DESK, Web

# seconds of a person, by the keystroke-level model of Card, Moran and Newell: a key of an average typist, pointing, a click, the
# way of a hand between keys and mouse, and making up one's mind
KEY, POINT, CLICK, HAND, MIND = 0.28, 1.1, 0.2, 0.4, 1.35

MENU = """title: Menu
thing starter: soup salad melon
thing main: fish beef pasta
thing wine: white red none
thing dessert: ice cheese fruit
only dessert: ice cheese
words: main=fish not with wine=red, if main=beef then wine=red, starter=melon not with dessert=cheese
note: no nuts
"""
DUTY = """title: Kitchen duty
things: day Mon .. Fri x job cook wash shop
values: Ada, Bo Li, Cy, Dürr
only Fri cook: Bo Li, Cy
ask: same day, next day, shop to next day cook
words: different, never Cy, no Ada after Cy, not both Dürr
always: different on same day
known: at most 4 of them Ada on all
note: Bo Li is away in May
plan: scopes
"""

Faults = Iterator[str]


@dataclass
class Typist:
    """Somebody at the form, whose time is reckoned."""

    browser: Browser
    seconds: float = 0.0
    did: list[str] = field(default_factory=list)

    def _spent(self, seconds: float, what: str) -> None:
        self.seconds += seconds
        self.did.append(what)

    def _opened(self, selector: str) -> None:
        """Reckons what has to be opened before an element can be seen."""
        element = self.browser.wait(lambda: self.browser.stands() and self.browser.all(selector))[0]
        for one in element.find_elements("xpath", "ancestor::details[not(@open)]"):
            self._spent(MIND + POINT + CLICK, f"opens {one.find_element('css selector', 'summary').text}")

    def types(self, name: str, text: str) -> None:
        """Types into a field by its name."""
        selector = f"[name='{name}']"
        self._opened(selector)
        self.browser.types(selector, text)
        self._spent(MIND + 2 * HAND + POINT + CLICK + KEY * len(text), f"types {text!r} into {name}")

    def clicks(self, selector: str) -> None:
        """Clicks something."""
        self._opened(selector)
        self.browser.clicks(selector)
        self._spent(MIND + POINT + CLICK, f"clicks {selector}")

    def leads(self, selector: str) -> None:
        """Clicks what leads to another page."""
        self.browser.leads(lambda: self.clicks(selector))

    def ticks(self, name: str, text: str) -> None:
        """Ticks a box."""
        selector = f"input[name='{name}'][value=\"{text}\"]"
        self._opened(selector)
        self.browser.ticks(selector)
        self._spent(MIND + POINT + CLICK, f"clicks {selector}")

    def chooses(self, name: str, text: str) -> None:
        """Chooses one of a list."""
        selector = f"select[name='{name}']"
        self._opened(selector)
        self.browser.chooses(selector, text)
        self._spent(2 * (POINT + CLICK) + MIND, f"chooses {text} in {name}")

    def settled(self) -> None:
        """Waits until the page is drawn for all that was typed."""
        self.browser.settled()


# ---------------------------------------------------------------- what each does


def names(it: Typist, key: str, text: str) -> None:
    """A list, or a grid by its sides."""
    sides = [side.partition(" ") for side in re.split(r" x ", text)]
    if len(sides) == 1:
        it.types(f"{key}-text", text)
        return
    it.clicks(f"input[name='{key}-kind'][value='grid']")
    for place, (name, _, members) in enumerate(sides):
        it.types(f"{key}-side-{place}-name", name)
        it.types(f"{key}-side-{place}-text", members)


def pieces(text: str) -> list[str]:
    """What stands between commas."""
    return [piece.strip() for piece in text.split(",")]


def word(it: Typist, text: str) -> None:
    """A word, ticked, or put together where it names several values or things."""
    chosen = re.fullmatch(r"(if )?(\S+=\S+) (?:not with|then) (\S+=\S+)", text)
    after = re.fullmatch(r"no (.+) after (.+)", text)
    if chosen:
        it.chooses("chosen-form", "if A then B" if chosen[1] else "A not with B")
        it.chooses("chosen-v", chosen[2])
        it.chooses("chosen-w", chosen[3])
    elif after:
        it.chooses("pair-form", "no B after A")
        it.chooses("pair-v", after[2])
        it.chooses("pair-w", after[1])
    else:
        it.ticks("words", text)
        return
    it.browser.wait(lambda: it.browser.all(f"input[name='words'][value=\"{text}\"]:checked"))


def filled(it: Typist, text: str) -> None:
    """Fills the form in with what the lines of a text say."""
    rows = {"thing": 0, "only": 0}
    for line in text.splitlines():
        head, _, said = line.partition(": ")
        key, _, name = head.partition(" ")
        it.settled()
        if key == "thing":
            it.types(f"own-{rows[key]}-name", name)
            it.types(f"own-{rows[key]}-more", said)
            it.clicks(f"#own-{rows[key]}-add")
            it.browser.wait(lambda: len(it.browser.all(f"input[name='own-{rows[key]}-tick']")) == len(said.split()))
            rows[key] += 1
        elif key == "only":
            it.chooses(f"only-{rows[key]}-name", name)
            for piece in (pieces(said) if "," in said else said.split()):
                it.ticks(f"only-{rows[key]}-tick", piece)
            rows[key] += 1
        elif key in ("things", "values"):
            names(it, key, said)
        elif key == "ask":
            for piece in pieces(said):
                it.ticks("ask", piece)
        elif key == "words":
            for piece in pieces(said):
                word(it, piece)
        elif key == "always":
            what, _, on = said.rpartition(" on ")
            it.chooses("rule-word", what)
            it.chooses("rule-on", on)
        elif key == "known":
            known(it, said)
        elif key == "plan":
            it.chooses("plan", "one group at a time (scopes)")
        else:
            it.types({"title": "title", "note": "notes"}[key], said)


def known(it: Typist, said: str) -> None:
    """A count, put together; two is chosen as a number."""
    found = re.fullmatch(r"(at most|at least|exactly) (\w+) of them (.+?)(?: on (.+))?", said)
    assert found
    if not found[2].isdigit():
        it.types("known-other", said)
        return
    for name, text in (("how", found[1]), ("count", found[2]), ("v", found[3]), ("on", found[4] or "all")):
        it.chooses(f"number-{name}", text)


@contextlib.contextmanager
def at_form(program: str, name: str) -> Iterator[tuple[Web, Typist]]:
    """An empty form of a new case."""
    with Web(program, {}) as web, Browser(1200, 1000) as browser:
        web.enter()
        browser.go(f"file://{web.file}")
        it = Typist(browser)
        it.types("new", name)
        it.leads("main form button")
        yield web, it


def first_question(program: str, folder: str, text: str) -> str:
    """What desk at a terminal asks first, in a line."""
    path = os.path.join(folder, "terminal.case")
    with open(path, "w", encoding="utf-8") as file:
        file.write(text)
    ran = subprocess.run([sys.executable, os.path.join(DESK, "desk"), "ask", "--plain", path, "--acquire", program], input="q\n",
                         capture_output=True, text=True, check=False)
    found = [line for line in ran.stdout.splitlines() if re.match(r"\S.*: .*\S$", line)]
    other = ("Judge", "y yes", "Answered for you")
    return ", ".join(line.replace(": ", " ") for line in found if not line.startswith(other) and "question" not in line)


def normal(text: str) -> list[str]:
    """The lines of a case, with the words in one line and order, since ticks have theirs."""
    lines = text.splitlines()
    words = sorted(word for line in lines if line.startswith("words: ") for word in pieces(line.removeprefix("words: ")))
    return [*(line for line in lines if not line.startswith("words: ")), *words]


def walk(program: str, name: str, text: str, bare: Sequence[str] = ()) -> Faults:
    """One case from an empty form to the first question."""
    with at_form(program, name) as (web, it):
        filled(it, text)
        it.settled()
        it.clicks("button[name='do'][value='ask']")
        it.browser.wait(lambda: it.browser.text(".said") or it.browser.all(".fault:not(#lost)"))
        with open(os.path.join(web.folder, f"{name}.case"), encoding="utf-8") as file:
            made = file.read()
        if normal(made) != normal(text):
            yield f"{name}: the file says {made!r}, and what was typed is {text!r}"
        shown = it.browser.text(".said")
        due = first_question(program, web.folder, made)
        if not shown or due != shown:
            yield f"{name}: the page asks {shown!r}, and desk at a terminal {due!r}"
        errors = [one for one in it.browser.errors() if "favicon" not in one]
        if errors:
            yield f"{name}: the browser complains of {errors}"
        clicks = sum(one.startswith(("clicks", "opens", "chooses")) for one in it.did)
        typed = sum(len(one.split("'")[1]) for one in it.did if one.startswith("types"))
        print(f"form: {name}: {typed} letters and {clicks} clicks until the first question, some {it.seconds / 60:.1f} minutes of a person")


def seats(program: str) -> Faults:
    """A dinner, whose values are a grid."""
    yield from walk(program, "seats", people.SEATS)


def conference(program: str) -> Faults:
    """A conference."""
    yield from walk(program, "conference", people.CONFERENCE)


def holidays(program: str) -> Faults:
    """Holidays, with a count that is known."""
    yield from walk(program, "holidays", people.HOLIDAYS.replace("two of them week1", "2 of them week1 on all"))


def store(program: str) -> Faults:
    """A store of chemicals."""
    yield from walk(program, "store", people.STORE)


def choir(program: str) -> Faults:
    """A choir, with one who can't come every evening."""
    yield from walk(program, "choir", people.CHOIR)


def duty(program: str) -> Faults:
    """A roster, with names that have blanks, with what somebody can't do, steps, notes."""
    yield from walk(program, "duty", DUTY)


def menu(program: str) -> Faults:
    """Things with values of their own, and words that name them."""
    yield from walk(program, "menu", MENU)


THREE = """title: Three
things: a b c
values: 1 2 3
ask: all
words: different, before
"""
MOST_TABS = 150
MOST_HIGH = 7000        # of a roster's form on a phone


def by_keys(program: str) -> Faults:
    """A case without a mouse: the tab key leads to each field, and stays where it was when the page is drawn anew."""
    with at_form(program, "three") as (web, it):
        it.browser.driver.execute_script("document.getElementById('main').focus()")
        for name, value, keys in (("title", "", "Three"), ("things-text", "", "a b c"), ("values-text", "", "1 2 3"), ("ask", "all", " "),
                                  ("words", "different", " "), ("words", "before", " "), ("do", "ask", "\n")):
            if not reached(it, name, value):
                yield f"no tab leads to {name} {value}"
                return
            if name == "title":
                it.browser.driver.execute_script("document.activeElement.select()")
            it.browser.key(keys)
            if name == "do":
                break
            it.settled()
            at = it.browser.driver.execute_script("return document.activeElement.name || document.activeElement.tagName")
            if at != name:
                yield f"after {name} {value} the keys are at {at}"
        it.browser.wait(lambda: it.browser.text(".said"))
        with open(os.path.join(web.folder, "three.case"), encoding="utf-8") as file:
            if (made := file.read()) != THREE:
                yield f"by keys alone the file says {made!r}"


def reached(it: Typist, name: str, value: str) -> bool:
    """Presses the tab key until it leads to a field; whether it does."""
    for _ in range(MOST_TABS):
        it.browser.key("\ue004")
        now = it.browser.driver.execute_script("const at = document.activeElement; return [at.name || '', at.value || '']")
        if now[0] == name and value in ("", now[1]):
            return True
    return False


PHONE = (360, 640)
# whether what has the focus is hidden, below the bar at the bottom or beside the page; nothing once the form is left
HIDDEN = """
const at = document.activeElement, bar = document.querySelector('.save'), box = at.getBoundingClientRect();
if (bar.contains(at)) return null;
const x = Math.min(box.left + box.width / 2, innerWidth - 2);
for (const y of [box.top + 2, box.top + Math.min(box.height, 60) - 3]) {
  const there = document.elementFromPoint(x, y);
  if (y < 0 || y > innerHeight || !there || bar.contains(there)) return `${at.tagName} ${at.name || at.textContent.trim().slice(0, 40)}`;
}
return '';"""


def seen(program: str) -> Faults:
    """What the keyboard leads to is never hidden below the bar that saves, on a phone and on a low screen."""
    with Web(program, {"x.case": people.WARD}) as web, Browser() as browser:
        browser.go(f"file://{web.file}")
        browser.at("#new-name")
        for width, height in (PHONE, (1000, 500)):
            browser.sized(width, height)
            browser.go(f"http://{web.host}{web.path}/case/x.case")
            browser.at("#title-text").click()
            steps = 0
            while (hidden := browser.driver.execute_script(HIDDEN)) is not None and steps < MOST_TABS:
                if hidden:
                    yield f"at {width} by {height} this is hidden: {hidden}"
                browser.key("\ue004")
                steps += 1
            if not 20 < steps < MOST_TABS:
                yield f"at {width} by {height} the bar comes after {steps} steps"


WRONG = "return [...document.querySelectorAll('[aria-invalid]')].map(one => one.id || one.value)"
# of a tick: its colours, and whether what is said of it can be seen within it or below it
TICK = """
const one = document.querySelector(`input[name=words][value="${arguments[0]}"]`);
const box = one.closest('label'), style = getComputedStyle(box);
const end = box.getBoundingClientRect().bottom;
const said = document.getElementById(one.getAttribute('aria-describedby') || '-');
const seen = said !== null && said.checkVisibility() && said.getBoundingClientRect().top - end < 20;
return [style.backgroundColor, style.outlineStyle,
    getComputedStyle(box.querySelector('strong')).color, seen];"""


def marks(program: str) -> Faults:
    """While somebody types, a field is marked as soon as it is wrong, and no longer once it is
    right; a tick that is wrong is told from a right one by its colour, and by what stands below."""
    with Web(program, {"x.case": THREE.replace("before", "befor")}) as web, \
            Browser(1200, 1000) as browser:
        browser.go(f"file://{web.file}")
        browser.at("#new-name")
        browser.go(f"http://{web.host}{web.path}/case/x.case")
        browser.settled()
        for dark in (False, True):
            browser.sized(1200, 1000, dark)
            right, wrong = (browser.driver.execute_script(TICK, text)
                            for text in ("different", "befor"))
            if any(one == other for one, other in zip(right, wrong, strict=True)) or not wrong[-1]:
                yield f"dark {dark}: a tick that is wrong is {wrong}, and a right one {right}"
        for text, due in (("a b c a", ["things-text"]), ("a b c", ["befor"])):
            browser.types("#things-text", text)
            browser.settled()
            if (now := browser.driver.execute_script(WRONG)) != due:
                yield f"with the things {text!r} marked as wrong are {now}, and not {due}"


FOLDED = "return [...document.querySelectorAll('#ask details[data-fold]')].map(one => [one.dataset.fold, one.open])"


def on_a_phone(program: str) -> Faults:
    """On a narrow page groups are folded, and stay as they were put when the page is drawn anew."""
    with Web(program, {"x.case": people.WARD}) as web, Browser() as browser:
        browser.go(f"file://{web.file}")
        browser.at("#new-name")
        high = []
        for width in (1000, 360):
            browser.sized(width, 900)
            browser.go(f"http://{web.host}{web.path}/case/x.case")
            browser.settled()
            folded = dict(browser.driver.execute_script(FOLDED))
            if folded != dict.fromkeys(("By day", "By shift", "From one shift to another"), width > 360):
                yield f"at {width} the groups are {folded}"
            high.append(browser.driver.execute_script("return document.documentElement.scrollHeight"))
        if high[1] > MOST_HIGH:
            yield f"on a phone the form is {high[1]} high"
        browser.driver.execute_script("document.querySelector('#ask details[data-fold]').open = true")
        browser.types("#title-text", "Another")
        browser.ticks("input[name=ask][value=all]")
        browser.settled()
        if list(dict(browser.driver.execute_script(FOLDED)).values()) != [True, False, False]:
            folded = browser.driver.execute_script(FOLDED)
            yield f"after the page was drawn anew the groups are {folded}"


def without_scripts(program: str) -> Faults:
    """A case in a browser that runs none: what fits stands there once it is saved."""
    with at_form(program, "three") as (web, it):
        driver = it.browser.driver
        driver.execute_cdp_cmd("Emulation.setScriptExecutionDisabled", {"value": True})
        driver.refresh()

        def field(selector: str):  # type: ignore[no-untyped-def]
            return it.browser.wait(lambda: driver.find_elements("css selector", selector))[0]

        for name, text in (("title", "Three"), ("things-text", "a b c"), ("values-text", "1 2 3")):
            field(f"[name='{name}']").clear()
            field(f"[name='{name}']").send_keys(text)
        if driver.find_elements("css selector", ".chips li"):
            yield "scripts run all the same"
        field("button.main[value='save']").send_keys("\n")
        it.browser.wait(lambda: len(driver.find_elements("css selector", ".chips li")) == 6)
        for name, text in (("ask", "all"), ("words", "different"), ("do", "save"), ("words", "before"), ("do", "ask")):
            before = field("#fields")
            main = ".main" if text == "save" else ""  # not that of a thing's own values
            field(f"{main}[name='{name}'][value='{text}']").send_keys("\n" if name == "do" else " ")
            if text == "save":
                it.browser.wait(lambda before=before: gone(before))

        def asked() -> bool:
            if driver.find_elements("css selector", "#share"):
                driver.refresh()
            return bool(driver.find_elements("css selector", ".said, ul.todo li"))
        it.browser.wait(asked)
        with open(os.path.join(web.folder, "three.case"), encoding="utf-8") as file:
            if (made := file.read()) != THREE:
                yield f"without scripts the file says {made!r}"


TESTS = (seats, conference, holidays, store, choir, duty, menu, by_keys, seen, marks, on_a_phone,
         without_scripts)
PLANTED = (
    # a word that is ticked isn't written
    ("fields.py", "several[builder.field].append(made)", "several[builder.field] = [made]", duty),
    # where somebody was is forgotten when the page is drawn anew
    ("static/case.js", "if (again) again.focus({preventScroll: true});", "", by_keys),
    # the bar that saves covers what the keyboard leads to
    ("static/case.css", "html:has(.save) { scroll-padding: 1rem 0 6rem; }", "", seen),
    # what is wrong looks as what is right, and what is typed isn't marked before it is saved
    ("static/case.css", "label.tick:has(input[aria-invalid]) { background: var(--clash-ground);",
     "label.tick:has(input[aria-invalid]) {", marks),
    ("static/case.js", "  marked(page);\n", "", marks),
    ("static/case.js", '    else if (now) field.removeAttribute("aria-invalid");\n', "", marks),
    # groups are never folded, and what was opened is folded again
    ("static/case.js", "  fold(form, new Map());\n", "", on_a_phone),
    ("static/case.js", "seen.has(head) ? seen.get(head) : ", "", on_a_phone),
    # what is ticked in the file isn't ticked on the page
    ("templates/fields.html", "{% if on %} checked{% endif %}> <span>", "> <span>",
     without_scripts),
)
