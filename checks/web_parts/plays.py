"""People from an empty form to the report, by a driver that clicks and types; the same questions, answers and rules as at a terminal.

DESK_PICTURES=FOLDER keeps pictures of each kind of page, at three widths.
"""

from __future__ import annotations

import contextlib
import os
import re
import subprocess
import sys
import time
from collections.abc import Callable, Iterator

from browser import Browser
from people import EVERY, Person, Shown
from served import DESK, Web

PICTURES = os.environ.get("DESK_PICTURES", "")
WIDTHS = (360, 800, 1600)

Faults = Iterator[str]

# what stands in the first table of a page, as a person reads it: the heads, and what is in each cell
TABLE = """
const table=document.querySelector('table.plan'), list=[];
const bare=node=>{const copy=node.cloneNode(true);copy.querySelectorAll('.unseen').forEach(one=>one.remove());return copy.textContent.trim();};
const heads=[...table.tHead.rows[0].cells].map(bare);
for(const row of table.tBodies[0].rows){
  [...row.cells].slice(1).forEach((cell,place)=>{
    const inside=[...cell.querySelectorAll('.entry')].map(bare);
    for(const text of inside.length?inside:[bare(cell)])if(text)list.push([heads[0],heads[place+1],bare(row.cells[0]),text]);});}
return list;"""


def shown(browser: Browser, person: Person) -> Shown:
    """The values that the page shows, by the names of things."""
    found: Shown = {}
    for corner, head, row, text in browser.driver.execute_script(TABLE):
        if corner == "what":
            found[row] = text
        elif corner == "value":
            found[text] = row
        elif " x " in person.of("things"):
            found[f"{head} {row}"] = text
        else:
            found[text] = f"{head} {row}"
    return found


def made(browser: Browser, person: Person) -> None:
    """Makes the case in the form, from an empty one."""
    browser.types("#new-name", person.name.removesuffix(".case"))
    browser.leads(lambda: browser.click("Make it"))
    browser.types("#title-text", person.of("title"))
    for field in ("things", "values"):
        sides = person.of(field).split(" x ")
        if len(sides) == 1:
            browser.types(f"#{field}-text", "\n".join(sides[0].split()) if ".." not in sides[0] else sides[0])
            continue
        browser.clicks(f"input[name={field}-kind][value=grid]")
        for place, side in enumerate(sides):
            name, _, members = side.partition(" ")
            browser.types(f"#{field}-side-{place}-name", name)
            browser.types(f"#{field}-side-{place}-text", members)
    for place, line in enumerate(line for line in person.text.splitlines() if line.startswith("only ")):
        name, _, some = line.removeprefix("only ").partition(": ")
        browser.chooses(f"#only-{place}-name", name)
        for one in some.split(", "):
            browser.ticks(f'input[name=only-{place}-tick][value="{one}"]')
    for field in ("ask", "words"):
        for text in person.of(field).split(", "):
            browser.ticks(f'input[type=checkbox][name={field}][value="{text}"]')
    for field in ("always", "known"):
        if person.of(field):
            browser.types(f"#{field}-other", person.of(field))
    if person.of("note"):
        browser.types("#notes-text", person.of("note"))
    browser.clicks(f"#plan-choice option[value={person.of('plan')}]")


def pictured(browser: Browser, name: str) -> None:
    """Keeps pictures of a page, where they are wanted."""
    if PICTURES:
        os.makedirs(PICTURES, exist_ok=True)
        for width in WIDTHS:
            browser.sized(width, 900)
            time.sleep(0.2)
            browser.picture(os.path.join(PICTURES, f"{name}-{width}.png"))
        browser.sized(1000, 900)


def answered(browser: Browser, person: Person) -> str:
    """Answers all questions; the keys that were given."""
    given = ""
    while "question" in browser.head():
        right = person.judge(shown(browser, person))
        given += "y" if right else "n"
        browser.does("Yes" if right else "No")
        if len(given) == 12:
            pictured(browser, f"{person.name}-question")
    return given


def rules(browser: Browser) -> list[str]:
    """The rules as the page says them, each a line."""
    return browser.driver.execute_script(
        "return [...document.querySelectorAll('ul.rules > li')].map(li=>{const copy=li.cloneNode(true);copy.querySelectorAll('details').forEach(one=>one.remove());"
        "return copy.textContent.replace(/\\s+/g,' ').trim();});")


def judged(browser: Browser, person: Person) -> Faults:
    """Judges the plans as the person would."""
    pictured(browser, f"{person.name}-done")
    if browser.button("Look at plans") is None:
        yield "no plans can be looked at"
        return
    browser.does("Look at plans")
    count, kinds = 0, set()
    while "Done" not in browser.head() and count < 60:
        count += 1
        right = person.judge(shown(browser, person))
        refused = "refuse" in browser.head()
        if refused not in kinds:
            kinds.add(refused)
            pictured(browser, f"{person.name}-{'refused' if refused else 'plan'}")
        if right == refused:
            yield f"the plan {shown(browser, person)} is {'refused' if refused else 'allowed'}, and {person.name} would judge otherwise"
        browser.does("Yes")
    if kinds != {False, True}:
        yield f"plans that are allowed and such that aren't were to be judged: {kinds}"


def at_a_terminal(program: str, web: Web, person: Person, given: str) -> tuple[str, list[str]]:
    """The same case with the same keys at a terminal: what it printed last, and its journal's lines."""
    copy = os.path.join(web.folder, "terminal.case")
    with open(os.path.join(web.folder, person.name), encoding="utf-8") as file, open(copy, "w", encoding="utf-8") as other:
        other.write(file.read())
    ran = subprocess.run([sys.executable, os.path.join(DESK, "desk"), "ask", "--plain", copy], input="".join(f"{key}\n" for key in given + "qqq"),
                         capture_output=True, text=True, env={**os.environ, "DESK_ACQUIRE": program}, check=False)
    return ran.stdout, all_lines(program, copy.replace(".case", ".journal"))


def all_lines(program: str, journal: str) -> list[str]:
    """What the program shows of a journal."""
    return subprocess.run([program, journal, "show"], stdin=subprocess.DEVNULL, capture_output=True, text=True, check=False).stdout.splitlines()


def played(program: str, person: Person) -> Faults:
    """One person, from an empty form to the report."""
    began = time.monotonic()
    with Web(program, {}) as web, Browser() as browser:
        browser.go(f"file://{web.file}")
        browser.at("#new-name")
        made(browser, person)
        pictured(browser, f"{person.name}-form")
        browser.click("Save, and")
        browser.wait(lambda: "question" in browser.head())
        form = time.monotonic() - began
        given = answered(browser, person)
        if "Done" not in browser.head():
            yield f"{person.name} ends with {browser.head()!r}"
            return
        said = rules(browser)
        yield from judged(browser, person)
        browser.does("Report")
        pictured(browser, f"{person.name}-report")
        web.enter()
        page = web.get(f"/ask/{person.name}/report.html")
        bare = re.sub(r"<[^>]*>", "", page.text)
        for rule in said:
            if re.sub(r" \(.*", "", rule).replace("&", "&amp;").replace("'", "&#x27;") not in bare:
                yield f"{person.name}: the report doesn't say {rule!r}"
        printed, lines = at_a_terminal(program, web, person, given)
        if lines != all_lines(program, os.path.join(web.folder, person.name.replace(".case", ".journal"))):
            yield f"{person.name}: at a terminal the same keys lead elsewhere"
        listed = [line.removeprefix("- ") for line in printed.splitlines() if line.startswith("- ")]
        if not said or not set(said) <= set(listed):
            yield f"{person.name}: the page says {said}, and the terminal {listed}"
        for rule in person.rules:
            if not any(rule in one for one in said):
                yield f"{person.name}: no rule says {rule!r}: {said}"
        if errors := browser.errors():
            yield f"{person.name}: the browser complains: {errors}"
        print(f"plays: {person.name}: {form:.0f} s for the form, {len(given)} answers, {time.monotonic() - began:.0f} s in all; {'; '.join(said)}")


def _of(person: Person) -> Callable[[str], Faults]:
    """The test of a person."""
    def test(program: str) -> Faults:
        yield from played(program, person)
    test.__name__ = person.name.removesuffix(".case")
    return test


ward, seats, conference, holidays, store, choir = map(_of, EVERY)
TESTS = (ward, seats, conference, holidays, store, choir)
PLANTED = (
    ("tables.py", "if self._values.get(thing.place) == value:",
     "if self._values.get(thing.place) == value - 1:", holidays),
    ("questions.py", 'self.asking.answer(step.do == "y")', 'self.asking.answer(step.do != "y")',
     holidays),
)
