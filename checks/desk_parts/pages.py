"""The report page: what stands in it, that names are text, contrast, the certificate, and a real browser.

A reader of HTML that is strict about nesting looks at the page; headless chromium, where it is installed, has to have each
sentence and each plan in its DOM, and makes a PDF of A4 pages.
"""

from __future__ import annotations

import hashlib
import os
import re
import shutil
import subprocess
import sys
from html.parser import HTMLParser

import hands        # desk's folder is on the path now
from planners_desk.case import casefile
from planners_desk.sitting import judging
from planners_desk.hints import sentences
from planners_desk.sitting import session
from planners_desk.hints import solver
from planners_desk.report import style
from planners_desk.program import talk

VOID = {"meta", "br"}
TAGS = {"html", "head", "meta", "title", "style", "body", "main", "section", "h1", "h2", "p", "ul", "li", "span", "div", "figure", "figcaption",
        "table", "thead", "tbody", "tr", "th", "td", "br", "details", "summary", "pre", "code"}
ATTRIBUTES = {"lang", "charset", "name", "content", "http-equiv", "class", "scope"}
POLICY = "default-src 'none'; style-src 'unsafe-inline'"
BROWSERS = ("chromium", "chromium-browser", "google-chrome")
MARKED = """title: Bäckerei <b>&"'</b> &amp; ünd
things: day Mo Di x schicht früh spät nachts
values: Änne <i>Ben</i> "Cas" D&D
ask: same day
words: different, never <i>Ben</i>
"""
HOSTILE = """title: </title></style><script>alert(1)</script><!-- &lt;b&gt; ]]> <?php
things: </td><td onclick>, '><script>alert(1)</script>, &#60;i&#62;, <svg/onload>
values: </ul></section>, javascript:alert(1), <!--
ask: all
words: different, never <!--
"""
TEMPER = """title: Leer
thing a: x y
thing b: x y
ask: a-b
words: a=x not with b=y
"""

PLANTED = [
    # names aren't escaped
    ("report/markup.py", "else html.escape(piece) for piece", "else piece for piece"),
    # the days of a plan are shifted by one
    ("report/page.py", "name, scope=\"col\") for name in grid.heads)", "name, scope=\"col\") for name in grid.heads[1:] + grid.heads[:1])"),
    # what was given again counts as said beforehand
    ("report/page.py", "by[ALWAYS] + by[CARRIED]} said beforehand", "by[ALWAYS] + by[CARRIED] + by[AGAIN]} said beforehand"),
    # the person's own answers are counted wrong
    ("report/page.py", "{by['']} of them given one by one", "{by[''] + by[AGAIN]} of them given one by one"),
    # a text that is hard to read
    ("report/style.py", "\"dim\": (\"#566072\"", "\"dim\": (\"#8a93a3\""),
]


def run(program: str) -> list[str]:
    """The faults that were found."""
    faults: list[str] = []
    browser = next((name for name in BROWSERS if shutil.which(name)), None)
    faults += [f"pages: contrast: {fault}" for fault in contrast()]
    looked = 0
    for name, text, owner, plan, most in (
            ("ward", hands.WARD, hands.ward, "quacq", None), ("school", hands.SCHOOL, hands.school, "scopes", None),
            ("marked", MARKED, lambda q: len(set(q.values())) == len(q), "scopes", None), ("ward", hands.WARD, hands.ward, "scopes", 30),
            ("leer", TEMPER, lambda q: True, "scopes", None), ("bicycle", hands.BICYCLE, hands.bicycle, "scopes", None)):
        with hands.room(name, text) as path:
            ending = hands.answered(path, program, owner, plan, most)
            looked += 1
            faults += [f"pages: {name} in {plan}, {ending}: {fault}" for fault in one_page(program, path, ending, browser if looked != 4 else None)]
    for row in (hostile, clash, given, unwritable, no_session):
        faults += [f"pages: {row.__name__}: {fault}" for fault in row(program)]
    if browser is None:
        hands.passed_over("pages", "no browser looks at them, since no chromium is installed")
    elif not (shutil.which("pdfinfo") and shutil.which("pdftotext")):
        hands.passed_over("pages", "their PDF isn't looked at, since poppler-utils isn't installed")
    if solver.name() is None:
        hands.passed_over("pages", "no plan is drawn on them, since no solver is installed")
    print(f"pages: {looked} pages")
    return faults


def quick(program: str) -> list[str]:
    """The same in little, without a browser."""
    with hands.room("marked", MARKED) as path:
        ending = hands.answered(path, program, lambda q: len(set(q.values())) == len(q))
        return [*contrast(), *one_page(program, path, ending, None), *given(program)]


# ---------------------------------------------------------------- reading a page

class Page(HTMLParser):
    """The texts and tables of a page; faults of its nesting."""

    def __init__(self, content: str) -> None:
        super().__init__(convert_charrefs=True)
        self.open: list[str] = []
        self.faults: list[str] = []
        self.tags: list[tuple[str, dict[str, str | None]]] = []
        self.texts: dict[str, list[str]] = {}
        self.tables: list[list[list[str]]] = []
        self.feed(content)
        self.close()
        if self.open:
            self.faults.append(f"not closed: {self.open}")

    def handle_starttag(self, tag: str, attrs: list[tuple[str, str | None]]) -> None:
        self.tags.append((tag, dict(attrs)))
        if tag in VOID:
            if tag == "br":
                self.handle_data("\n")
            return
        self.open.append(tag)
        self.texts.setdefault(tag, []).append("")
        if tag == "table":
            self.tables.append([])
        if tag == "tr":
            self.tables[-1].append([])
        if tag in ("td", "th"):
            self.tables[-1][-1].append("")

    def handle_comment(self, data: str) -> None:
        self.faults.append(f"a comment: {data[:40]}")

    def unknown_decl(self, data: str) -> None:
        self.faults.append(f"a declaration: {data[:40]}")

    def handle_pi(self, data: str) -> None:
        self.faults.append(f"an instruction: {data[:40]}")

    def handle_endtag(self, tag: str) -> None:
        if not self.open or self.open.pop() != tag:
            self.faults.append(f"</{tag}> closes something else")

    def handle_data(self, data: str) -> None:
        for tag in dict.fromkeys(self.open):
            self.texts[tag][-1] += data
        if self.open and self.open[-1] in ("td", "th"):
            self.tables[-1][-1][-1] += data


def one_page(program: str, path: str, ending: str, browser: str | None) -> list[str]:
    """The page of a session."""
    target = path.removesuffix(".case") + ".html"
    ran = hands.report(program, path, target)
    if ran.returncode != 0:
        return [f"status {ran.returncode}: {ran.stderr}"]
    with open(target, encoding="utf-8") as file:
        content = file.read()
    found = form(content)
    page = Page(content)
    with session.Session.opened(casefile.read(path), talk.Program(program)) as one:
        state = one.state()
        found += said(one, page, state, ending)
        found += answers(one, page)
        if ending == "converged":
            found += plans(one, page, state) + certificate(program, content, target)
        elif "certificate" not in content or ".certificate" in content:
            found.append("an unfinished session has a certificate")
        if browser:
            found += in_browser(browser, target, one, page)
    return found


def form(content: str) -> list[str]:
    """One file without script and without anything from elsewhere, with the language and table heads."""
    page = Page(content)
    names = {tag for tag, _ in page.tags}
    found = list(page.faults)
    if not content.startswith("<!DOCTYPE html>\n<html lang=\"en\"><head><meta charset=\"utf-8\">"):
        found.append(f"begins {content[:60]!r}")
    if names - TAGS or re.search(r"https?:", content) or "url(" in content or "@import" in content:
        found.append(f"has {names - TAGS} or fetches something")
    if other := {key for _, attrs in page.tags for key in attrs} - ATTRIBUTES:
        found.append(f"has attributes that no page needs: {other}")
    policies = [place for place, (tag, attrs) in enumerate(page.tags) if attrs.get("http-equiv") == "Content-Security-Policy" and attrs["content"] == POLICY]
    if len(policies) != 1 or policies[0] > [tag for tag, _ in page.tags].index("title"):
        found.append("no policy says in front of all else that a browser only shows it")
    heads = [attrs.get("scope") for tag, attrs in page.tags if tag == "th"]
    if not all(scope in ("col", "row") for scope in heads) or page.texts.get("thead", []) == [] != page.texts.get("table", []):
        found.append("a table has no heads")
    if not shutil.which("tidy"):
        return found
    tidy = subprocess.run(["tidy", "-q", "-e", "-utf8"], input=content, capture_output=True, text=True, check=False)
    return found + ([f"tidy: {tidy.stderr[:300]}"] if tidy.stderr.strip() else [])


def said(one: session.Session, page: Page, state: object, ending: str) -> list[str]:
    """The title, how far the session is, and each sentence."""
    found = []
    if page.texts["title"] != [one.case.title] or page.texts["h1"] != [one.case.title]:
        found.append(f"the title is {page.texts['title']} and {page.texts['h1']}")
    learned = one.learned()
    wanted = [it.whole for it in sentences.grouped(one.vocabulary, learned, one.reduced() if ending == "converged" else None, one.answers)]
    lines = page.texts.get("li", [])
    found += [f"{text!r} isn't among the rules" for text in wanted if text not in lines]
    if ending != "converged" and "Not finished: 30 answers" not in " ".join(page.texts["p"]):
        found.append("it doesn't say that the session goes on")
    return found


def answers(one: session.Session, page: Page) -> list[str]:
    """Each answer stands in the last table, folded away."""
    rows = page.tables[-1][1:]
    wanted = []
    for answer in one.answers:
        shown = ", ".join(f"{one.case.things[thing].name} {one.case.values[value]}" for thing, value in sorted(answer.question.values.items()))
        wanted.append([str(answer.question.number), "yes" if answer.yes else "no", shown])
    found = [] if [row[:3] for row in rows] == wanted else [f"the answers are {rows[:2]} and not {wanted[:2]}"]
    if page.texts.get("summary") != [f"All {len(wanted)} answers"] or any("open" in attrs for tag, attrs in page.tags if tag == "details"):
        found.append("the answers aren't folded away")
    return found


def plans(one: session.Session, page: Page, state: object) -> list[str]:
    """Each plan that is drawn, cell by cell: allowed ones first, then for each sentence one that breaks it. Without a solver it is
    said why there is none."""
    if solver.name() is None:
        said = "None are drawn, since no SAT solver is installed: cadical, minisat or clasp."
        good = said in page.texts["p"] and "figcaption" not in page.texts
        return [] if good else [f"without a solver it says {page.texts['p']}"]
    assert hasattr(state, "learned")
    found, read = [], [read_plan(one, table) for table in page.tables]
    drawn = [plan for plan in read if plan is not None]
    captions = page.texts.get("figcaption", [])
    if len(drawn) != len(captions):
        return [f"{len(drawn)} plans have {len(captions)} captions"]
    some = sentences.grouped(one.vocabulary, state.learned, one.reduced())
    rules = {rule.text: rule for it in some for rule in it.rules}
    allowed = [plan for plan, caption in zip(drawn, captions) if caption.startswith("Plan")]
    for plan in allowed:
        whole = set(plan) == {thing.place for thing in one.case.things}
        if not whole or not all(one.vocabulary.accepts(constraint, plan) for constraint in state.learned):
            found.append(f"{plan} isn't a plan that the rules allow")
    if len(allowed) < min(4, len(solver.plans(one.program, one.vocabulary, one.journal, 4))):
        found.append(f"{len(allowed)} plans are drawn")
    broken = {caption.removeprefix("Refused: "): plan for plan, caption in zip(drawn, captions) if caption.startswith("Refused: ")}
    for text, plan in broken.items():
        if not rules[text].violated(plan) or any(other.violated(plan) for name, other in rules.items() if name != text):
            found.append(f"{text}: {plan} doesn't break it alone")
    for it in some:
        if judging.broken_alone(one, it, some) is not None and not any(rule.text in broken for rule in it.rules):
            found.append(f"{it.text}: no plan breaks it")
    return found


def read_plan(one: session.Session, table: list[list[str]]) -> dict[int, int] | None:
    """The values of a drawn plan; None of a table of another kind."""
    case = one.case
    thing_of, value_of = {thing.name: thing.place for thing in case.things}, {name: place for place, name in enumerate(case.values)}
    heads, plan = table[0][1:], {}
    if table[0] == ["what", "value"]:
        return {thing_of[name]: value_of[label.rstrip("!")] for name, label in table[1:]}
    for row in table[1:]:
        for head, cell in zip(heads, row[1:]):
            names = (f"{head} {row[0]}", f"{row[0]} {head}")
            for line in filter(None, cell.split("\n")):
                bare = line.removesuffix("!")
                thing = next((thing_of[name] for name in names if name in thing_of), None)
                if thing is not None and bare in value_of:
                    plan[thing] = value_of[bare]
                elif bare in thing_of and any(name in value_of for name in names):
                    plan[thing_of[bare]] = next(value_of[name] for name in names if name in value_of)
                else:
                    return None
    return plan


def certificate(program: str, content: str, target: str) -> list[str]:
    """The certificate's name, its sha256, and the command that checks it, which is run."""
    found = []
    name = target.removesuffix(".html") + ".certificate"
    with open(name, "rb") as file:
        digest = hashlib.sha256(file.read()).hexdigest()
    page = Page(content)
    command, *rest = page.texts["pre"]
    if rest != [digest] or os.path.basename(name) not in " ".join(page.texts["code"]):
        found.append(f"the sha256 is {rest} and not {digest}")
    ran = subprocess.run(["sh", "-c", command.replace("acquire", program, 1)], cwd=os.path.dirname(name), capture_output=True, text=True, check=False)
    if ran.returncode != 0 or not ran.stdout.startswith("confirmed"):
        found.append(f"{command}: {ran.returncode}, {ran.stdout}{ran.stderr}")
    return found


# ---------------------------------------------------------------- a browser

def in_browser(browser: str, target: str, one: session.Session, page: Page) -> list[str]:
    """The browser's DOM holds each sentence and each cell of each plan, and its PDF has A4 pages."""
    words = [browser, "--headless", "--no-sandbox", "--disable-gpu", "--disable-dev-shm-usage", f"--user-data-dir={os.path.dirname(target)}/browser"]
    dom = subprocess.run([*words, "--dump-dom", f"file://{target}"], capture_output=True, text=True, encoding="utf-8", check=False).stdout
    read = Page(dom)
    found = []
    for tag in ("h1", "li", "figcaption", "summary"):
        if read.texts.get(tag) != page.texts.get(tag):
            found.append(f"the browser has {read.texts.get(tag)} as {tag}")
    if [[[cell for cell in row] for row in table] for table in read.tables] != page.tables:
        found.append("the browser has other tables")
    pdf = target + ".pdf"
    subprocess.run([*words, f"--print-to-pdf={pdf}", "--no-pdf-header-footer", f"file://{target}"], capture_output=True, check=False)
    if not os.path.exists(pdf):
        return found + ["the browser makes no PDF"]
    if shutil.which("pdfinfo") and shutil.which("pdftotext"):
        info = subprocess.run(["pdfinfo", pdf], capture_output=True, text=True, check=False).stdout
        size = re.search(r"Page size: +([\d.]+) x ([\d.]+)", info)
        count = re.search(r"Pages: +(\d+)", info)
        # All answers are on paper, a line or a few for each.
        most = 12 + len(one.answers) // 25
        if not size or abs(float(size[1]) - 595) > 2 or abs(float(size[2]) - 842) > 2 or not count or not 1 <= int(count[1]) <= most:
            found.append(f"the PDF, at most {most} pages: {info}")
        text = re.sub(r"\s+", "", subprocess.run(["pdftotext", pdf, "-"], capture_output=True, text=True, check=False).stdout)
        found += [f"{line!r} isn't in the PDF" for line in page.texts.get("li", []) if re.sub(r"\s+", "", line) not in text]
    return found


# ---------------------------------------------------------------- colours, and what can't be written

def luminance(colour: str) -> float:
    """The relative luminance of a colour (WCAG 2)."""
    parts = [int(colour[k:k + 2], 16) / 255 for k in (1, 3, 5)]
    r, g, b = (part / 12.92 if part <= 0.03928 else ((part + 0.055) / 1.055) ** 2.4 for part in parts)
    return 0.2126 * r + 0.7152 * g + 0.0722 * b


def contrast() -> list[str]:
    """Each text has a contrast of 4.5 to its ground, light and dark."""
    found = []
    for text, ground in style.PAIRS:
        for place, when in enumerate(("light", "dark")):
            one, other = sorted((luminance(style.COLOURS[name][place]) for name in (text, ground)), reverse=True)
            if (one + 0.05) / (other + 0.05) < 4.5:
                found.append(f"{text} on {ground}, {when}: {(one + 0.05) / (other + 0.05):.2f}")
    used = set(re.findall(r"var\(--([a-z-]+)\)", style.STYLE))
    if used - set(style.COLOURS) or "prefers-color-scheme:dark" not in style.STYLE or "@page{size:A4" not in style.STYLE:
        found.append(f"colours without a meaning: {used - set(style.COLOURS)}")
    return found


def hostile(program: str) -> list[str]:
    """Names, a title and a file name that look like a page's own tags are text of it, wherever they stand."""
    with hands.room("hostile", HOSTILE) as path:
        ending = hands.answered(path, program, lambda q: len(set(q.values())) == len(q))
        found = one_page(program, path, ending, None)
        target = os.path.join(os.path.dirname(path), "<script>alert(1)<!--\"'&.html")
        ran = hands.report(program, path, target)
        with open(target, encoding="utf-8") as file:
            page = Page(file.read())
        codes = page.texts.get("code", [])
        if ran.returncode or page.faults or {tag for tag, _ in page.tags} - TAGS or os.path.basename(target).replace(".html", ".certificate") not in codes:
            found.append(f"a file name that looks like a tag: {page.faults}, {codes}, {ran.stderr}")
        return found


def clash(program: str) -> list[str]:
    """Of answers that clash there are no rules on the page."""
    with hands.room() as path:
        ending = hands.answered(path, program, hands.ward, "quacq", slip=60)
        target = path + ".html"
        ran = hands.report(program, path, target)
        with open(target, encoding="utf-8") as file:
            content = file.read()
        page = Page(content)
        if ending != "collapsed" or ran.returncode != 0:
            return [f"{ending}, {ran.returncode}, {ran.stderr}"]
        return [] if "The answers clash" in content and "rules" not in "".join(page.texts["h2"]) else [f"it says {page.texts['h2']}"]


def given(program: str) -> list[str]:
    """How many answers were given one by one, again after going back, and otherwise is what stands beside each of them."""
    with hands.room("w", hands.TEAM + "always: different on Bär - Öz\n") as path:
        one = casefile.read(path)
        with session.Session.opened(one, talk.Program(program), "scopes") as it, it.sit() as sitting:
            sitting.advance()
            own = 0
            while own < 12 and sitting.question is not None:
                sitting.answer(hands.team({one.things[thing].name: one.values[value] for thing, value in sitting.question.values.items()}))
                own += 1
                sitting.advance()
            places = [place for place, answer in enumerate(it.answers) if answer.said is None]
            yes = it.answers[places[-6]].yes
            sitting.back_to(places[-6])
            sitting.answer(yes)
            sitting.advance()
        target = path + ".html"
        hands.report(program, path, target)
        with open(target, encoding="utf-8") as file:
            page = Page(file.read())
    came = [row[3] for row in page.tables[-1][1:]]
    counts = [came.count("asked"), sum(how.startswith("said before you went back") for how in came), sum(how.startswith("said beforehand") for how in came)]
    wanted = (f"{len(came)} answers, {counts[0]} of them given one by one, {counts[1]} again as before you went back, "
              f"{counts[2]} said beforehand or carried over")
    if min(counts) == 0 or sum(counts) != len(came) or counts[0] != own - 5:
        return [f"the answers came as {came}"]
    return [] if wanted in " ".join(page.texts["p"]) else [f"it says {page.texts['p'][0]!r} and not {wanted!r}"]


def unwritable(program: str) -> list[str]:
    """Where the page can't be written, desk says so, and leaves what was there."""
    with hands.room("leer", TEMPER) as path:
        hands.answered(path, program, lambda q: True)
        folder = os.path.dirname(path)
        ran = hands.report(program, path, os.path.join(folder, "nowhere", "page.html"))
        os.mkdir(os.path.join(folder, "taken.html"))
        other = hands.report(program, path, os.path.join(folder, "taken.html"))
        left = [name for name in os.listdir(folder) if name.startswith("tmp")]
        if ran.returncode != 1 or other.returncode != 1 or "Traceback" in ran.stderr + other.stderr or "nowhere" not in ran.stderr or left:
            return [f"{ran.returncode}, {ran.stderr}; {other.returncode}, {other.stderr}; {left}"]
        return []


def no_session(program: str) -> list[str]:
    """Without a session there is no page, and none is begun."""
    with hands.room() as path:
        ran = hands.report(program, path, path + ".html")
        if ran.returncode != 1 or "no session" not in ran.stderr or os.path.exists(hands.journal(path)) or os.path.exists(path + ".html"):
            return [f"{ran.returncode}, {ran.stderr}, {os.listdir(os.path.dirname(path))}"]
        return []


if __name__ == "__main__":
    print("\n".join(run(sys.argv[1])))
